/* Which word of a record is what, for the plain C programs: said here alone. */
#ifndef RECORD_H
#define RECORD_H

enum {
    WORD_ABI, /* the number of the layout */
    WORD_P,
    WORD_W,
    WORD_X_LOWER,
    WORD_X_UPPER,
    WORD_Y_LOWER,
    WORD_Y_UPPER,
    WORD_X,
    WORD_Y,
    WORD_HELD,
    WORD_REMAINDER,
    WORD_WORK,    /* 0 nothing, 1 a line, 2 an arc clockwise, 3 counterclockwise */
    WORD_NUMBERS, /* the numbers of what is in work */
    NUMBERS = 7,
    WORD_ROOT = WORD_NUMBERS + NUMBERS, /* from here on as struct queue of machine.h */
    WORD_LEFT,
    WORD_WAITING,
    WORD_QUEUE, /* the blocks that wait */
    BLOCK_WORDS = 7,
    QUEUE = 16,
    WORDS = WORD_QUEUE + BLOCK_WORDS * QUEUE,
    ABI = 4
};

#endif
