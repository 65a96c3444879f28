/* The pulse core of a two-axis cutting table for C.
 *
 * The core turns lines and arcs into step pulses for X and Y, one clock tick at a time, so that the path keeps to the block
 * and the speed to the feed. It holds no memory of its own: all that it knows stands in a record of 134 words that the
 * caller owns. Nothing is allocated, nothing is static, and two records never touch one another.
 *
 * The code behind each call is proved to answer as said here for every content of the words and every argument; the
 * compiler and this text are not part of the proof. What the caller owes: pointers that are not null and point to as much as
 * the type says, that don't overlap, and one call at a time on one record.
 *
 * Use: vz_make once; then a vz_load_.. for each block as it comes, while fewer than 16 wait behind the one in work, and meanwhile vz_tick
 * (from the clock's interrupt) or vz_run. While a block waits, the knife does not halt where one ends, however late the sender is. vz_ahead
 * tells where so many more ticks will leave it. A board that is given a job text reads it line by line with vz_read_line; vz_check_start
 * and vz_check_fill list it beforehand, and where the text can't be held, vz_panel_start and vz_panel_read, from pieces of it as they come.
 *
 * Needed: C11 or C++11, and an x86-64 machine: tools/archive writes target/libverdaizka.a for it.
 * From outside the archive needs memmove and memset alone.
 *     cc -std=c11 -Iinclude program.c target/libverdaizka.a
 * examples/c has whole programs: square_and_circle.c, look_ahead.c, run_a_job.c, check_a_job.c, slow_line.c.
 *
 * Answers: a refusal is negative everywhere, minus the number of the question that was answered by no, so `if (answer < 0)` sees
 * every one. What a refusal writes: vz_run sets *ticks, vz_check_fill *written, and vz_panel_read *took and *written to 0; vz_ahead copies
 * the record to *then and sets both sums to 0; vz_make, vz_check_start and vz_panel_start make their words anew. All else stays as it was,
 * every word and every byte.
 *
 * Work: every call does a bounded number of steps but for what it writes or reads. Each but vz_make and those of the two checks first tests
 * the whole record: 22 words and, in a loop, seven for each block that waits, by sums, products and comparisons alone, without a root or a
 * division. Beside that test, and beside sums, products and comparisons, at most:
 *     vz_make                       no root, no division; the 22 words that it writes
 *     vz_hold, vz_release, vz_stop  no loop, no root, no division
 *     vz_tick                       the same; but where a block ends and another waits: a root if that is a line, and the words of those
 *                                   behind it move up, 105 at most
 *     vz_load_line, _cw, _ccw       one root: one division of doubles and, where its guess fails, 32 halvings
 *     vz_run                        on a line five divisions, on an arc four and two such roots; a turn a cycle, and the bytes of its
 *                                   ticks cleared once; and as vz_tick where the block ends
 *     vz_ahead                      134 words copied; whatever the ticks, for each block on the way, 17 at most, on a line four divisions,
 *                                   on an arc three and five such roots, and as vz_tick where it ends; on an arc that does not end, one
 *                                   of each for each place that it tries: two as measured, 38 at most
 *     vz_read_line                  a turn for each byte of the line, then a load
 *     vz_check_start                as vz_make
 *     vz_check_fill                 its 19 and 9 words tested; for each text line it lists: a turn for each byte, a load, of an arc two
 *                                   such roots, a division, the row's digits; no block waits there
 *     vz_panel_start                as vz_make
 *     vz_panel_read                 its 19 and 10 words tested; a turn for each byte that it takes, and for a whole line as vz_check_fill
 *                                   for one
 * Whole numbers confirm the guess, so no setting of the floating-point unit makes an answer another; a program that has unmasked its
 * exceptions masks them again before it calls.
 *
 * Units
 *   length   whole pulses. A millimetre is p pulses. X points right, Y up; the machine starts at (0, 0).
 *   time     clock ticks. A second is w ticks.
 *   feed     thousandths of a pulse per minute: thousandths of a millimetre per minute times p, so that 0.75 mm per minute at p 50 is
 *            37,500. A working tick, with a block in work and not held, adds 1,000 * feed to the remainder; where that reaches the
 *            charge of the next cycle times 60,000 * w, this comes off and the cycle is done. A diagonal step of an arc is charged
 *            1,414, every other cycle 1,000. A tick does at most one, so 60,000 * w is the fastest. So a line keeps the feed, and an
 *            arc where it runs along an axis or at 45 degrees; between these it is up to 8 percent slower. A block whose cycles are
 *            charged C together and that comes into work at remainder r ends on the working tick
 *            (C * 60,000 * w - r) / (1,000 * feed), rounded up, counted from there; an arc of k cycles and n pulses is charged
 *            586 * k + 414 * n.
 *            Up to VZ_ABI 3 a feed was in whole pulses per minute. A caller that still passes those is not refused, since each of
 *            them is a feed here too: its block is taken, and runs at a thousandth of the speed.
 *   cycle    the step from one point of the path to the next: one pulse or none on each axis. A line of a by b pulses takes
 *            the root of a * a + b * b, rounded up, of them; an arc one for each point that it visits.
 */
#ifndef VERDAIZKA_H
#define VERDAIZKA_H

#include <stddef.h>
#include <stdint.h>

#ifdef __cplusplus
#define VZ_ASSERT static_assert
extern "C" {
#else
#define VZ_ASSERT _Static_assert
#endif

/* An answer that nobody looks at may be a refusal. */
#if defined(__GNUC__) || defined(__clang__)
#define VZ_ANSWERS __attribute__((warn_unused_result))
#else
#define VZ_ANSWERS
#endif

/* ---- the record */

/* The number of this layout of words, and of what they mean. Every record has it in its first word, so one that was saved under
 * another layout gets 9 and is not misread. A program can ask at its start whether archive and header belong together: after a vz_make
 * that word is VZ_ABI.
 *
 * A record of layout 3 had the same words, but its feeds and its remainder were a thousandth of what they are here. It is one of this
 * layout once its first word is 4 and these are multiplied by 1,000: VZ_WORD_REMAINDER; the feed of what is in work, which of a line is
 * word 16 and of an arc word 17; and VZ_BLOCK_FEED of each block that waits. A vz_known that was saved beside it has no number of a
 * layout, so nothing refuses it: multiply its VZ_KNOWN_FEED too, where that is not -1. A check is begun again.
 *
 * A record of layout 2 had words 0 to 18 alone, and becomes one of 3 with three words more behind these. With nothing in work they are 0;
 * else they are the root (see VZ_WORD_ROOT), the cycles still to do (of a line word 17 less word 18; of an arc the bytes with VZ_CYCLE that
 * ticks on a copy give to its end), and 0; or let the block end, or vz_stop it, under the old archive. Wrong ones get 9. Under 1 the
 * remainder was a thousandth of what it was in 2. */
#define VZ_ABI 4

#define VZ_QUEUE_BLOCKS 16 /* as many may wait behind the block in work */
#define VZ_BLOCK_WORDS 7   /* of each one that waits */
#define VZ_RECORD_WORDS 134

/* Written by the calls alone. It may be read, copied, saved and brought back; a copy is a machine of its own. The record's words are
 * the first 22 and seven for each block that waits. Those behind them are no part of it: no answer depends on them, and no call writes
 * behind the record that it leaves; vz_ahead copies them. So vz_make leaves all from word 22 on as they are, and of a record that is saved
 * VZ_WAITING_WORD(word[VZ_WORD_WAITING], 0) words are enough. */
typedef struct vz_record {
    int64_t word[VZ_RECORD_WORDS];
} vz_record;

VZ_ASSERT(sizeof(vz_record) == 8 * VZ_RECORD_WORDS, "a record is 134 words of 64 bits");

/* Which word is what. */
enum vz_word {
    VZ_WORD_ABI = 0,        /* VZ_ABI */
    VZ_WORD_P = 1,          /* pulses per millimetre */
    VZ_WORD_W = 2,          /* ticks per second */
    VZ_WORD_X_LOWER = 3,    /* travel, in pulses */
    VZ_WORD_X_UPPER = 4,
    VZ_WORD_Y_LOWER = 5,
    VZ_WORD_Y_UPPER = 6,
    VZ_WORD_X = 7,          /* where the machine stands, in pulses */
    VZ_WORD_Y = 8,
    VZ_WORD_HELD = 9,       /* 1 held, 0 not */
    VZ_WORD_REMAINDER = 10, /* what the feed has left over, below 1,414 * 60,000 * w: a tick adds 1,000 times the feed, and a cycle
                               takes its charge times 60,000 * w off. It goes on to the next block. */
    VZ_WORD_WORK = 11,      /* what is in work: 0 nothing, 1 a line, 2 an arc clockwise, 3 an arc counterclockwise */
    VZ_WORD_NUMBERS = 12,   /* seven words. Line: start x, start y, end x, end y, feed, cycles, cycles done.
                               Arc: centre x, centre y, square of the radius, end x, end y, feed, 0. Nothing: all 0.
                               A feed is in thousandths of a pulse per minute, as a load is given it. */
    VZ_WORD_ROOT = 19,      /* of a line in work its cycles; of an arc the cycles of a quarter turn, which are the root of twice the
                               square of the radius, rounded to the nearest; of nothing 0. So the test of a record takes no root. */
    VZ_WORD_LEFT = 20,      /* the cycles still to do over the block in work and all that wait */
    VZ_WORD_WAITING = 21,   /* how many wait, 0 to VZ_QUEUE_BLOCKS; 0 where nothing is in work */
    VZ_WORD_QUEUE = 22      /* VZ_BLOCK_WORDS words for each block that waits, the first to be cut first */
};

/* Of a block that waits, which word is what: the block as its load was given it, and its root. */
enum vz_block_word {
    VZ_BLOCK_KIND = 0, /* 1 a line, 2 an arc clockwise, 3 an arc counterclockwise */
    VZ_BLOCK_X = 1,    /* its end, in pulses */
    VZ_BLOCK_Y = 2,
    VZ_BLOCK_FEED = 3, /* in thousandths of a pulse per minute */
    VZ_BLOCK_I = 4,    /* its centre seen from its start, in pulses; of a line 0 */
    VZ_BLOCK_J = 5,
    VZ_BLOCK_ROOT = 6  /* as VZ_WORD_ROOT */
};

/* Where such a word stands: of the n-th block that waits, counted from 0. */
#define VZ_WAITING_WORD(n, block_word) (VZ_WORD_QUEUE + VZ_BLOCK_WORDS * (n) + (block_word))

VZ_ASSERT(VZ_RECORD_WORDS == VZ_WAITING_WORD(VZ_QUEUE_BLOCKS, 0), "a record has room for 16 blocks that wait");

/* ---- refusals: what each number says, and its usual cure */

enum vz_refusal {
    VZ_REFUSED_P = 1,       /* p is not in 1..1,000. Take whole pulses per millimetre. */
    VZ_REFUSED_W = 2,       /* w is not in 1,000..20,000. Set the clock to 1 to 20 kHz. */
    VZ_REFUSED_TRAVEL = 3,  /* an axis is not -1,000,000 <= lower <= 0 <= upper <= 1,000,000. Put (0, 0) inside the travel. */
    VZ_REFUSED_RECORD = 9,  /* the words are no sound record: never made, saved under another layout, or written by something
                               else than these calls. Call vz_make, find the table's zero again, and look for what wrote there.
                               Of the calls on a job text also: the known G and F, the progress, or the panel's words are none. */
    VZ_REFUSED_FULL = 10,   /* 16 blocks wait already. Tick until the block in work has ended, then give the same one again. */
    VZ_REFUSED_FEED = 11,   /* the feed is not in 1..60,000 * w. Slow down, or make with a faster clock. */
    VZ_REFUSED_END = 12,    /* the end is outside the travel. */
    VZ_REFUSED_STILL = 13,  /* a line to where it would start. Leave the block out. */
    VZ_REFUSED_CENTRE = 14, /* i or j is beyond 1,000,000 either way, or both are 0. They are the centre seen from the start. */
    VZ_REFUSED_CIRCLE = 15, /* the end is not on the circle. Seen from the centre, keep its shorter coordinate and round the
                               longer one to the pulse nearest to the circle. A full turn ends where it starts. */
    VZ_REFUSED_WAY = 16,    /* the arc leaves the travel on its way, though both ends are inside. */
    VZ_REFUSED_FAR = 38     /* more than VZ_AHEAD_TICKS ticks ahead. Look so far, then the rest from the record ahead. */
};

/* Of a job text these too, before those of a load. vz_read_line answers them but the first; a listing has them all. */
enum vz_text_refusal {
    VZ_REFUSED_LONG_TEXT = 30, /* the text has more than VZ_TEXT_BYTES bytes; told of line 1, on the panel of the line that holds byte
                                  65,537. Cut the job into two. */
    VZ_REFUSED_LONG_LINE = 31, /* the line has more than VZ_LINE_BYTES bytes without its LF. */
    VZ_REFUSED_WORDS = 32,     /* it is not made of words: N or G with 1 to 7 digits; F with 1 to 7 digits and optionally a point with
                                  1 to 3 digits; X, Y, I or J the same, with an optional sign before them; blanks between. A carriage
                                  return is none. */
    VZ_REFUSED_TWICE = 33,     /* a letter stands twice. */
    VZ_REFUSED_MOTION = 34,    /* G is not 1 (line), 2 (arc clockwise) or 3 (arc counterclockwise). */
    VZ_REFUSED_PULSE = 35,     /* X, Y, I or J, in millimetres, falls between two pulses. */
    VZ_REFUSED_UNKNOWN = 36,   /* X, Y, I or J stands and no G or no F is known yet. */
    VZ_REFUSED_IJ = 37         /* I or J stands under G 1; or an arc has X or Y but neither I nor J. */
};

#define VZ_TEXT_BYTES 65536
#define VZ_LINE_BYTES 80

/* ---- make */

/* Makes the record a fresh machine with these settings: at (0, 0), nothing in work, not held. Whatever the words were before.
 * Answers 0; or -1, -2 or -3, the first question that says no, and then the machine is one of p 50, w 5,000 and the widest travel. */
VZ_ANSWERS int64_t vz_make(vz_record *record, int64_t p, int64_t w, int64_t x_lower, int64_t x_upper, int64_t y_lower, int64_t y_upper);

/* ---- load: a block comes into work or, where one is in work, waits behind those that wait already, VZ_QUEUE_BLOCKS at most: first come,
 * first cut. It starts where the last block that waits ends, else where the one in work ends, else where the machine stands; x and y are
 * its end, counted from (0, 0), and feed is in thousandths of a pulse per minute. Held or not does not matter.
 * Answers the register width, positive: the fewest bits for the longer axis of a line, or for the radius of an arc.
 * Or minus the first refusal: -9, -10 to -12, then -13 for a line, -14 to -16 for an arc. A load moves nothing. A block that was taken is
 * not refused later.
 * Where an interrupt ticks the record, it is masked while a load, or a vz_read_line, is at work: one call at a time on one record. */

VZ_ANSWERS int64_t vz_load_line(vz_record *record, int64_t x, int64_t y, int64_t feed);

/* (i, j) is the centre seen from the start. An end equal to the start is a full turn. */
VZ_ANSWERS int64_t vz_load_cw(vz_record *record, int64_t x, int64_t y, int64_t feed, int64_t i, int64_t j);
VZ_ANSWERS int64_t vz_load_ccw(vz_record *record, int64_t x, int64_t y, int64_t feed, int64_t i, int64_t j);

/* ---- tick: one tick of the clock.
 * Answers the tick byte, 0 to 63, or -9. While idle or held the byte is 0 and nothing changes. The tick that ends a block brings the first
 * that waits into work, with the remainder then, and does no more for it: the next tick is its first. So while blocks wait no tick between
 * two of them is without work. */

VZ_ANSWERS int64_t vz_tick(vz_record *record);

/* The tick byte: X code + 4 * Y code + 16 if a cycle was done + 32 if the block ended with it. A code is a pulse: */
enum vz_code { VZ_NONE = 0, VZ_PLUS = 1, VZ_MINUS = 2 };

#define VZ_X_CODE(byte) ((byte) & 3)
#define VZ_Y_CODE(byte) (((byte) >> 2) & 3)
#define VZ_CYCLE 16
#define VZ_END 32

/* ---- run: ticks at once, until the budget or the buffer is used up or the block in work ends. It stops there even if another one waits,
 * which is in work then: the next run does that one.
 * The tick bytes go to the front of out, its other bytes stay. *ticks is always written: how many ticks were done.
 * Answers the report, or -9 with 0 ticks. length is that of out, which is not null even where length is 0. */

VZ_ANSWERS int64_t vz_run(vz_record *record, uint64_t budget, uint8_t *out, size_t length, uint64_t *ticks);

enum vz_report {
    VZ_IDLE = 0,  /* nothing was in work: 0 ticks */
    VZ_HELD = 1,  /* a block was in work, and the machine held: 0 ticks */
    VZ_ENDED = 2, /* the block ended with the last tick, whether or not another one waited */
    VZ_SPENT = 3, /* the budget is used up */
    VZ_FULL = 4   /* the buffer is full, and the budget not used up */
};

/* ---- hold, release, stop: 0, or -9 */

/* While held, ticks send nothing and the block in work stays. The core knows no acceleration: the pulses stop with the next tick. */
VZ_ANSWERS int64_t vz_hold(vz_record *record);
VZ_ANSWERS int64_t vz_release(vz_record *record);

/* Drops the block in work and all that wait, and sets the remainder to 0. The machine stands where it is; a hold stays. */
VZ_ANSWERS int64_t vz_stop(vz_record *record);

/* ---- ahead: where will it be? The record, and the sum of the pulses on each axis, plus ones less minus ones, that so many vz_tick
 * would give on a copy, if no other call comes between them: through the blocks that wait too, each of which comes into work where the one
 * before it ends. The sums are the X and Y of the record ahead less the record's own. No tick is done: a look takes longer for more blocks
 * on the way, 17 at most, and not for more ticks. Ticks while held or idle change nothing, and so do those after the last block's end.
 * Answers 0; or minus the first refusal, -9, then -38 for more than VZ_AHEAD_TICKS: *then is the record as it stands, and both sums are 0.
 * *then and *sums are always written, record never is; the three don't overlap, so then is not the record itself. All 134 words of *then
 * are those that so many vz_tick would leave in a copy, those behind its record too. Of a sound record *then is one too: to look further
 * than VZ_AHEAD_TICKS, look so far and from there on again.
 * Where an interrupt ticks the record, copy it with that interrupt masked and look from the copy: words that change while they are read
 * are those of no machine, and may get -9. */

#define VZ_AHEAD_TICKS 1000000

typedef struct vz_sums {
    int64_t x;
    int64_t y;
} vz_sums;

VZ_ASSERT(sizeof(vz_sums) == 16, "two sums are 2 words of 64 bits");

VZ_ANSWERS int64_t vz_ahead(const vz_record *record, uint64_t ticks, vz_record *then, vz_sums *sums);

/* ---- a line of a job text, read at the record: what the line asks is loaded, so that a board needs no parser of its own */

#define VZ_KNOWN_WORDS 2

/* The G and F that the lines before have made known; they count until changed. Before the first line: VZ_NOTHING_KNOWN. */
typedef struct vz_known {
    int64_t word[VZ_KNOWN_WORDS];
} vz_known;

VZ_ASSERT(sizeof(vz_known) == 8 * VZ_KNOWN_WORDS, "what is known is 2 words of 64 bits");

/* Which word is what; any other number than these gets 9. */
enum vz_known_word {
    VZ_KNOWN_MOTION = 0, /* the G that is known: 1, 2 or 3, 0 none */
    VZ_KNOWN_FEED = 1    /* the F that is known, in thousandths of a millimetre per minute: 0 to 9,999,999,999, -1 none */
};

#define VZ_NOTHING_KNOWN { { 0, -1 } }

/* line is one line without its LF, length bytes; not null even where length is 0. What it leaves out of X and Y is that of the place where
 * its block would start, as in a load, so lines are read ahead of the knife as blocks are loaded.
 * Answers the register width of the block that the line loaded, positive; 0 where the line asks for none (no X, Y, I or J, or a straight
 * line to the place where it would start, even while 16 wait); or minus the first refusal: -9, -31 to -37, then those of a load. A refused
 * line leaves record and known as they were: one that gets -10 is read again, as it is, once the block in work has ended. */
VZ_ANSWERS int64_t vz_read_line(vz_record *record, vz_known *known, const uint8_t *line, size_t length);

/* ---- check: the listing of a job text, before a tool moves. It is handed out piece by piece into a buffer of any size; nothing
 * is driven. The listing is text, each line with an LF, numbers in decimal with one blank between them:
 *
 *     block line kind cycles x y bits      the header, always the same
 *     1 1 L 2237 1000 2000 11              a row for each block: its number, its line in the text, L or A, cycles, end in pulses,
 *     2 2 L 2500 2500 4000 11                register width
 *     total 2 4737 284220                  the last line: blocks, cycles and ticks
 *     line 3 refused 15                    or, in its place, the text line that is refused and the number
 *
 * All that a check knows stands in a bench, the machine that the job would run on, where its last block ended, and in 9 words of progress
 * beside it. The text is not among them: the caller keeps it, whole and unchanged, from the first call to the last. */

#define VZ_BENCH_WORDS 19

/* A machine in which none waits, for the check alone: words 0 to 18 of a record, VZ_ABI in the first. Each block of a listing is loaded
 * once the one before it has ended. Written by the calls alone; it may be copied and saved with its progress. */
typedef struct vz_bench {
    int64_t word[VZ_BENCH_WORDS];
} vz_bench;

VZ_ASSERT(sizeof(vz_bench) == 8 * VZ_BENCH_WORDS, "a bench is 19 words of 64 bits");

#define VZ_PROGRESS_WORDS 9

/* Written by the calls alone; it may be copied and saved with its bench. */
typedef struct vz_progress {
    int64_t word[VZ_PROGRESS_WORDS];
} vz_progress;

VZ_ASSERT(sizeof(vz_progress) == 8 * VZ_PROGRESS_WORDS, "a check's progress is 9 words of 64 bits");

enum vz_progress_word {
    VZ_PROGRESS_STAGE = 0,     /* what comes next: 0 the header, 1 the row of the next text line, 2 nothing any more */
    VZ_PROGRESS_AT = 1,        /* where the next text line begins, in bytes */
    VZ_PROGRESS_MOTION = 2,    /* as in vz_known */
    VZ_PROGRESS_FEED = 3,
    VZ_PROGRESS_LINES = 4,     /* text lines read */
    VZ_PROGRESS_BLOCKS = 5,    /* of the blocks so far: their number, */
    VZ_PROGRESS_CYCLES = 6,    /* cycles */
    VZ_PROGRESS_TICKS = 7,     /* and ticks, which can be more than 64 bits hold: those below 10^18, 0 to 10^18 - 1, */
    VZ_PROGRESS_TICKS_HIGH = 8 /* and how often 10^18, of 32 bits, so that all are word[8] * 10^18 + word[7]. The listing has the sum. */
};

/* Begins the check of a job on a fresh machine with these settings, which it takes and answers as vz_make does: 0; or -1, -2 or -3,
 * and then the check is one of p 50, w 5,000 and the widest travel. Whatever the words were before. */
VZ_ANSWERS int64_t vz_check_start(vz_bench *bench, vz_progress *progress, int64_t p, int64_t w, int64_t x_lower, int64_t x_upper,
                                  int64_t y_lower, int64_t y_upper);

/* A row has at most so many bytes. */
#define VZ_ROW_BYTES 160

/* Hands out the next rows, as many whole ones as surely fit, to the front of out; its other bytes stay. *written is always set:
 * how many bytes. Answers 0 while there is more, 1 once all is handed out; or -9 where the words are no sound bench and progress
 * of a check, with 0 bytes and nothing else changed. The pieces, one after the other, are the listing of the text.
 *
 * Less room than VZ_ROW_BYTES writes nothing and answers 0 again, so that a loop until 1 needs at least that in each call. text is
 * the whole text, text_length bytes, the same at each call; neither it nor out is null, even where a length is 0. A text of more
 * than VZ_TEXT_BYTES is refused by question 30, whatever stands in it: one byte more than that is enough to hand over. */
VZ_ANSWERS int64_t vz_check_fill(vz_bench *bench, vz_progress *progress, const uint8_t *text, size_t text_length, uint8_t *out,
                                 size_t out_length, uint64_t *written);

/* ---- panel: the same listing where memory is too little for the text. It comes in pieces of any length, as a line brings them, and is
 * not kept: a scratch buffer of 81 bytes holds the line that is being read. Rows come one at a time. A panel's loop, in which receive
 * answers how many bytes came, and 0 once the text has ended, again and again. Where it fails the loop must be left: that is not the end of
 * the text, and half a job is another job.
 *
 *     uint8_t scratch[VZ_SCRATCH_BYTES], rows[VZ_ROW_BYTES], piece[7];
 *     uint64_t took, written, at = 0, length = 0;
 *     int64_t told = vz_panel_start(&bench, &panel, 50, 5000, -1000000, 1000000, -1000000, 1000000);
 *     while (told == VZ_PANEL_MORE) {
 *         if (at == length)
 *             length = receive(piece, sizeof piece), at = 0;
 *         told = vz_panel_read(&bench, &panel, scratch, sizeof scratch, piece + at, length - at, length == 0, rows, sizeof rows,
 *                              &took, &written);
 *         at += took, show(rows, written);
 *     }
 *
 * For a text of at most VZ_TEXT_BYTES bytes the rows are those of vz_check_fill, in every byte. Of a longer one vz_check_fill lists no
 * block; here the rows of the whole lines before byte 65,537 come first, where bytes count from 1 and LFs count. Unless one of those lines
 * is refused, 30 follows with the line that holds that byte, whatever else is wrong with it. */

#define VZ_SCRATCH_BYTES 81
#define VZ_PANEL_WORDS 10

/* Beside a bench, all that such a check knows but for the bytes in the scratch buffer. Written by the calls alone; it may be copied and
 * saved with its bench and the scratch buffer. */
typedef struct vz_panel {
    int64_t word[VZ_PANEL_WORDS];
} vz_panel;

VZ_ASSERT(sizeof(vz_panel) == 8 * VZ_PANEL_WORDS, "a panel's check is 10 words of 64 bits");

enum vz_panel_word {
    VZ_PANEL_STAGE = 0,      /* as VZ_PROGRESS_STAGE: 0 the header comes next, 1 rows, 2 nothing any more */
    VZ_PANEL_LEFT = 1,       /* bytes that the text may still have: VZ_TEXT_BYTES at first */
    VZ_PANEL_MOTION = 2,     /* from here on as in vz_progress */
    VZ_PANEL_FEED = 3,
    VZ_PANEL_LINES = 4,
    VZ_PANEL_BLOCKS = 5,
    VZ_PANEL_CYCLES = 6,
    VZ_PANEL_TICKS = 7,
    VZ_PANEL_TICKS_HIGH = 8,
    VZ_PANEL_HELD = 9        /* bytes of the line being read that the scratch buffer holds, its first 81 at most: 0 to 81 */
};

/* To vz_panel_read what vz_check_start is to vz_check_fill: settings taken and answered as by vz_make, whatever the words were before. */
VZ_ANSWERS int64_t vz_panel_start(vz_bench *bench, vz_panel *panel, int64_t p, int64_t w, int64_t x_lower, int64_t x_upper,
                                  int64_t y_lower, int64_t y_upper);

enum vz_panel_told {
    VZ_PANEL_MORE = 0, /* call again */
    VZ_PANEL_OVER = 1, /* all is handed out: the last row, a total or a refused line, was written by this call or an earlier one; words
                          with counts that no text has get none. Calls after that, with room, take and write nothing, and answer so
                          again. */
    VZ_PANEL_SHORT = 2 /* less scratch than VZ_SCRATCH_BYTES, or less room for rows than VZ_ROW_BYTES: nothing taken, nothing written,
                          every word and byte as it was */
};

/* Does one thing a call: it writes the header; or it takes bytes of the piece up to the end of a line, its LF included, of the piece, or
 * of what a text may have, and writes the row that this completes, if there is one: a block's, a refused line's or the total. A row goes
 * to the front of rows; its later bytes stay. *took and *written are always set: how many bytes of the piece were taken, and how many of
 * rows written. What was not taken comes again at the front of the next piece. last other than 0 says that the text ends with this piece;
 * a piece may have 0 bytes, and an empty last one is how a caller says that the text has ended. Answers as above; or -9 where the words
 * are no sound bench and panel's check, asked before the lengths, with 0 and 0 and nothing else changed.
 *
 * Between two calls the caller leaves the scratch buffer as it is. Of its bytes only the first word[VZ_PANEL_HELD] count; what stands in
 * the others is free, and in all of them once a line is whole or refused. Of a line of more than 80 bytes those behind the first 81 are
 * counted and not kept. No pointer is null, even where a length is 0. A loop in which each call has room, and brings a byte or the end of
 * the text, ends after at most 131,074 calls, whatever the text. */
VZ_ANSWERS int64_t vz_panel_read(vz_bench *bench, vz_panel *panel, uint8_t *scratch, size_t scratch_length, const uint8_t *piece,
                                 size_t piece_length, int64_t last, uint8_t *rows, size_t rows_length, uint64_t *took, uint64_t *written);

#undef VZ_ASSERT

#ifdef __cplusplus
}
#endif

#endif
