/* The machine in plain C: what is in work in a struct, and behind it the blocks that wait as the record's words have them. */
#ifndef MACHINE_H
#define MACHINE_H

#include "plain.h"
#include "record.h"

#include <stdbool.h>

struct point {
    int64_t x, y;
};

struct range {
    int64_t lower, upper;
};

struct settings {
    int64_t p, w;
    struct range x, y;
};

struct line {
    struct point start, end;
    int64_t feed, cycles, done;
};

struct arc {
    struct point centre, end;
    int64_t square, feed;
};

enum kind { NOTHING, LINE, CLOCKWISE, COUNTERCLOCKWISE };

struct machine {
    struct settings settings;
    struct point at;
    bool held;
    enum kind kind;
    int64_t remainder;
    union {
        struct line line;
        struct arc arc;
    };
};

/* Words 19 on of a record: the root of the block in work, the cycles still to do, how many blocks wait, and these. */
struct waiting {
    struct plain_block block;
    int64_t root; /* of a line its cycles, of an arc those of a quarter turn */
};

struct queue {
    int64_t root, left, waiting;
    struct waiting first[QUEUE];
};

_Static_assert(sizeof(struct queue) == (WORDS - WORD_ROOT) * sizeof(int64_t), "the queue is the record's words");

enum { TRAVEL = 1000000 }; /* the farthest that a travel bound may lie, and I and J */

static inline int64_t capacity_of(const struct settings *s) { return PER_CLOCK * s->w; }

static inline bool within(int64_t lower, int64_t v, int64_t upper) { return lower <= v && v <= upper; }

static inline bool inside(const struct settings *s, struct point p)
{
    return within(s->x.lower, p.x, s->x.upper) && within(s->y.lower, p.y, s->y.upper);
}

static inline bool same(struct point p, struct point q) { return p.x == q.x && p.y == q.y; }

/* The register width that a load answers: the fewest bits that hold v, which is not 0. */
static inline int width(int64_t v) { return 64 - __builtin_clzll((uint64_t)v); }

/* The answer is a number as in the header. */
int64_t c_tick_in(struct machine *m, struct queue *q);
int64_t c_load_in(struct machine *m, struct queue *q, const struct plain_block *b);
int64_t c_stop_in(struct machine *m, struct queue *q);

/* A look-ahead: the machine goes so many ticks on. */
int64_t c_ahead_in(struct machine *m, struct queue *q, uint64_t ticks);

/* So many ticks at once, or to the end of the block in work, of a record that has been tested; how many they are, and the cycles done. */
int64_t c_skip(struct machine *m, int64_t ticks, int64_t *cycles);

#endif
