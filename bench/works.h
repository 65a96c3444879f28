/* What is timed: tables of works, each done by the core and by the plain programs. */
#ifndef WORKS_H
#define WORKS_H

#include "plain.h"

#include <stddef.h>

enum { BUFFER = 65536, MOST_WAYS = 6, MOST_WORKS = 12, MOST_GOALS = 3 };
static const uint64_t CAPACITY = PER_CLOCK * 5000;

/* A ratio of the core to a way that is not to be passed, in every work that names the goal; of way 0, the core itself, a time in ns. */
struct goal {
    const char *text; /* what is at most so many times the way */
    int way;
    double limit;
};

struct work {
    const char *name;
    int arc;
    uint64_t part;   /* the feed is the capacity divided by this */
    uint64_t given;  /* the number whose root is taken, the ticks of a look-ahead, or the call that is timed while blocks wait */
    int waits;       /* each root waits for the one before it */
    uint64_t times;  /* how often the work is done between two looks at the clock */
    uint64_t units;  /* in one time: the bytes that a run fills, or 1 */
    const struct goal *goals[MOST_GOALS]; /* null where there are no more */
};

struct way {
    const char *name;
    void (*go)(const struct work *, uint64_t times);
};

struct table {
    const char *name, *unit;
    uint64_t counted; /* how often the work is done where instructions are counted */
    int ways, works;
    const struct way *way; /* the first is the core */
    const struct work *work;
    int by_tick; /* the way that does a look tick by tick, and so much less often; -1 where there is none */
};

/* How often a way does a work that others do so many times. Ticks are counted at 256 to a look, so that what it takes to look at the clock
 * counts for nothing there either. */
static inline uint64_t times_of(const struct table *t, int way, const struct work *w, uint64_t times)
{
    if (way != t->by_tick)
        return times;
    return 256 * times < w->given ? 1 : 256 * times / w->given;
}

extern const struct table tables[];
extern const int table_count;

/* The core's calls in the shape of plain.h. */
plain_call core_tick, core_stop;
plain_load core_load;
plain_ahead core_ahead;

/* The look-ahead: its table's ways and works. */
enum { LOOK_WAYS = 4, LOOK_WORKS = 12, LOOK_CORE = 0, LOOK_BY_TICK = 2, LOOK_CLOSED = 3 };
extern const struct way look_ways[LOOK_WAYS];
extern const struct work look_works[LOOK_WORKS];

/* Calls while blocks wait: their table's ways and works. */
enum { WAIT_WAYS = 3, WAIT_WORKS = 8, WAIT_CORE = 0, WAIT_C = 2 };
extern const struct way wait_ways[WAIT_WAYS];
extern const struct work wait_works[WAIT_WORKS];
uint64_t waited(int way, const struct work *w, uint64_t times);

/* What a way keeps of so many looks. */
int64_t looked(int way, const struct work *w, uint64_t times);

/* The core's own root, which the archive does not export: bench/run makes it visible. Null where the compiler has left no such function. */
extern uint64_t core_root(uint64_t s) __attribute__((weak));
int is_there(const struct table *t);

/* A fresh machine of the widest travel, and one with the timed block in work. */
void fresh(int64_t *words);
void loaded(int64_t *words, const struct work *w);

/* A block from its first tick, for the plain runs. */
struct plain_run {
    int arc;
    struct plain_line line;
    struct plain_arc turn;
    struct plain_feed feed;
};
struct plain_run plain_begun(const struct work *w);
struct plain_sums plain_look(const struct plain_run *r, uint64_t ticks);
uint64_t plain_run_on(struct plain_run *r, plain_run_line *line, plain_run_arc *arc, uint64_t most, uint8_t *out);

/* Stops the program unless all sides give the same bytes, answers and records. */
void agree(void);

#endif
