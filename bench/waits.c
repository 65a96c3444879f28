/* The table of calls while blocks wait. */
#include "works.h"

#include "verdaizka.h"

#include <stdlib.h>
#include <string.h>

enum { SHORT = 1000, WIDE = 400000 };
enum call { TICK, END, LOAD, LOOK }; /* a tick in the midst of a block, one that ends it, a load, a look through all blocks to their end */
static volatile uint64_t kept;       /* so that no answer is computed in vain */

/* ---- records: a block in work at q0, and as many behind it as are given. What they take does not depend on their length. */

/* Lines to and fro, or full turns where the one before has ended; before them, where an end is timed, a line of one cycle. */
static struct plain_block nth_block(const struct work *w, int64_t n)
{
    const int64_t reach = w->given == LOOK ? SHORT : WIDE, feed = (int64_t)CAPACITY, first = w->given == END;
    if (n < first)
        return (struct plain_block){ 1, 1, 0, feed, 0, 0 };
    if (w->arc)
        return (struct plain_block){ 2 + n % 2, first, 0, feed, -reach, 0 };
    return (n - first) % 2 ? (struct plain_block){ 1, 0, 0, feed, 0, 0 } : (struct plain_block){ 1, reach, reach / 3, feed, 0, 0 };
}

static void waiting(int64_t *words, const struct work *w, int64_t count)
{
    fresh(words);
    for (int64_t n = 0; n <= count; n++) {
        struct plain_block b = nth_block(w, n);
        if (core_load(words, &b) <= 0)
            abort();
    }
}

/* ---- the calls */

static void ticks(int64_t *words, uint64_t times, plain_call *tick)
{
    uint64_t sum = 0;
    for (uint64_t i = 0; i < times; i++)
        sum = plain_mix(sum, tick(words));
    kept = sum;
}

/* The record is copied before each. */
static void ends(int64_t *words, uint64_t times, plain_call *tick)
{
    int64_t again[VZ_RECORD_WORDS];
    uint64_t sum = 0;
    for (uint64_t i = 0; i < times; i++) {
        memcpy(again, words, sizeof again);
        sum = plain_mix(sum, tick(again));
    }
    kept = plain_mix(sum, again[VZ_WORD_WAITING]);
}

/* Each block is taken off again, by the two words that tell of it. */
static void loads(int64_t *words, const struct plain_block *block, uint64_t times, plain_load *load)
{
    const int64_t left = words[VZ_WORD_LEFT], count = words[VZ_WORD_WAITING];
    uint64_t sum = 0;
    for (uint64_t i = 0; i < times; i++) {
        struct plain_block b = plain_nth(*block, i);
        sum = plain_mix(sum, load(words, &b));
        words[VZ_WORD_LEFT] = left;
        words[VZ_WORD_WAITING] = count;
    }
    kept = sum;
}

static void looks(const int64_t *words, uint64_t times, plain_ahead *ahead)
{
    int64_t then[VZ_RECORD_WORDS];
    struct plain_sums sums;
    uint64_t sum = 0;
    for (uint64_t i = 0; i < times; i++) {
        sum = plain_mix(sum, ahead(words, VZ_AHEAD_TICKS, then, &sums));
        sum = plain_mix(sum, sums.x + then[VZ_WORD_REMAINDER]);
    }
    kept = sum;
}

static void calls(const struct work *w, uint64_t times, int64_t count, plain_call *tick, plain_load *load, plain_ahead *ahead)
{
    int64_t words[VZ_RECORD_WORDS];
    waiting(words, w, w->given == LOAD && count > 0 ? count - 1 : count);
    struct plain_block next = nth_block(w, words[VZ_WORD_WAITING] + 1);
    switch (w->given) {
    case TICK: return ticks(words, times, tick);
    case END: return ends(words, times, tick);
    case LOAD: return loads(words, &next, times, load);
    default: return looks(words, times, ahead);
    }
}

static void calls_core(const struct work *w, uint64_t times) { calls(w, times, VZ_QUEUE_BLOCKS, core_tick, core_load, core_ahead); }
static void calls_none(const struct work *w, uint64_t times) { calls(w, times, 0, core_tick, core_load, core_ahead); }
static void calls_c(const struct work *w, uint64_t times) { calls(w, times, VZ_QUEUE_BLOCKS, c_words_tick, c_words_load, c_words_ahead); }

enum { NONE = 1 }; /* the way that goals name beside plain C */

const struct way wait_ways[WAIT_WAYS] = {
    [WAIT_CORE] = { "core, words", calls_core },
    [NONE] = { "core, none waiting", calls_none },
    [WAIT_C] = { "C, words", calls_c },
};
static const struct goal lines_goal = { "tick with 16 lines waiting", NONE, 8 }, arcs_goal = { "tick with 16 arcs waiting", NONE, 15 };
static const struct goal plain_goal = { "tick with 16 blocks waiting", WAIT_C, 2 };

uint64_t waited(int way, const struct work *w, uint64_t times)
{
    wait_ways[way].go(w, times);
    return kept;
}

const struct work wait_works[WAIT_WORKS] = {
    { "tick, 16 lines waiting", 0, 1, TICK, 0, 5000, 1, { &lines_goal, &plain_goal } },
    { "tick, 16 arcs waiting", 1, 1, TICK, 0, 2000, 1, { &arcs_goal, &plain_goal } },
    { "tick that ends a block, 16 lines waiting", 0, 1, END, 0, 5000, 1, { 0 } },
    { "tick that ends a block, 16 arcs waiting", 1, 1, END, 0, 2000, 1, { 0 } },
    { "load of a line, 15 lines waiting", 0, 1, LOAD, 0, 5000, 1, { 0 } },
    { "load of an arc, 15 arcs waiting", 1, 1, LOAD, 0, 2000, 1, { 0 } },
    { "look through 17 lines", 0, 1, LOOK, 0, 1000, 1, { 0 } },
    { "look through 17 arcs", 1, 1, LOOK, 0, 500, 1, { 0 } },
};
