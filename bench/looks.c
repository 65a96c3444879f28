/* The table of the look-ahead. */
#include "works.h"

#include "verdaizka.h"

#include <stdlib.h>
#include <string.h>

enum { STARTS = 8, APART = 137 };
static volatile int64_t kept; /* so that no answer is computed in vain */

int64_t core_ahead(const int64_t *words, uint64_t ticks, int64_t *then, struct plain_sums *sums)
{
    return vz_ahead((const vz_record *)words, ticks, (vz_record *)then, (vz_sums *)sums);
}

/* Records on the way, so that no two looks in a row begin at the same one. */
static void started(int64_t starts[STARTS][VZ_RECORD_WORDS], const struct work *w)
{
    struct plain_sums sums;
    loaded(starts[0], w);
    for (int i = 1; i < STARTS; i++)
        if (core_ahead(starts[i - 1], APART, starts[i], &sums) != 0 || memcmp(starts[i], starts[i - 1], sizeof starts[i]) == 0)
            abort();
}

static void looks(const struct work *w, uint64_t times, plain_ahead *ahead)
{
    int64_t starts[STARTS][VZ_RECORD_WORDS], then[VZ_RECORD_WORDS];
    uint64_t sum = 0;
    struct plain_sums sums;
    started(starts, w);
    for (uint64_t i = 0; i < times; i++) {
        sum = plain_mix(sum, ahead(starts[i % STARTS], w->given, then, &sums));
        sum = plain_mix(sum, sums.x + then[VZ_WORD_Y]);
    }
    kept = (int64_t)sum;
}

static void looks_core(const struct work *w, uint64_t times) { looks(w, times, core_ahead); }
static void looks_c(const struct work *w, uint64_t times) { looks(w, times, c_words_ahead); }

/* One tick of each of the same records. */
static void looks_tick(const struct work *w, uint64_t times)
{
    int64_t starts[STARTS][VZ_RECORD_WORDS], sum = 0;
    started(starts, w);
    for (uint64_t i = 0; i < times; i++)
        sum += core_tick(starts[i % STARTS]);
    kept = sum;
}

struct plain_sums plain_look(const struct plain_run *r, uint64_t ticks)
{
    return r->arc ? c_arc_look(r->turn, r->feed, ticks) : c_line_look(r->line, r->feed, ticks);
}

static void looks_by_tick(const struct work *w, uint64_t times)
{
    const struct plain_run r = plain_begun(w);
    for (uint64_t i = 0; i < times; i++) {
        struct plain_sums s = plain_look(&r, w->given);
        kept = s.x + s.y;
    }
}

enum { TICK = 1 }; /* the way that the goal names */

const struct way look_ways[LOOK_WAYS] = {
    [LOOK_CORE] = { "core, words", looks_core },
    [TICK] = { "core, one tick", looks_tick },
    [LOOK_BY_TICK] = { "C tick loop", looks_by_tick },
    [LOOK_CLOSED] = { "C closed form, words", looks_c },
};
static const struct goal look_goal = { "look-ahead", TICK, 10 }, closed_goal = { "look-ahead", LOOK_CLOSED, 3 };

int64_t looked(int way, const struct work *w, uint64_t times)
{
    look_ways[way].go(w, times);
    return kept;
}

#define LOOK(NAME, ARC, PART, TICKS) { NAME, ARC, PART, TICKS, 0, 4000, 1, { &look_goal, &closed_goal } }
const struct work look_works[LOOK_WORKS] = {
    LOOK("line, q0, 1 tick", 0, 1, 1),
    LOOK("line, q0, 1,000 ticks", 0, 1, 1000),
    LOOK("line, q0, 1,000,000 ticks", 0, 1, 1000000),
    LOOK("line, q0/10, 1 tick", 0, 10, 1),
    LOOK("line, q0/10, 1,000 ticks", 0, 10, 1000),
    LOOK("line, q0/10, 1,000,000 ticks", 0, 10, 1000000),
    LOOK("arc, q0, 1 tick", 1, 1, 1),
    LOOK("arc, q0, 1,000 ticks", 1, 1, 1000),
    LOOK("arc, q0, 1,000,000 ticks", 1, 1, 1000000),
    LOOK("arc, q0/10, 1 tick", 1, 10, 1),
    LOOK("arc, q0/10, 1,000 ticks", 1, 10, 1000),
    LOOK("arc, q0/10, 1,000,000 ticks", 1, 10, 1000000),
};
