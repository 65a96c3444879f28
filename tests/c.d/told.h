/* What the tests of the calls from C share: how they tell what is wrong, and what each refusal leaves as it was. */
#ifndef TOLD_H
#define TOLD_H

#include <inttypes.h>
#include <stdio.h>
#include <string.h>

#include "verdaizka.h"

static int wrong = 0;

static inline void is(const char *what, int64_t got, int64_t expected)
{
    if (got != expected) {
        printf("%s: %" PRId64 " in place of %" PRId64 "\n", what, got, expected);
        wrong = 1;
    }
}

/* 60,000 * w of a fresh machine: the greatest feed, which pays a line's cycle on each tick, and what a charge takes off the remainder. */
enum { CAPACITY = 60000 * 5000 };

/* The words behind the record hold something, so that a call which writes there is seen. */
static inline vz_record fresh(void)
{
    vz_record m;
    memset(&m, 0x5a, sizeof m);
    is("make", vz_make(&m, 50, 5000, -100, 100, -100, 100), 0);
    return m;
}

static inline int64_t read_line(vz_record *m, vz_known *k, const char *line)
{
    return vz_read_line(m, k, (const uint8_t *)line, strlen(line));
}

/* What a look writes, with words around it that are not its own. */
struct ahead {
    int64_t before;
    vz_record then;
    int64_t between;
    vz_sums sums;
    int64_t after;
};

/* A look-ahead, which leaves the record and all words around its own. */
static inline struct ahead look(const char *what, const vz_record *m, uint64_t ticks, int64_t answer)
{
    vz_record own = *m;
    struct ahead a, all;
    memset(&all, 7, sizeof all);
    a = all;
    is(what, vz_ahead(&own, ticks, &a.then, &a.sums), answer);
    is("words after a look", memcmp(&own, m, sizeof own), 0);
    is("a word before those of a look", a.before, all.before);
    is("a word between those of a look", a.between, all.between);
    is("a word after those of a look", a.after, all.after);
    return a;
}

/* A refused one gives the record's own words and sums of 0. */
static inline void look_refused(const char *what, const vz_record *m, uint64_t ticks, int64_t number)
{
    struct ahead a = look(what, m, ticks, -number);
    is("words of a refused look", memcmp(&a.then, m, sizeof a.then), 0);
    is("sum of a refused look", a.sums.x, 0);
    is("sum of a refused look", a.sums.y, 0);
}

/* Every call on words that are no sound record. */
static inline void refused(const char *what, const vz_record *bad)
{
    uint8_t out[4] = {7, 7, 7, 7};
    uint64_t ticks = 5;
    vz_known known = VZ_NOTHING_KNOWN, before = known;
    for (int call = 0; call < 9; call++) {
        vz_record m = *bad;
        int64_t got = call == 0   ? vz_tick(&m)
                      : call == 1 ? vz_hold(&m)
                      : call == 2 ? vz_release(&m)
                      : call == 3 ? vz_stop(&m)
                      : call == 4 ? vz_load_line(&m, 1, 1, 1)
                      : call == 5 ? vz_load_cw(&m, 0, 0, 1, 1, 0)
                      : call == 6 ? vz_load_ccw(&m, 0, 0, 1, 1, 0)
                      : call == 7 ? vz_read_line(&m, &known, (const uint8_t *)"G1 F1", 5)
                                  : vz_run(&m, 4, out, sizeof out, &ticks);
        is(what, got, -VZ_REFUSED_RECORD);
        is("words that stay", memcmp(&m, bad, sizeof m), 0);
    }
    is("what is known at a refused line", memcmp(&known, &before, sizeof known), 0);
    is("ticks of a refused run", (int64_t)ticks, 0);
    is("bytes of a refused run", memcmp(out, "\7\7\7\7", 4), 0);
    for (uint64_t ahead = 0; ahead < 2; ahead++) {
        look_refused(what, bad, ahead, VZ_REFUSED_RECORD);
        look_refused(what, bad, VZ_AHEAD_TICKS + ahead, VZ_REFUSED_RECORD);
        look_refused(what, bad, UINT64_MAX - ahead, VZ_REFUSED_RECORD);
    }
}

/* A refused load leaves every word. */
static inline void load_refused(const char *what, vz_record *m, int64_t got, int64_t number, const vz_record *before)
{
    is(what, got, -number);
    is("words after a refused load", memcmp(m, before, sizeof *m), 0);
}

/* A text line that is refused leaves the record and what is known. */
static inline void line_refused(vz_record *m, vz_known *k, const char *line, int64_t number)
{
    vz_record record = *m;
    vz_known known = *k;
    is(line, read_line(m, k, line), -number);
    is("words after a refused line", memcmp(m, &record, sizeof record), 0);
    is("what is known after a refused line", memcmp(k, &known, sizeof known), 0);
}

#endif
