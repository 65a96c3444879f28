/* The core beside an earlier archive of itself, whose calls have before_ in front of their names: bench/before.py links the two and says
 * what is printed. The earlier record may have other words, and the earlier feeds another unit: each side makes and loads its own. */
#define _POSIX_C_SOURCE 199309L
#include "verdaizka.h"
#include "timing.h"

#include <stdio.h>
#include <stdlib.h>

enum { MOST_WORDS = 1024, MOST_ROUNDS = 999, BUFFER = 65536, RADIUS = 500000 };

int64_t before_vz_make(vz_record *record, int64_t p, int64_t w, int64_t x_lower, int64_t x_upper, int64_t y_lower, int64_t y_upper);
int64_t before_vz_load_line(vz_record *record, int64_t x, int64_t y, int64_t feed);
int64_t before_vz_load_ccw(vz_record *record, int64_t x, int64_t y, int64_t feed, int64_t i, int64_t j);
int64_t before_vz_tick(vz_record *record);
int64_t before_vz_run(vz_record *record, uint64_t budget, uint8_t *out, size_t length, uint64_t *ticks);
int64_t before_vz_stop(vz_record *record);
int64_t before_vz_ahead(const vz_record *record, uint64_t ticks, vz_record *then, vz_sums *sums);

static const struct side {
    int64_t (*make)(vz_record *, int64_t, int64_t, int64_t, int64_t, int64_t, int64_t);
    int64_t (*line)(vz_record *, int64_t, int64_t, int64_t);
    int64_t (*arc)(vz_record *, int64_t, int64_t, int64_t, int64_t, int64_t);
    int64_t (*tick)(vz_record *);
    int64_t (*run)(vz_record *, uint64_t, uint8_t *, size_t, uint64_t *);
    int64_t (*stop)(vz_record *);
    int64_t (*ahead)(const vz_record *, uint64_t, vz_record *, vz_sums *);
} now_side = { vz_make, vz_load_line, vz_load_ccw, vz_tick, vz_run, vz_stop, vz_ahead },
  before_side = { before_vz_make, before_vz_load_line, before_vz_load_ccw, before_vz_tick, before_vz_run, before_vz_stop, before_vz_ahead };

/* A line or a full turn, whose feed is so much of the capacity; how many blocks wait behind it, where a side takes them; how many ticks a
 * run or a look is of. */
struct work {
    const char *name;
    enum { TICK, RUN, LOAD, LOOK } call;
    int arc, part, waiting;
    size_t units;
    uint64_t times;
};

static const struct work works[] = {
    { "tick, line, q0", TICK, 0, 1, 0, 1, 20000 },
    { "tick, line, q0/1000", TICK, 0, 1000, 0, 1, 20000 },
    { "tick, arc, q0", TICK, 1, 1, 0, 1, 20000 },
    { "tick, arc, q0/1000", TICK, 1, 1000, 0, 1, 20000 },
    { "tick, 16 lines waiting", TICK, 0, 1, 16, 1, 5000 },
    { "tick, 16 arcs waiting", TICK, 1, 1, 16, 1, 5000 },
    { "run of 64 KiB, line, q0", RUN, 0, 1, 0, BUFFER, 6 },
    { "run of 64 KiB, line, q0/1000", RUN, 0, 1000, 0, BUFFER, 40 },
    { "run of 64 KiB, arc, q0", RUN, 1, 1, 0, BUFFER, 6 },
    { "run of 64 KiB, arc, q0/1000", RUN, 1, 1000, 0, BUFFER, 40 },
    { "run of 4 KiB, line, q0", RUN, 0, 1, 0, 4096, 60 },
    { "run of 4 KiB, line, q0/1000", RUN, 0, 1000, 0, 4096, 600 },
    { "run of 4 KiB, arc, q0", RUN, 1, 1, 0, 4096, 60 },
    { "run of 4 KiB, arc, q0/1000", RUN, 1, 1000, 0, 4096, 600 },
    { "load and stop, line", LOAD, 0, 1, 0, 1, 20000 },
    { "load and stop, arc", LOAD, 1, 1, 0, 1, 20000 },
    { "look of 1,000 ticks, line", LOOK, 0, 1, 0, 1000, 10000 },
    { "look of 1,000 ticks, arc", LOOK, 1, 1, 0, 1000, 10000 },
};

static uint8_t out[BUFFER];
static volatile int64_t kept; /* so that no answer is computed in vain */

/* The greatest feed at 5,000 ticks a second: up to layout 3 of the record it was in whole pulses a minute. */
static int64_t capacity(const vz_record *r)
{
    return r->word[VZ_WORD_ABI] <= 3 ? 300000 : 300000000;
}

/* The line goes from 0 to its end, and each that waits back again. */
static int64_t load(const struct side *s, vz_record *r, const struct work *w, int64_t feed, int back)
{
    return w->arc ? s->arc(r, 0, 0, feed, -RADIUS, 0) : s->line(r, back ? 0 : 900000, back ? 0 : -556231, feed);
}

/* Fills the record; an archive without a queue refuses the blocks that would wait. */
static void prepare(const struct side *s, vz_record *r, const struct work *w)
{
    if (s->make(r, 50, 5000, -1000000, 1000000, -1000000, 1000000) != 0)
        abort();
    const int64_t feed = capacity(r) / w->part;
    if (w->call != LOAD && load(s, r, w, feed, 0) <= 0)
        abort();
    for (int i = 0; i < w->waiting; i++)
        if (load(s, r, w, feed, i % 2 == 0) <= 0)
            return;
}

static int64_t once(const struct side *s, vz_record *r, vz_record *then, const struct work *w, uint64_t i)
{
    uint64_t ticks;
    vz_sums sums;
    if (w->call == TICK)
        return s->tick(r);
    if (w->call == RUN)
        return s->run(r, UINT64_MAX, out, w->units, &ticks);
    if (w->call == LOOK)
        return s->ahead(r, w->units, then, &sums);
    return load(s, r, w, 1 + (int64_t)i % capacity(r), 0) + s->stop(r);
}

/* ns a call */
static double timed(const struct side *s, const struct work *w)
{
    static int64_t words[2][MOST_WORDS];
    vz_record *r = (vz_record *)words[0], *then = (vz_record *)words[1];
    int64_t sum = 0;
    prepare(s, r, w);
    const double start = now();
    for (uint64_t i = 0; i < w->times; i++)
        sum += once(s, r, then, w, i);
    const double end = now();
    kept = sum;
    return (end - start) / (double)w->times;
}

int main(int argc, char **argv)
{
    static double a[MOST_ROUNDS], b[MOST_ROUNDS], ratio[MOST_ROUNDS];
    const int rounds = argc == 2 ? atoi(argv[1]) : 0;
    if (rounds < 1 || rounds > MOST_ROUNDS)
        return 2;
    for (size_t w = 0; w < sizeof works / sizeof *works; w++) {
        for (int i = 0; i < rounds; i++) {
            /* In turns, each round beginning with the other side. */
            for (int k = 0; k < 2; k++)
                if ((i + k) % 2 == 0)
                    a[i] = timed(&now_side, &works[w]);
                else
                    b[i] = timed(&before_side, &works[w]);
            ratio[i] = a[i] / b[i];
        }
        printf("%s\t%f\t%f\t%f\n", works[w].name, median(a, rounds), median(b, rounds), median(ratio, rounds));
    }
    return 0;
}
