#include "works.h"

#include "verdaizka.h"

#include <stdlib.h>
#include <string.h>

static const int64_t LINE_X = 900000, LINE_Y = -556231, RADIUS = 500000;
static uint8_t out[2][BUFFER];
static volatile uint64_t kept; /* so that no answer is computed in vain */

/* ---- the core */

int64_t core_tick(int64_t *words) { return vz_tick((vz_record *)words); }
int64_t core_stop(int64_t *words) { return vz_stop((vz_record *)words); }

int64_t core_load(int64_t *words, const struct plain_block *b)
{
    vz_record *r = (vz_record *)words;
    if (b->kind == 1)
        return vz_load_line(r, b->x, b->y, b->feed);
    return b->kind == 2 ? vz_load_cw(r, b->x, b->y, b->feed, b->i, b->j) : vz_load_ccw(r, b->x, b->y, b->feed, b->i, b->j);
}

void fresh(int64_t *words)
{
    memset(words, 0, sizeof(vz_record));
    if (vz_make((vz_record *)words, 50, 5000, -1000000, 1000000, -1000000, 1000000) != 0)
        abort();
}

static struct plain_block block_of(const struct work *w)
{
    const int64_t feed = (int64_t)(CAPACITY / w->part);
    return w->arc ? (struct plain_block){ 3, 0, 0, feed, -RADIUS, 0 } : (struct plain_block){ 1, LINE_X, LINE_Y, feed, 0, 0 };
}

void loaded(int64_t *words, const struct work *w)
{
    struct plain_block b = block_of(w);
    fresh(words);
    if (core_load(words, &b) <= 0)
        abort();
}

/* ---- runs: the first of a block, each of `units` bytes */

struct plain_run plain_begun(const struct work *w)
{
    const uint64_t a = (uint64_t)llabs(LINE_X), b = (uint64_t)llabs(LINE_Y), q = c_root(a * a + b * b), r = (uint64_t)RADIUS;
    uint64_t eighth = c_root(2 * r * r); /* a quarter turn has as many points as the nearest root of 2 N tells */
    if (2 * r * r <= eighth * (eighth - 1))
        eighth--;
    return (struct plain_run){ w->arc,
                               { q, a, b, q / 2, q / 2, 0, LINE_X < 0 ? 2 : 1, LINE_Y < 0 ? 8 : 4 },
                               { RADIUS, 0, 0, 4 * eighth, 0, 0 },
                               { 1000 * CAPACITY, 1000 * (CAPACITY / w->part), 0 } };
}

uint64_t plain_run_on(struct plain_run *r, plain_run_line *line, plain_run_arc *arc, uint64_t most, uint8_t *to)
{
    return r->arc ? arc(&r->turn, &r->feed, most, to) : line(&r->line, &r->feed, most, to);
}

static void plain_runs(const struct work *w, uint64_t times, plain_run_line *line, plain_run_arc *arc)
{
    struct plain_run r = plain_begun(w);
    for (uint64_t i = 0; i < times; i++)
        kept = plain_run_on(&r, line, arc, w->units, out[1]);
}

static void runs_core(const struct work *w, uint64_t times)
{
    int64_t words[VZ_RECORD_WORDS];
    uint64_t ticks;
    loaded(words, w);
    for (uint64_t i = 0; i < times; i++) {
        kept = (uint64_t)vz_run((vz_record *)words, UINT64_MAX, out[0], w->units, &ticks);
        kept += ticks;
    }
}

static void runs_memset(const struct work *w, uint64_t times)
{
    for (uint64_t i = 0; i < times; i++) {
        memset(out[i & 1], (int)w->part, w->units);
        __asm__ volatile("" ::: "memory");
    }
}

static void runs_c_loop(const struct work *w, uint64_t times) { plain_runs(w, times, c_line_ticks, c_arc_ticks); }
static void runs_c_cycles(const struct work *w, uint64_t times) { plain_runs(w, times, c_line_cycles, c_arc_cycles); }
static void runs_rust_loop(const struct work *w, uint64_t times) { plain_runs(w, times, rust_line_ticks, rust_arc_ticks); }
static void runs_rust_cycles(const struct work *w, uint64_t times) { plain_runs(w, times, rust_line_cycles, rust_arc_cycles); }

/* ---- single ticks */

static void words_ticks(const struct work *w, uint64_t times, plain_call *tick)
{
    int64_t words[VZ_RECORD_WORDS];
    uint64_t sum = 0;
    loaded(words, w);
    for (uint64_t i = 0; i < times; i++)
        sum = plain_mix(sum, tick(words));
    kept = sum;
}

static void ticks_core(const struct work *w, uint64_t times) { words_ticks(w, times, core_tick); }
static void ticks_c_words(const struct work *w, uint64_t times) { words_ticks(w, times, c_words_tick); }
static void ticks_rust_words(const struct work *w, uint64_t times) { words_ticks(w, times, rust_words_tick); }

static void ticks_c_place(const struct work *w, uint64_t times)
{
    int64_t words[VZ_RECORD_WORDS];
    loaded(words, w);
    kept = c_place_ticks(words, times);
}

/* ---- loads, each with the stop that lets the next one in */

static void words_loads(const struct work *w, uint64_t times, plain_load *load, plain_call *stop)
{
    int64_t words[VZ_RECORD_WORDS];
    uint64_t sum = 0;
    const struct plain_block block = block_of(w);
    fresh(words);
    for (uint64_t i = 0; i < times; i++) {
        struct plain_block b = plain_nth(block, i);
        int64_t width = load(words, &b);
        sum = plain_mix(plain_mix(sum, width), stop(words));
    }
    kept = sum;
}

static void loads_core(const struct work *w, uint64_t times) { words_loads(w, times, core_load, core_stop); }
static void loads_c_words(const struct work *w, uint64_t times) { words_loads(w, times, c_words_load, c_words_stop); }
static void loads_rust_words(const struct work *w, uint64_t times) { words_loads(w, times, rust_words_load, rust_words_stop); }

static void loads_c_place(const struct work *w, uint64_t times)
{
    int64_t words[VZ_RECORD_WORDS];
    const struct plain_block block = block_of(w);
    fresh(words);
    kept = c_place_loads(words, &block, times);
}

/* ---- roots */

static uint64_t roots_waiting(uint64_t square, uint64_t times, uint64_t (*root)(uint64_t))
{
    uint64_t last = 0;
    for (uint64_t i = 0; i < times; i++)
        last = root(square + ((last + i) & 63));
    return last;
}

static uint64_t roots_free(uint64_t square, uint64_t times, uint64_t (*root)(uint64_t))
{
    uint64_t sum = 0;
    for (uint64_t i = 0; i < times; i++)
        sum += root(square + (i & 63));
    return sum;
}

static void roots(const struct work *w, uint64_t times, uint64_t (*root)(uint64_t))
{
    kept = (w->waits ? roots_waiting : roots_free)(w->given, times, root);
}

static void roots_core(const struct work *w, uint64_t times) { roots(w, times, core_root); }
static void roots_c(const struct work *w, uint64_t times) { roots(w, times, c_root); }
static void roots_bits(const struct work *w, uint64_t times) { roots(w, times, c_root_bits); }
static void roots_newton(const struct work *w, uint64_t times) { roots(w, times, c_root_newton); }
static void roots_isqrt(const struct work *w, uint64_t times) { roots(w, times, rust_isqrt); }

/* ---- the tables and the goals */

enum { LOOP = 1, CYCLES = 2, MEMSET = 5, C_WORDS = 1 }; /* the ways that goals name */

static const struct way run_ways[] = {
    { "core", runs_core },
    { "C tick loop", runs_c_loop },
    { "C cycle to cycle", runs_c_cycles },
    { "Rust tick loop", runs_rust_loop },
    { "Rust cycle to cycle", runs_rust_cycles },
    { "memset", runs_memset },
};
static const struct goal line_loop = { "run on a line at q0", LOOP, 1.5 }, arc_loop = { "run on an arc at q0", LOOP, 1.1 };
static const struct goal slow_loop = { "run at q0/10 and q0/1000", LOOP, 0.4 }, slow_cycles = { "run at q0/10 and q0/1000", CYCLES, 1.25 };
static const struct goal long_memset = { "run of 64 KiB at q0/1000", MEMSET, 2 }, short_memset = { "run of 4 KiB at q0/1000", MEMSET, 2.5 };
static const struct work run_works[] = {
    { "line, q0", 0, 1, 0, 0, 12, BUFFER, { &line_loop } },
    { "line, q0/10", 0, 10, 0, 0, 40, BUFFER, { &slow_loop, &slow_cycles } },
    { "line, q0/1000", 0, 1000, 0, 0, 40, BUFFER, { &slow_loop, &slow_cycles, &long_memset } },
    { "line, q0/1000, 4 KiB", 0, 1000, 0, 0, 640, 4096, { &slow_loop, &slow_cycles, &short_memset } },
    { "arc, q0", 1, 1, 0, 0, 12, BUFFER, { &arc_loop } },
    { "arc, q0/10", 1, 10, 0, 0, 40, BUFFER, { &slow_loop, &slow_cycles } },
    { "arc, q0/1000", 1, 1000, 0, 0, 40, BUFFER, { &slow_loop, &slow_cycles, &long_memset } },
    { "arc, q0/1000, 4 KiB", 1, 1000, 0, 0, 640, 4096, { &slow_loop, &slow_cycles, &short_memset } },
};

static const struct way tick_ways[] = {
    { "core, words", ticks_core },
    { "C, words", ticks_c_words },
    { "C in place", ticks_c_place },
    { "Rust, words", ticks_rust_words },
};
static const struct goal line_tick = { "single tick on a line at q0", C_WORDS, 1.25 };
static const struct goal other_tick = { "single tick on an arc, or at q0/1000", C_WORDS, 1.5 };
static const struct work tick_works[] = {
    { "tick, line, q0", 0, 1, 0, 0, 20000, 1, { &line_tick } },
    { "tick, line, q0/1000", 0, 1000, 0, 0, 20000, 1, { &other_tick } },
    { "tick, arc, q0", 1, 1, 0, 0, 20000, 1, { &other_tick } },
    { "tick, arc, q0/1000", 1, 1000, 0, 0, 20000, 1, { &other_tick } },
};

static const struct way load_ways[] = {
    { "core, words", loads_core },
    { "C, words", loads_c_words },
    { "C in place", loads_c_place },
    { "Rust, words", loads_rust_words },
};
static const struct work load_works[] = {
    { "load and stop, line", 0, 1, 0, 0, 5000, 1, { 0 } },
    { "load and stop, arc", 1, 1, 0, 0, 5000, 1, { 0 } },
};

static const struct way root_ways[] = {
    { "core", roots_core },
    { "C hardware", roots_c },
    { "C bit by bit", roots_bits },
    { "C Newton", roots_newton },
    { "Rust isqrt", roots_isqrt },
};
static const struct goal any_root = { "least root", 0, 50 };
static const struct work root_works[] = {
    { "root of 100", 0, 0, 100, 0, 5000, 1, { &any_root } },
    { "root of 2^20", 0, 0, (uint64_t)1 << 20, 0, 5000, 1, { &any_root } },
    { "root of 2^43", 0, 0, (uint64_t)1 << 43, 0, 5000, 1, { &any_root } },
    { "root of 100, waiting", 0, 0, 100, 1, 5000, 1, { &any_root } },
    { "root of 2^20, waiting", 0, 0, (uint64_t)1 << 20, 1, 5000, 1, { &any_root } },
    { "root of 2^43, waiting", 0, 0, (uint64_t)1 << 43, 1, 5000, 1, { &any_root } },
};

#define COUNT(LIST) (sizeof LIST / sizeof *LIST)
#define TABLE(NAME, UNIT, COUNTED, KIND, BY_TICK) \
    { NAME, UNIT, COUNTED, COUNT(KIND##_ways), COUNT(KIND##_works), KIND##_ways, KIND##_works, BY_TICK }
const struct table tables[] = {
    TABLE("run", "tick", 4, run, -1),
    TABLE("single tick", "call", 2000, tick, -1),
    TABLE("load", "pair of calls", 1000, load, -1),
    TABLE("blocks waiting", "call", 1000, wait, -1),
    TABLE("look-ahead", "look", 1000, look, LOOK_BY_TICK),
    TABLE("least root", "call", 1000, root, -1),
};
const int table_count = COUNT(tables);

int is_there(const struct table *t) { return t->way != root_ways || core_root; }
