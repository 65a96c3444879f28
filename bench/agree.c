/* All sides must give the same bytes, answers and records before anything is timed. */
#include "record.h"
#include "root.h"
#include "verdaizka.h"
#include "works.h"

#include <stdio.h>
#include <stdlib.h>
#include <string.h>

_Static_assert(WORDS == VZ_RECORD_WORDS, "the plain programs know the record");

enum { SIDES = 3, HISTORIES = 4000, TICKS = 60, MORE_TICKS = 40000000 }; /* more than any timed block has */

static void must(int right, const char *what)
{
    if (right)
        return;
    fprintf(stderr, "bench: the core and a plain program differ: %s\n", what);
    exit(1);
}

/* A fixed row of numbers in 0..below-1 (splitmix64). */
static int64_t drawn(int64_t below)
{
    static uint64_t state;
    uint64_t z = state += 0x9e3779b97f4a7c15;
    z = (z ^ z >> 30) * 0xbf58476d1ce4e5b9;
    z = (z ^ z >> 27) * 0x94d049bb133111eb;
    return (int64_t)((z ^ z >> 31) % (uint64_t)below);
}

/* ---- runs: the first two hundred buffers, which end the block at the faster feeds */

static void agree_run(const struct work *w, plain_run_line *line, plain_run_arc *arc)
{
    static uint8_t out[2][BUFFER];
    int64_t words[WORDS];
    struct plain_run plain = plain_begun(w);
    loaded(words, w);
    for (int i = 0; i < 200 && words[WORD_WORK] != 0; i++) {
        uint64_t ticks;
        must(vz_run((vz_record *)words, UINT64_MAX, out[0], BUFFER - 7, &ticks) >= 0, w->name);
        must(plain_run_on(&plain, line, arc, BUFFER - 7, out[1]) == ticks && memcmp(out[0], out[1], ticks) == 0, w->name);
    }
}

/* ---- calls on the words */

static plain_call *const tick[SIDES] = { core_tick, c_words_tick, rust_words_tick };
static plain_call *const stop[SIDES] = { core_stop, c_words_stop, rust_words_stop };
static plain_load *const load[SIDES] = { core_load, c_words_load, rust_words_load };

static void same_records(int64_t words[SIDES][WORDS], const int64_t *answers, const char *what)
{
    for (int s = 1; s < SIDES; s++)
        must(answers[s] == answers[0] && memcmp(words[s], words[0], sizeof words[0]) == 0, what);
}

static void call_all(int64_t words[SIDES][WORDS], plain_call *const *call, const char *what)
{
    int64_t answers[SIDES];
    for (int s = 0; s < SIDES; s++)
        answers[s] = call[s](words[s]);
    same_records(words, answers, what);
}

static void load_all(int64_t words[SIDES][WORDS], const struct plain_block *b)
{
    int64_t answers[SIDES];
    for (int s = 0; s < SIDES; s++)
        answers[s] = load[s](words[s], b);
    same_records(words, answers, "load");
}

static int64_t near_zero(int64_t reach) { return drawn(2 * reach + 1) - reach; }

/* How many words a record has; those behind are no part of it. */
static size_t own_words(const int64_t *words) { return WORD_QUEUE + BLOCK_WORDS * (size_t)words[WORD_WAITING]; }

/* Where a block starts: where the last one that waits ends, else the one in work, else at the point. */
static const int64_t *start_in(const int64_t *words)
{
    if (words[WORD_WAITING] > 0)
        return words + own_words(words) - BLOCK_WORDS + 1;
    return words[WORD_WORK] == 0 ? words + WORD_X : words + WORD_NUMBERS + (words[WORD_WORK] == 1 ? 2 : 3);
}

/* A block near the last one's end, most often one that is taken: the end of an arc is the start turned about the centre by quarters, now
 * and then beside it. */
static struct plain_block drawn_block(const int64_t *words, int64_t reach)
{
    const int64_t *start = start_in(words), x = start[0], y = start[1], capacity = PER_CLOCK * words[WORD_W];
    struct plain_block b = { 1 + drawn(3), x + near_zero(reach), y + near_zero(reach), 1 + drawn(capacity), 0, 0 };
    if (drawn(16) == 0)
        b.feed = capacity * drawn(2) + drawn(2);
    if (b.kind == 1)
        return b;
    b.i = near_zero(reach);
    b.j = near_zero(reach);
    const int64_t turned[4][2] = { { -b.i, -b.j }, { b.j, -b.i }, { b.i, b.j }, { -b.j, b.i } }, *e = turned[drawn(4)];
    b.x = x + b.i + e[0] + (drawn(8) == 0);
    b.y = y + b.j + e[1];
    return b;
}

/* What a word is changed to: a number near it, one with a bit turned over, another word's, or one at the end of the feeds or of the
 * remainders of a sound record. */
static int64_t spoil(const int64_t *words, int64_t at)
{
    switch (drawn(5)) {
    case 0: return words[at] + drawn(5) - 2;
    case 1: return (int64_t)((uint64_t)words[at] ^ (uint64_t)1 << drawn(64));
    case 2: return words[drawn((int64_t)own_words(words))];
    case 3: return 1414 * PER_CLOCK * words[WORD_W] - 1 + drawn(2);
    default: return PER_CLOCK * words[WORD_W] + drawn(2);
    }
}

/* ---- look-aheads */

/* By closed forms, on words that may be no record: answer, record ahead and sums; and neither side writes to the words. */
static void agree_ahead(const int64_t *words, uint64_t ticks)
{
    int64_t own[WORDS], then[2][WORDS];
    struct plain_sums sums[2];
    memcpy(own, words, sizeof own);
    const int64_t answer = core_ahead(own, ticks, then[0], &sums[0]);
    must(c_words_ahead(own, ticks, then[1], &sums[1]) == answer, "a look's answer");
    const size_t known = answer < 0 ? WORDS : own_words(then[0]);
    must(memcmp(then[0], then[1], known * sizeof *words) == 0 && memcmp(&sums[0], &sums[1], sizeof *sums) == 0, "a look");
    must(memcmp(own, words, sizeof own) == 0, "the record of a look");
}

/* Near, as far as a block of the history may take, and around the most. */
static uint64_t drawn_ticks(void)
{
    switch (drawn(4)) {
    case 0: return (uint64_t)drawn(8);
    case 1: return (uint64_t)drawn(1000);
    case 2: return (uint64_t)drawn(1000001);
    default: return 1000000 - 1 + (uint64_t)drawn(3);
    }
}

/* The timed looks: tick by tick, to the block's end too, and what is kept of them. */
static void agree_look(const struct work *w)
{
    const struct plain_run plain = plain_begun(w);
    int64_t words[WORDS], then[WORDS];
    struct plain_sums sums;
    loaded(words, w);
    must(core_ahead(words, w->given, then, &sums) == 0, w->name);
    const struct plain_sums other = plain_look(&plain, w->given), end = plain_look(&plain, MORE_TICKS);
    must(sums.x == other.x && sums.y == other.y, w->name);
    must(end.x == (w->arc ? 0 : words[WORD_NUMBERS + 2]) && end.y == (w->arc ? 0 : words[WORD_NUMBERS + 3]), "a look to the end");
    must(looked(LOOK_CORE, w, 99) == looked(LOOK_CLOSED, w, 99), w->name);
}

/* Words that mostly are no sound record: one of them is changed. */
static void agree_spoilt(int64_t words[SIDES][WORDS])
{
    int64_t spoilt[SIDES][WORDS], at = drawn((int64_t)own_words(words[0])), to = spoil(words[0], at);
    memcpy(spoilt, words, sizeof spoilt);
    for (int s = 0; s < SIDES; s++)
        spoilt[s][at] = to;
    agree_ahead(spoilt[0], drawn_ticks());
    call_all(spoilt, tick, "tick on a changed record");
}

/* Ticks in place, as many as have just been done on the words of the core. */
static void agree_place(const int64_t *before, const int64_t *after, uint64_t sum, uint64_t ticks)
{
    int64_t words[WORDS];
    memcpy(words, before, sizeof words);
    must(c_place_ticks(words, ticks) == sum && memcmp(words, after, sizeof words) == 0, "ticks in place");
}

/* ---- makes, refused ones too */

static int is_within(int64_t lower, int64_t v, int64_t upper) { return lower <= v && v <= upper; }

static int is_axis(const int64_t *bounds) { return is_within(-1000000, bounds[0], 0) && is_within(0, bounds[1], 1000000); }

/* Minus the first question from 1 to 3 that says no, or 0. */
static int64_t make_no(const int64_t *s)
{
    if (!is_within(1, s[0], 1000))
        return -1;
    if (!is_within(1000, s[1], 20000))
        return -2;
    return is_axis(s + 2) && is_axis(s + 4) ? 0 : -3;
}

static void agree_make(void)
{
    static const int64_t standard[6] = { 50, 5000, -1000000, 1000000, -1000000, 1000000 };
    int64_t given[6], words[WORDS] = { 0 }, wanted[WORDS] = { [WORD_ABI] = ABI };
    memcpy(given, standard, sizeof given);
    given[drawn(6)] = drawn(2) ? near_zero(3) : near_zero(1000002);
    const int64_t no = make_no(given);
    memcpy(wanted + WORD_P, no ? standard : given, sizeof given);
    must(vz_make((vz_record *)words, given[0], given[1], given[2], given[3], given[4], given[5]) == no, "make's answer");
    must(memcmp(words, wanted, sizeof words) == 0, "the record of a make");
}

/* ---- histories */

/* Ticks, before each of which the record is looked ahead from, and spoilt. */
static void agree_ticks(int64_t words[SIDES][WORDS])
{
    int64_t before[WORDS], was[WORDS];
    uint64_t sum = 0;
    memcpy(before, words[0], sizeof before);
    for (int i = 0; i < TICKS; i++) {
        agree_spoilt(words);
        agree_ahead(words[0], drawn_ticks());
        memcpy(was, words[0], sizeof was);
        sum = plain_mix(sum, core_tick(was));
        call_all(words, tick, "tick");
    }
    agree_place(before, words[0], sum, TICKS);
}

/* Up to 18 blocks come at a time, in half of the histories one. */
static void agree_history(void)
{
    int64_t words[SIDES][WORDS] = { { 0 } };
    const int64_t reach = drawn(4) ? 12 : 400000, room = 2 * reach, many = drawn(2) ? 1 : QUEUE + 2;
    const int64_t p = 1 + drawn(1000), w = 1000 + drawn(19001);
    must(vz_make((vz_record *)words[0], p, w, -drawn(room), drawn(room), -drawn(room), drawn(room)) == 0, "make");
    for (int s = 1; s < SIDES; s++)
        memcpy(words[s], words[0], sizeof words[0]);
    for (int burst = 0; burst < 4; burst++) {
        for (int64_t blocks = 1 + drawn(many); blocks > 0; blocks--) {
            struct plain_block b = drawn_block(words[0], reach);
            load_all(words, &b);
        }
        agree_ticks(words);
        if (drawn(2))
            call_all(words, stop, "stop");
    }
}

/* ---- loads in place, calls while blocks wait, and roots */

static void agree_loads(const struct plain_block *block)
{
    int64_t words[WORDS], other[WORDS];
    uint64_t sum = 0;
    fresh(words);
    for (uint64_t i = 0; i < 1000; i++) {
        struct plain_block b = plain_nth(*block, i);
        sum = plain_mix(sum, core_load(words, &b));
        sum = plain_mix(sum, core_stop(words));
    }
    fresh(other);
    must(c_place_loads(other, block, 1000) == sum && memcmp(other, words, sizeof words) == 0, "loads in place");
}

static void agree_root(uint64_t s)
{
    uint64_t r = c_root_bits(s);
    must(c_root(s) == r && c_root_newton(s) == r && rust_root(s) == r && rust_isqrt(s) == r, "root");
    must(!core_root || core_root(s) == r, "root");
}

/* r is the nearest root from r * r - r + 1 up to r * r + r. */
static void agree_nearest(int64_t r)
{
    must(nearest_root(r * r + r) == r && nearest_root(r * r + r + 1) == r + 1, "nearest root");
}

static void agree_roots(void)
{
    for (int i = 0; i < 20000; i++) {
        uint64_t r = (uint64_t)drawn((int64_t)1 << (1 + drawn(22)));
        agree_nearest((int64_t)r);
        agree_root(r * r);
        agree_root(r * r + 1);
        agree_root((uint64_t)drawn((int64_t)1 << (1 + drawn(44))));
    }
}

void agree(void)
{
    for (const struct work *w = tables[0].work; w < tables[0].work + tables[0].works; w++) {
        agree_run(w, c_line_ticks, c_arc_ticks);
        agree_run(w, c_line_cycles, c_arc_cycles);
        agree_run(w, rust_line_ticks, rust_arc_ticks);
        agree_run(w, rust_line_cycles, rust_arc_cycles);
    }
    for (const struct work *w = look_works; w < look_works + LOOK_WORKS; w++)
        agree_look(w);
    for (const struct work *w = wait_works; w < wait_works + WAIT_WORKS; w++)
        must(waited(WAIT_CORE, w, 99) == waited(WAIT_C, w, 99), w->name);
    for (int i = 0; i < HISTORIES; i++) {
        agree_make();
        agree_history();
    }
    agree_loads(&(struct plain_block){ 1, 900000, -556231, 1, 0, 0 });
    agree_loads(&(struct plain_block){ 3, 0, 0, 1, -500000, 0 });
    agree_roots();
}
