/* Blocks that wait (02 §3): which are taken and where they start, how they come into work and on which tick they end, the cycles still to
 * do, looks through them, and which words of a record are read and written. Ends with 1 where something is otherwise. */
#include "told.h"

enum { ALL = 1 + VZ_QUEUE_BLOCKS, PATTERNS = 2 };

/* ---- seventeen blocks: lines, parts of a circle and full turns, each at its own feed, of the first four in whole pulses */

struct block {
    int64_t kind, x, y, feed, i, j;
};

static const struct block blocks[ALL] = {
    {1, 30, 40, 100003000, 0, 0},   {1, 30, -40, 299999000, 0, 0},  {3, 40, 30, 77777000, -30, 40}, {2, 40, 30, 123456000, -40, -30},
    {1, 0, 0, CAPACITY, 0, 0},      {1, 7, -3, 250001003, 0, 0},    {2, 11, -7, 211111111, 0, -4},  {1, 11, 20, 98765432, 0, 0},
    {3, 11, 20, 199999999, -9, 12}, {1, -60, 20, 287654321, 0, 0},  {1, -60, 21, 30000001, 0, 0},   {2, -40, 41, 150000000, 0, 20},
    {1, 12, 34, CAPACITY, 0, 0},    {3, -2, 20, 222222222, -14, 0}, {1, 50, 50, 271828182, 0, 0},   {2, 50, 50, 161803398, 3, -4},
    {1, 1, -2, 141421356, 0, 0},
};

static int64_t load(vz_record *m, struct block b)
{
    return b.kind == 1   ? vz_load_line(m, b.x, b.y, b.feed)
           : b.kind == 2 ? vz_load_cw(m, b.x, b.y, b.feed, b.i, b.j)
                         : vz_load_ccw(m, b.x, b.y, b.feed, b.i, b.j);
}

/* ---- what every call keeps */

/* How many words the record has; those behind are no part of it. */
static size_t own_words(const vz_record *m)
{
    return (size_t)VZ_WAITING_WORD(m->word[VZ_WORD_WAITING], 0);
}

/* The cycles still to do, counted by runs on a copy that is not held. */
static int64_t cycles(vz_record m)
{
    static uint8_t out[4096];
    uint64_t ticks;
    int64_t all = 0;
    is("release", vz_release(&m), 0);
    while (vz_run(&m, UINT64_MAX, out, sizeof out, &ticks) != VZ_IDLE && !wrong)
        for (uint64_t i = 0; i < ticks; i++)
            all += (out[i] & VZ_CYCLE) != 0;
    return all;
}

/* "After every call on a sound record this figure equals the count made afresh", and no word behind the record's was written. */
static void keeps(const char *what, const vz_record *before, const vz_record *m)
{
    const size_t own = own_words(m);
    is(what, m->word[VZ_WORD_LEFT], cycles(*m));
    is(what, memcmp(m->word + own, before->word + own, (VZ_RECORD_WORDS - own) * sizeof *m->word), 0);
}

/* So many of the blocks from the first on, loaded into a fresh machine. */
static vz_record with(int count)
{
    vz_record m = fresh();
    for (int n = 0; n < count; n++) {
        const vz_record before = m;
        is("taken", load(&m, blocks[n]) > 0, 1);
        keeps("the record after a load", &before, &m);
        is("waiting", m.word[VZ_WORD_WAITING], n);
    }
    return m;
}

/* ---- loads */

/* A line's cycles, or those of a quarter turn: the root of this number, rounded up or to the nearest. */
static int is_root(const struct block *b, int64_t x, int64_t y, int64_t r)
{
    const int64_t line = (b->x - x) * (b->x - x) + (b->y - y) * (b->y - y), arc = 2 * (b->i * b->i + b->j * b->j);
    return b->kind == 1 ? (r - 1) * (r - 1) < line && line <= r * r : r * r - r < arc && arc <= r * r + r;
}

/* The words of the blocks that wait are the loads' own numbers, in their order, each with its root. */
static void words(void)
{
    const vz_record m = with(ALL);
    is("root in work", m.word[VZ_WORD_ROOT], 50);
    for (int n = 0; n < VZ_QUEUE_BLOCKS; n++) {
        const struct block *b = &blocks[n + 1];
        const int64_t *w = m.word + VZ_WAITING_WORD(n, 0), given[] = {b->kind, b->x, b->y, b->feed, b->i, b->j};
        is("a block's words", memcmp(w, given, sizeof given), 0);
        is("a block's root", is_root(b, blocks[n].x, blocks[n].y, w[VZ_BLOCK_ROOT]), 1);
    }
}

/* 10 comes first, whatever else is wrong; and each other refusal goes by the place where the last block before it ends. */
static void refusals(void)
{
    static const struct block any[] = {{1, 1, 1, 1, 0, 0}, {1, 1, 1, 0, 0, 0}, {1, 101, 0, 1, 0, 0}, {1, 0, 0, 1, 0, 0},
                                       {2, 0, 0, 1, 0, 0}, {2, 1, 0, 1, 7, 0}, {3, 0, 0, 1, 80, 0},  {3, 0, 0, 1, 5, 0}};
    vz_record m = with(ALL), before = m;
    for (size_t i = 0; i < sizeof any / sizeof *any; i++)
        load_refused("full", &m, load(&m, any[i]), VZ_REFUSED_FULL, &before);
    for (int held = 0; held < 2; held++) {
        before = m = with(4); /* the last one ends at (40, 30) */
        if (held)
            is("hold", vz_hold(&m), 0);
        before = m;
        load_refused("feed", &m, vz_load_line(&m, 0, 0, CAPACITY + 1), VZ_REFUSED_FEED, &before);
        load_refused("end", &m, vz_load_line(&m, 0, -101, 1), VZ_REFUSED_END, &before);
        load_refused("still", &m, vz_load_line(&m, 40, 30, 1), VZ_REFUSED_STILL, &before);
        load_refused("centre", &m, vz_load_cw(&m, 40, 30, 1, 0, 0), VZ_REFUSED_CENTRE, &before);
        load_refused("circle", &m, vz_load_cw(&m, 0, 0, 1, 5, 0), VZ_REFUSED_CIRCLE, &before);
        load_refused("way", &m, vz_load_cw(&m, 40, 30, 1, 31, 0), VZ_REFUSED_WAY, &before);
        is("a turn there", vz_load_cw(&m, 40, 30, 1, 30, 0), 5);
        is("a line to the point of a busy machine", vz_load_line(&m, 0, 0, 1), 6);
    }
}

/* ---- coming into work */

/* What is in work is the n-th block from its start on. */
static void begins(const vz_record *m, int n)
{
    const struct block *b = &blocks[n], *last = &blocks[n - 1];
    const int64_t *w = m->word + VZ_WORD_NUMBERS;
    const int64_t line[] = {last->x, last->y, b->x, b->y, b->feed, m->word[VZ_WORD_ROOT], 0};
    const int64_t arc[] = {last->x + b->i, last->y + b->j, b->i * b->i + b->j * b->j, b->x, b->y, b->feed, 0};
    is("kind in work", m->word[VZ_WORD_WORK], b->kind);
    is("numbers in work", memcmp(w, b->kind == 1 ? line : arc, sizeof line), 0);
    is("root in work", is_root(b, last->x, last->y, m->word[VZ_WORD_ROOT]), 1);
}

/* First come first cut, tick by tick. A tick that ends no block writes no word of the queue, and the one that does brings the next block
 * into work at once. */
static void by_ticks(void)
{
    vz_record m = with(ALL);
    for (int n = 0; n < ALL && !wrong;) {
        const vz_record before = m;
        const int64_t byte = vz_tick(&m);
        keeps("the record after a tick", &before, &m);
        if (!(byte & VZ_END)) {
            is("the queue after a tick", memcmp(m.word + VZ_WORD_WAITING, before.word + VZ_WORD_WAITING,
                                                (VZ_RECORD_WORDS - VZ_WORD_WAITING) * sizeof *m.word), 0);
            continue;
        }
        is("x", m.word[VZ_WORD_X], blocks[n].x);
        is("y", m.word[VZ_WORD_Y], blocks[n].y);
        if (++n == ALL)
            break;
        begins(&m, n);
        is("waiting", m.word[VZ_WORD_WAITING], ALL - 1 - n);
        is("the others move up", memcmp(m.word + VZ_WORD_QUEUE, before.word + VZ_WAITING_WORD(1, 0),
                                        (own_words(&m) - VZ_WORD_QUEUE) * sizeof *m.word), 0);
    }
    is("nothing in work", m.word[VZ_WORD_WORK], 0);
    is("no root", m.word[VZ_WORD_ROOT], 0);
}

/* What the bytes of a run are charged: 1,000 for a line's cycle, and for an arc's step 1,414 with two pulses. */
static int64_t charges(const uint8_t *bytes, uint64_t count, int64_t kind)
{
    int64_t all = 0;
    for (const uint8_t *b = bytes; b < bytes + count; b++)
        if (*b & VZ_CYCLE)
            all += kind != 1 && VZ_X_CODE(*b) != 0 && VZ_Y_CODE(*b) != 0 ? 1414 : 1000;
    return all;
}

/* "A run still stops there. Its end tick counts from there, with the remainder then." */
static void by_runs(void)
{
    static uint8_t out[100000];
    vz_record m = with(ALL);
    uint64_t ticks;
    for (int n = 0; n < ALL; n++) {
        const vz_record before = m;
        is("ended", vz_run(&m, UINT64_MAX, out, sizeof out, &ticks), VZ_ENDED);
        keeps("the record after a run", &before, &m);
        const int64_t due = charges(out, ticks, blocks[n].kind) * CAPACITY - before.word[VZ_WORD_REMAINDER], fed = 1000 * blocks[n].feed;
        is("end tick", (int64_t)ticks, (due + fed - 1) / fed);
        is("remainder", m.word[VZ_WORD_REMAINDER], (int64_t)ticks * fed - due);
    }
    is("idle", vz_run(&m, 1, out, sizeof out, &ticks), VZ_IDLE);
}

/* A stop drops what waits too, and leaves a hold. */
static void stops(void)
{
    vz_record m = with(ALL), before = m;
    is("a tick", vz_tick(&m), 0);
    is("hold", vz_hold(&m), 0);
    keeps("the record after a hold", &before, &m);
    before = m;
    is("byte while held", vz_tick(&m), 0);
    is("words while held", memcmp(&m, &before, sizeof m), 0);
    is("stop", vz_stop(&m), 0);
    keeps("the record after a stop", &before, &m);
    for (int i = 0; i < VZ_WORD_QUEUE; i++)
        is("words of a stop", m.word[i], i < VZ_WORD_REMAINDER ? before.word[i] : 0);
}

/* ---- text lines, read ahead */

/* The travel is 2 mm each way. */
static void lines(void)
{
    vz_record m = fresh();
    vz_known k = VZ_NOTHING_KNOWN;
    is("G1 X1 F100", read_line(&m, &k, "G1 X1 F100"), 6);
    is("Y from there", read_line(&m, &k, "Y0.5"), 5);
    is("a line to the last end", read_line(&m, &k, "X1 Y0.5"), 0);
    is("a quarter turn from there", read_line(&m, &k, "G2 X1.2 Y0.3 J-0.2"), 4);
    is("a line to the last end", read_line(&m, &k, "G1 X1.2"), 0);
    line_refused(&m, &k, "X2.02", VZ_REFUSED_END);
    is("back to the point", read_line(&m, &k, "X0 Y0"), 6);
    is("waiting", m.word[VZ_WORD_WAITING], 3);
    is("the arc's centre", m.word[VZ_WAITING_WORD(1, VZ_BLOCK_J)], -10);
    while (m.word[VZ_WORD_WAITING] < VZ_QUEUE_BLOCKS && !wrong)
        is("and on", read_line(&m, &k, m.word[VZ_WORD_WAITING] % 2 ? "X1" : "X0") > 0, 1);
    line_refused(&m, &k, "X0.5 F1", VZ_REFUSED_FULL);
    line_refused(&m, &k, "G3 F0 I1", VZ_REFUSED_FULL);
    line_refused(&m, &k, "X0.01", VZ_REFUSED_PULSE);
    is("no block while 16 wait", read_line(&m, &k, "X1 F200"), 0);
    is("F known", k.word[VZ_KNOWN_FEED], 200000);
}

/* ---- looks */

/* A look of so many ticks from here is what they give on a copy, through all that wait: in every word, those behind the record too. */
static void looks(const vz_record *m)
{
    vz_record ticked = *m;
    for (uint64_t ticks = 0; !wrong; ticks++) {
        const struct ahead a = look("a look", m, ticks, 0);
        is("words of a look", memcmp(&a.then, &ticked, sizeof ticked), 0);
        is("sum of a look", a.sums.x, ticked.word[VZ_WORD_X] - m->word[VZ_WORD_X]);
        is("sum of a look", a.sums.y, ticked.word[VZ_WORD_Y] - m->word[VZ_WORD_Y]);
        if (ticked.word[VZ_WORD_WORK] == 0 || ticked.word[VZ_WORD_HELD] != 0)
            break;
        is("tick", vz_tick(&ticked) >= 0, 1);
    }
    const struct ahead end = look("a far look", m, VZ_AHEAD_TICKS, 0);
    is("words of a far look", memcmp(&end.then, &ticked, sizeof ticked), 0);
    look_refused("too far", m, VZ_AHEAD_TICKS + 1, VZ_REFUSED_FAR);
}

static void ahead(void)
{
    static const int counts[] = {1, 2, 4, ALL};
    for (size_t i = 0; i < sizeof counts / sizeof *counts; i++) {
        vz_record m = with(counts[i]);
        looks(&m);
        m.word[VZ_WORD_REMAINDER] = INT64_C(1414) * CAPACITY - 1; /* the greatest of a sound record: still one cycle a tick */
        looks(&m);
        is("hold", vz_hold(&m), 0);
        looks(&m);
    }
}

/* ---- made-up records */

/* Each word of 16 blocks that wait, of the root and of the figure: a number beside its own is no sound record. A feed may be another one,
 * but not out of its range, and a full turn may go the other way round. */
static void damaged(void)
{
    const vz_record m = with(ALL);
    vz_record turned = m;
    for (int at = VZ_WORD_ROOT; at < VZ_RECORD_WORDS; at++) {
        const int word = at < VZ_WORD_QUEUE ? -1 : (at - VZ_WORD_QUEUE) % VZ_BLOCK_WORDS;
        const int64_t was = m.word[at], below = word == VZ_BLOCK_FEED || word == VZ_BLOCK_KIND ? 0 : was - 1;
        const int64_t above = word == VZ_BLOCK_FEED ? CAPACITY + 1 : word == VZ_BLOCK_KIND ? 4 : was + 1;
        const int64_t to[] = {below, above, -was - 1, INT64_MIN, INT64_MAX};
        for (size_t i = 0; i < sizeof to / sizeof *to; i++) {
            vz_record bad = m;
            bad.word[at] = to[i];
            refused("a damaged queue", &bad);
        }
    }
    turned.word[VZ_WAITING_WORD(1, VZ_BLOCK_KIND)] = 2;
    refused("part of a circle the other way round", &turned);
}

/* None waits where nothing is in work, and no more than 16 wait. */
static void lengths(void)
{
    static const int64_t first[VZ_BLOCK_WORDS] = {1, 30, 40, 100003000, 0, 0, 50}; /* blocks[0], from (0, 0) */
    vz_record idle = fresh(), m = with(ALL), next = m;
    memcpy(idle.word + VZ_WORD_QUEUE, first, sizeof first);
    idle.word[VZ_WORD_WAITING] = 1;
    idle.word[VZ_WORD_LEFT] = 50;
    refused("one waits and nothing is in work", &idle);
    next.word[VZ_WORD_WAITING] = ALL;
    refused("17 wait", &next);
    next = with(1);
    memcpy(next.word + VZ_WORD_QUEUE, m.word + VZ_WORD_QUEUE, VZ_BLOCK_WORDS * sizeof *m.word);
    is("what stands behind the record does not count", vz_hold(&next), 0);
    next.word[VZ_WORD_WAITING] = 1;
    refused("a figure without the block that waits", &next);
    next.word[VZ_WORD_LEFT] += next.word[VZ_WAITING_WORD(0, VZ_BLOCK_ROOT)];
    is("and with it", vz_hold(&next), 0);
}

/* The same record under another number, its feeds and its remainder times so many and divided by so many. */
static vz_record scaled(vz_record m, int64_t abi, int64_t times, int64_t by)
{
    const int64_t kind = m.word[VZ_WORD_WORK];
    m.word[VZ_WORD_ABI] = abi;
    m.word[VZ_WORD_REMAINDER] = m.word[VZ_WORD_REMAINDER] * times / by;
    if (kind != 0) {
        int64_t *feed = &m.word[VZ_WORD_NUMBERS + (kind == 1 ? 4 : 5)];
        *feed = *feed * times / by;
    }
    for (int64_t n = 0; n < m.word[VZ_WORD_WAITING]; n++) {
        int64_t *feed = &m.word[VZ_WAITING_WORD(n, VZ_BLOCK_FEED)];
        *feed = *feed * times / by;
    }
    return m;
}

/* A record of layout 3, which had whole pulses, carried over as the header says: it is the one of this layout in every word. */
static void carried_from_3(const vz_record *m)
{
    const vz_record old = scaled(*m, 3, 1, 1000), carried = scaled(old, VZ_ABI, 1000, 1);
    refused("layout 3", &old);
    is("a record carried over from 3", memcmp(&carried, m, sizeof carried), 0);
}

/* One of layout 2 before that: its 19 words, and three more with this root. */
static void carried_from_2(const vz_record *made, int64_t root)
{
    vz_record last = *made, m;
    while (last.word[VZ_WORD_WAITING] > 0 && !wrong)
        is("tick", vz_tick(&last) >= 0, 1);
    const vz_record old = scaled(last, 2, 1, 1000);
    memset(&m, 0, sizeof m);
    memcpy(&m, &old, VZ_BENCH_WORDS * sizeof *m.word);
    refused("layout 2", &m);
    m.word[VZ_WORD_ROOT] = root;
    m.word[VZ_WORD_LEFT] = cycles(last);
    m = scaled(m, VZ_ABI, 1000, 1);
    is("a record carried over from 2", vz_hold(&m), 0);
}

static void carried(void)
{
    vz_record four = with(4);
    const vz_record none = fresh(), one = with(1);
    carried_from_2(&none, 0);
    carried_from_2(&one, 50);  /* the line */
    carried_from_2(&four, 71); /* a quarter turn of radius 50 */
    carried_from_3(&none);
    while (four.word[VZ_WORD_WORK] != 0 && !wrong) {
        carried_from_3(&four);
        is("tick", vz_tick(&four) >= 0, 1);
    }
    carried_from_3(&four);
}

/* ---- histories: what stands behind the record makes no answer another, and stays */

static uint64_t drawn(uint64_t below)
{
    static uint64_t seed = 1;
    seed = seed * 6364136223846793005u + 1442695040888963407u;
    return (seed >> 33) % below;
}

struct call {
    uint64_t which, budget;
    struct block block;
    const char *line;
};

static struct call drawn_call(void)
{
    static const char *const texts[] = {"X0.5", "Y-1", "X1 Y1", "G3 I-0.1", "G1", "X9", "F3000 X0"};
    const struct block b = {1 + (int64_t)drawn(3), (int64_t)drawn(160) - 80, (int64_t)drawn(160) - 80, 1 + (int64_t)drawn(CAPACITY), 0, 0};
    struct call c = {drawn(16), drawn(300), b, texts[drawn(7)]};
    if (b.kind != 1) {
        c.block = blocks[drawn(ALL)];
        c.block.feed = b.feed;
    }
    return c;
}

static int64_t done(const struct call *c, vz_record *m, vz_known *k, uint8_t *out)
{
    uint64_t ticks;
    switch (c->which) {
    case 0: return vz_hold(m);
    case 1:
    case 2: return vz_release(m);
    case 3: return c->budget % 32 ? vz_tick(m) : vz_stop(m);
    case 4:
    case 5: return vz_run(m, c->budget, out, 256, &ticks);
    case 6:
    case 7: return read_line(m, k, c->line);
    case 8:
    case 9: return vz_tick(m);
    default: return load(m, c->block);
    }
}

static void histories(void)
{
    vz_record m[PATTERNS];
    vz_known k[PATTERNS] = {{{1, 6000000}}, {{1, 6000000}}};
    uint8_t out[PATTERNS][256] = {{0}};
    int64_t most = 0, refused_by_10 = 0;
    for (int p = 0; p < PATTERNS; p++) {
        memset(&m[p], p == 0 ? 0 : 0xff, sizeof *m);
        is("make", vz_make(&m[p], 50, 5000, -100, 100, -100, 100), 0);
        for (int at = VZ_WORD_QUEUE; at < VZ_RECORD_WORDS; at++)
            is("what a make leaves", m[p].word[at], -p);
    }
    for (int turn = 0; turn < 4000 && !wrong; turn++) {
        const struct call c = drawn_call();
        int64_t told[PATTERNS];
        for (int p = 0; p < PATTERNS; p++) {
            const vz_record before = m[p];
            told[p] = done(&c, &m[p], &k[p], out[p]);
            keeps("a record of a history", &before, &m[p]);
        }
        is("the answer", told[1], told[0]);
        is("the record", memcmp(&m[1], &m[0], own_words(&m[0]) * sizeof *m->word), 0);
        is("the bytes", memcmp(out[1], out[0], sizeof *out), 0);
        most = m[0].word[VZ_WORD_WAITING] > most ? m[0].word[VZ_WORD_WAITING] : most;
        refused_by_10 += told[0] == -VZ_REFUSED_FULL;
    }
    is("the queue was full", most, VZ_QUEUE_BLOCKS);
    is("and refused some", refused_by_10 > 0, 1);
}

int main(void)
{
    words();
    refusals();
    by_ticks();
    by_runs();
    stops();
    lines();
    ahead();
    damaged();
    lengths();
    carried();
    histories();
    return wrong;
}
