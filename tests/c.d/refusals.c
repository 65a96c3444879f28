/* Every number of include/verdaizka.h once but 10, which queue.c has, and that words which are no sound record stay as they are, with
 * everything else that a call could write. Ends with 1 where an answer is another. */
#include <fenv.h>

#include "told.h"

/* The last of what is in work: of a line its cycles done. */
enum { LAST_NUMBER = VZ_WORD_NUMBERS + 6 };

static void make(void)
{
    vz_record m;
    is("p", vz_make(&m, 0, 5000, 0, 0, 0, 0), -VZ_REFUSED_P);
    is("p", vz_make(&m, -1, 5000, 0, 0, 0, 0), -VZ_REFUSED_P);
    is("w", vz_make(&m, 50, 999, 0, 0, 0, 0), -VZ_REFUSED_W);
    is("w", vz_make(&m, 50, INT64_MIN, 0, 0, 0, 0), -VZ_REFUSED_W);
    is("travel", vz_make(&m, 50, 5000, 1, 2, 0, 0), -VZ_REFUSED_TRAVEL);
    is("p of a refused make", m.word[VZ_WORD_P], 50);
    is("travel of a refused make", m.word[VZ_WORD_X_LOWER], -1000000);
}

static void load(void)
{
    vz_record m = fresh(), idle = m;
    load_refused("feed", &m, vz_load_line(&m, 1, 1, CAPACITY + 1), VZ_REFUSED_FEED, &idle);
    load_refused("feed", &m, vz_load_line(&m, 1, 1, -1), VZ_REFUSED_FEED, &idle);
    load_refused("end", &m, vz_load_line(&m, 101, 0, 1), VZ_REFUSED_END, &idle);
    load_refused("still", &m, vz_load_line(&m, 0, 0, 1), VZ_REFUSED_STILL, &idle);
    load_refused("centre", &m, vz_load_cw(&m, 0, 0, 1, 0, 0), VZ_REFUSED_CENTRE, &idle);
    load_refused("circle", &m, vz_load_cw(&m, 3, 0, 1, 5, 0), VZ_REFUSED_CIRCLE, &idle);
    load_refused("way", &m, vz_load_ccw(&m, 0, 0, 1, 60, 0), VZ_REFUSED_WAY, &idle);
}

static void lines(void)
{
    static const char blanks[] = "                                                                                 ";
    vz_record m = fresh();
    vz_known k = VZ_NOTHING_KNOWN, bad = { { 4, -1 } };
    is("81 blanks", (int64_t)strlen(blanks), VZ_LINE_BYTES + 1);
    line_refused(&m, &bad, "F100", VZ_REFUSED_RECORD);
    bad = (vz_known){ { 0, -2 } };
    line_refused(&m, &bad, "F100", VZ_REFUSED_RECORD);
    line_refused(&m, &k, blanks, VZ_REFUSED_LONG_LINE);
    line_refused(&m, &k, "X1\r", VZ_REFUSED_WORDS);
    line_refused(&m, &k, "X1 X1", VZ_REFUSED_TWICE);
    line_refused(&m, &k, "G4", VZ_REFUSED_MOTION);
    line_refused(&m, &k, "X0.01", VZ_REFUSED_PULSE);
    line_refused(&m, &k, "X1 G1", VZ_REFUSED_UNKNOWN);
    is("G1 F100", read_line(&m, &k, "G1 F100"), 0);
    is("G known", k.word[VZ_KNOWN_MOTION], 1);
    is("F known", k.word[VZ_KNOWN_FEED], 100000);
    line_refused(&m, &k, "I1", VZ_REFUSED_IJ);
    line_refused(&m, &k, "X3", VZ_REFUSED_END);
    is("an empty line", read_line(&m, &k, ""), 0);
    is("X0", read_line(&m, &k, "X0"), 0);
    is("X1", read_line(&m, &k, "X1"), 6);
}

/* The line (3, -4) at a cycle for each tick: (1, -1), (1, -2), (2, -2), (2, -3), (3, -4). */
static void bytes(void)
{
    vz_record m = fresh();
    uint8_t out[8] = {0, 0, 0, 0, 0, 0, 0, 0};
    uint64_t ticks;
    is("idle", vz_run(&m, 1, out, sizeof out, &ticks), VZ_IDLE);
    is("width", vz_load_line(&m, 3, -4, CAPACITY), 3);
    is("hold", vz_hold(&m), 0);
    is("held", vz_run(&m, 1, out, sizeof out, &ticks), VZ_HELD);
    is("byte while held", vz_tick(&m), 0);
    is("release", vz_release(&m), 0);
    is("byte", vz_tick(&m), 1 + 4 * 2 + 16);
    is("spent", vz_run(&m, 1, out, sizeof out, &ticks), VZ_SPENT);
    is("full", vz_run(&m, 9, out + 1, 1, &ticks), VZ_FULL);
    is("ended", vz_run(&m, 9, out + 2, 6, &ticks), VZ_ENDED);
    is("ticks", (int64_t)ticks, 2);
    is("bytes", memcmp(out, "\x18\x11\x18\x39\0\0\0\0", 8), 0);
    is("x", m.word[VZ_WORD_X], 3);
    is("y", m.word[VZ_WORD_Y], -4);
    is("width of an arc", vz_load_cw(&m, 3, -4, 1, 5, 0), 3);
    is("stop", vz_stop(&m), 0);
    is("work after a stop", m.word[VZ_WORD_WORK], 0);
}

/* A look of so many ticks is what so many vz_tick give on a copy, their bytes added up, and leaves the record. */
static void looks(const vz_record *m, uint64_t ticks)
{
    static const int64_t pulses[] = {0, 1, -1, INT32_MAX};
    vz_record ticked = *m;
    vz_sums sent = {0, 0};
    for (uint64_t i = 0; i < ticks; i++) {
        int64_t byte = vz_tick(&ticked);
        sent.x += pulses[VZ_X_CODE(byte)];
        sent.y += pulses[VZ_Y_CODE(byte)];
    }
    struct ahead a = look("a look", m, ticks, 0);
    is("words of a look", memcmp(&a.then, &ticked, sizeof ticked), 0);
    is("sum of a look", a.sums.x, sent.x);
    is("sum of a look", a.sums.y, sent.y);
}

/* Ten ticks from here on, one by one: the last of them are after the block's end. */
static void ahead(vz_record m)
{
    vz_record held = m;
    is("hold", vz_hold(&held), 0);
    for (uint64_t ticks = 0; ticks <= 10; ticks++) {
        looks(&m, ticks);
        looks(&held, ticks);
    }
    looks(&m, VZ_AHEAD_TICKS);
    look_refused("too far", &m, VZ_AHEAD_TICKS + 1, VZ_REFUSED_FAR);
    for (int bit = 20; bit < 64; bit++)
        look_refused("too far", &m, (uint64_t)1 << bit, VZ_REFUSED_FAR);
    look_refused("too far, held", &held, VZ_AHEAD_TICKS + 1, VZ_REFUSED_FAR);
}

/* The line (3, -4) at a cycle for each tick: two ticks on it is at (1, -2), three after that at its end. */
static void ahead_of_line(void)
{
    vz_record m = fresh(), then;
    vz_sums sums;
    is("width", vz_load_line(&m, 3, -4, CAPACITY), 3);
    is("two ahead", vz_ahead(&m, 2, &then, &sums), 0);
    is("x", then.word[VZ_WORD_X], 1);
    is("y", then.word[VZ_WORD_Y], -2);
    is("cycles done", then.word[LAST_NUMBER], 2);
    is("cycles left", then.word[VZ_WORD_LEFT], 3);
    is("sum", sums.x, 1);
    is("sum", sums.y, -2);
    is("and three", vz_ahead(&then, 3, &m, &sums), 0);
    is("x", m.word[VZ_WORD_X], 3);
    is("work", m.word[VZ_WORD_WORK], 0);
    is("sum", sums.x, 2);
    is("sum", sums.y, -2);
}

/* The same with the greatest remainder of a sound record, below 1,414 * 60,000 * w: at most one cycle is done on each tick. */
static void ahead_of_much(vz_record m)
{
    m.word[VZ_WORD_REMAINDER] = INT64_C(1414) * CAPACITY - 1;
    ahead(m);
}

/* Idle, on slow and fast lines and arcs, and in the midst of one. */
static void everywhere(void)
{
    vz_record m = fresh(), line = m, arc = m;
    ahead(m);
    is("a slow line", vz_load_line(&m, 3, 4, 1001), 3);
    ahead(m);
    ahead_of_much(m);
    is("a line", vz_load_line(&line, -3, 4, CAPACITY), 3);
    ahead(line);
    ahead_of_much(line);
    is("a tick", vz_tick(&line), 2 + 4 + 16);
    ahead(line);
    is("an arc", vz_load_ccw(&arc, 4, 2, 200000000, 4, -3), 3);
    ahead(arc);
    ahead_of_much(arc);
    is("stop", vz_stop(&arc), 0);
    is("a full turn", vz_load_cw(&arc, 0, 0, 7007, 5, 0), 3);
    ahead(arc);
}

/* The largest circle there may be, N 2,000,000,000,000, both ways round: a million cycles in 1,171,485 ticks, and looks to the end. No
 * setting of the floating-point unit makes an answer another, nor does a look change one. */
static void largest(void)
{
    static const int modes[] = {FE_TONEAREST, FE_UPWARD, FE_DOWNWARD, FE_TOWARDZERO};
    vz_record wide, cw, ccw;
    is("make", vz_make(&wide, 50, 5000, -1000000, 1000000, -1000000, 1000000), 0);
    cw = ccw = wide;
    is("clockwise", vz_load_cw(&cw, -414214, 1000000, CAPACITY, 1000000, 1000000), 21);
    is("counterclockwise", vz_load_ccw(&ccw, 1000000, -414214, CAPACITY, 1000000, 1000000), 21);
    for (int i = 0; i < 4; i++) {
        fesetround(modes[i]);
        looks(&cw, 70001);
        looks(&cw, VZ_AHEAD_TICKS - 1);
        looks(&ccw, VZ_AHEAD_TICKS);
        is("rounding after looks", fegetround(), modes[i]);
    }
    fesetround(FE_TONEAREST);
    const vz_record begun[] = {cw, ccw};
    for (int i = 0; i < 2; i++) {
        vz_record then;
        vz_sums sums;
        is("a million ticks on", vz_ahead(&begun[i], VZ_AHEAD_TICKS, &then, &sums), 0);
        looks(&then, 171484);
        looks(&then, 171485);
    }
}

/* One word of a sound record changed. */
static void changed(const char *what, vz_record m, int word, int64_t to)
{
    m.word[word] = to;
    refused(what, &m);
}

int main(void)
{
    vz_record idle = fresh(), line = fresh(), arc = fresh(), noise;
    uint64_t seed = 1;
    make();
    load();
    lines();
    bytes();
    ahead_of_line();
    everywhere();
    largest();
    is("a line", vz_load_line(&line, 3, 4, 1), 3);
    is("an arc", vz_load_cw(&arc, 0, 0, 1, 5, 0), 3);
    is("ABI of a record", idle.word[VZ_WORD_ABI], VZ_ABI);
    changed("another layout", idle, VZ_WORD_ABI, VZ_ABI + 1);
    changed("the layout before", idle, VZ_WORD_ABI, VZ_ABI - 1);
    changed("p", idle, VZ_WORD_P, -50);
    changed("x outside", idle, VZ_WORD_X, 101);
    changed("held 2", idle, VZ_WORD_HELD, 2);
    changed("remainder", idle, VZ_WORD_REMAINDER, INT64_C(1414) * CAPACITY);
    changed("remainder of a line", line, VZ_WORD_REMAINDER, INT64_C(1414) * CAPACITY);
    changed("remainder of an arc", arc, VZ_WORD_REMAINDER, INT64_C(1414) * CAPACITY);
    changed("kind 4", idle, VZ_WORD_WORK, 4);
    changed("a number of nothing", idle, LAST_NUMBER, 1);
    changed("a line's point", line, VZ_WORD_X, 1);
    changed("cycles done", line, LAST_NUMBER, 5);
    changed("an arc as a line", arc, VZ_WORD_WORK, 1);
    changed("an arc's last word", arc, LAST_NUMBER, 1);
    for (int turn = 0; turn < 1000; turn++) {
        for (int i = 0; i < VZ_RECORD_WORDS; i++) {
            seed = seed * 6364136223846793005u + 1442695040888963407u;
            noise.word[i] = (int64_t)seed;
        }
        refused("noise", &noise);
    }
    return wrong;
}
