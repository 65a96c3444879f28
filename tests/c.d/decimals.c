/* Feeds with decimals (02 §4): a feed is in thousandths of a pulse per minute, by a load and by the F of a text line; which F are words,
 * which numbers are an F that is known, the slowest and the fastest feed, and what a feed in whole pulses comes to. Ends with 1 where
 * something is otherwise. */
#include "told.h"

enum { FOIL = 750 * 50 }; /* 0.75 mm a minute, at 50 pulses to the millimetre */

/* The ticks until the block in work has ended. */
static int64_t ticks_to_end(vz_record m)
{
    int64_t byte, ticks = 0;
    do {
        byte = vz_tick(&m);
        ticks++;
    } while (byte >= 0 && !(byte & VZ_END));
    is("sound", byte >= 0, 1);
    return ticks;
}

static vz_record with_line(int64_t x, int64_t y, int64_t feed)
{
    vz_record m = fresh();
    is("a line is taken", vz_load_line(&m, x, y, feed) > 0, 1);
    return m;
}

/* What a text line makes of a fresh machine is what this load makes of it. */
static void same(const char *line, const vz_record *loaded)
{
    vz_record m = fresh();
    vz_known k = VZ_NOTHING_KNOWN;
    is(line, read_line(&m, &k, line) > 0, 1);
    is(line, memcmp(&m, loaded, sizeof m), 0);
}

/* A pulse of 0.02 mm each 1.6 s, which are 8,000 ticks. */
static void foil(void)
{
    vz_record m = with_line(5, 0, FOIL), arc = fresh();
    same("G1 X0.1 F0.75", &m);
    same("G1 X0.1 F0.750", &m);
    same("F0000000.75 X0.1 G1", &m);
    is("a turn is taken", vz_load_ccw(&arc, 0, 10, FOIL, 0, 5), 3);
    same("G3 Y0.2 J0.1 F0.75", &arc);
    is("the end", ticks_to_end(m), 40000);
    for (int64_t tick = 1; tick <= 40000 && !wrong; tick++)
        is("a cycle", (vz_tick(&m) & VZ_CYCLE) != 0, tick % 8000 == 0);
    is("x", m.word[VZ_WORD_X], 5);
}

/* 01's worked case, a thousandfold, and a thousandth below it; and a caller that still gives pulses per minute. */
static void ends(void)
{
    is("half of it", ticks_to_end(with_line(1, 0, 150000000)), 2);
    is("less", ticks_to_end(with_line(1, 0, 149999000)), 3);
    is("a little less", ticks_to_end(with_line(1, 0, 149999999)), 3);
    is("the fastest", ticks_to_end(with_line(3, 4, CAPACITY)), 5);
    is("in pulses per minute", ticks_to_end(with_line(3, 4, CAPACITY / 1000)), 5000);
}

/* From a thousandth of a pulse per minute to a cycle on each tick. */
static void range(void)
{
    static const int64_t clocks[] = {1000, 5000, 20000};
    for (size_t i = 0; i < sizeof clocks / sizeof *clocks; i++) {
        const int64_t fastest = 60000 * clocks[i], feeds[] = {-1, 0, 1, fastest, fastest + 1};
        for (size_t k = 0; k < sizeof feeds / sizeof *feeds; k++) {
            vz_record m;
            is("make", vz_make(&m, 50, clocks[i], -100, 100, -100, 100), 0);
            is("a feed", vz_load_line(&m, 1, 0, feeds[k]), feeds[k] >= 1 && feeds[k] <= fastest ? 1 : -VZ_REFUSED_FEED);
        }
    }
}

/* Only F has a point beside X, Y, I and J, with a digit before it and 1 to 3 behind it, and no sign. */
static void words(void)
{
    static const char *const none[] = {"F",         "F1.",         "F.5", "F1.2345", "F1..5", "F1.5.5",
                                       "F12345678", "F12345678.5", "F-1", "F+1.5",   "N1.5",  "G1.0"};
    vz_record m = fresh();
    vz_known k = {{1, 5}};
    for (size_t i = 0; i < sizeof none / sizeof *none; i++)
        line_refused(&m, &k, none[i], VZ_REFUSED_WORDS);
    is("F0.000", read_line(&m, &k, "F0.000"), 0);
    is("F known", k.word[VZ_KNOWN_FEED], 0);
    line_refused(&m, &k, "X1", VZ_REFUSED_FEED);
    line_refused(&m, &k, "X1 F6000.001", VZ_REFUSED_FEED);
    is("F9999999.999", read_line(&m, &k, "F9999999.999"), 0);
    is("F known", k.word[VZ_KNOWN_FEED], INT64_C(9999999999));
    is("F6000.000", read_line(&m, &k, "X1F6000.000"), 6);
}

/* The word of the F that is known: none, or what seven digits and three write. */
static void known(void)
{
    static const int64_t good[] = {-1, 0, 1, INT64_C(9999999999)}, bad[] = {-2, INT64_C(10000000000), INT64_MIN, INT64_MAX};
    vz_record m = fresh();
    for (size_t i = 0; i < sizeof good / sizeof *good; i++) {
        vz_known k = {{1, good[i]}};
        is("an F", read_line(&m, &k, ""), 0);
        is("an F that stays", k.word[VZ_KNOWN_FEED], good[i]);
    }
    for (size_t i = 0; i < sizeof bad / sizeof *bad; i++) {
        vz_known k = {{1, bad[i]}};
        line_refused(&m, &k, "", VZ_REFUSED_RECORD);
    }
}

int main(void)
{
    foil();
    ends();
    range();
    words();
    known();
    return wrong;
}
