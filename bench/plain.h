/* Plain programs of the core's semantics, as a firmware engineer would write them, for timing beside it: one in C (plain.c,
 * machine.c, look.c, words.c) and one in Rust (plain.rs, path.rs, machine.rs, words.rs). Both offer the same functions, c_.. and
 * rust_.., but the look-ahead, which C alone has. */
#ifndef PLAIN_H
#define PLAIN_H

#include <stdint.h>

/* For each tick per second: the greatest feed, in thousandths of a pulse per minute, and what a charge takes off the remainder (q0). */
enum { PER_CLOCK = 60000 };

/* ---- runs: no test of the record */

/* A line from where it stands: both registers are kept (01, "Lines"). */
struct plain_line {
    uint64_t q, a, b, register_x, register_y, done;
    uint8_t code_x, code_y;
};

/* An arc about its centre in quadrant form: `along` falls and `across` grows; excess is along² + across² - N. */
struct plain_arc {
    int64_t along, across, excess;
    uint64_t left, quadrant, clockwise;
};

/* As the remainder counts: what a straight step and a line's cycle take off, and what a tick adds. A diagonal step takes 1.414 times as
 * much off, 1.7 * 10^12 at the fastest clock; for all of a block's cycles, fewer than 6 * 10^6, that is below 2^64. */
struct plain_feed {
    uint64_t capacity, feed, remainder;
};

/* ---- single calls on the header's record, which is tested */

/* A block as a load is given it; its kind is as in the record: 1 a line, 2 an arc clockwise, 3 counterclockwise. */
struct plain_block {
    int64_t kind, x, y, feed, i, j;
};

/* Where many loads are timed no two in a row are alike. */
static inline struct plain_block plain_nth(struct plain_block b, uint64_t n)
{
    b.feed = 1 + (int64_t)(n & 65535);
    if (b.kind == 1)
        b.x -= (int64_t)(n & 65535);
    return b;
}

/* Many answers as one number, to compare them. */
static inline uint64_t plain_mix(uint64_t sum, int64_t answer) { return 31 * sum + (uint64_t)answer; }

typedef uint64_t plain_run_line(struct plain_line *line, struct plain_feed *feed, uint64_t most, uint8_t *out);
typedef uint64_t plain_run_arc(struct plain_arc *arc, struct plain_feed *feed, uint64_t most, uint8_t *out);
typedef int64_t plain_call(int64_t *words);
typedef int64_t plain_load(int64_t *words, const struct plain_block *block);
typedef uint64_t plain_ticks(int64_t *words, uint64_t n);
typedef uint64_t plain_loads(int64_t *words, const struct plain_block *block, uint64_t n);

/* Of one side:
 * .._ticks     so many ticks into out, one by one; returns the ticks done, fewer where the block ended
 * .._cycles    the same, but the bytes are cleared first and only the cycles are visited
 * root         the least whole number whose square is at least s, for s below 2^46, by the hardware's root
 * words_..     a call on the record's words: decode what is in work, test all, do, encode */
#define PLAIN_SIDE(SIDE)                                                  \
    plain_run_line SIDE##_line_ticks, SIDE##_line_cycles;                 \
    plain_run_arc SIDE##_arc_ticks, SIDE##_arc_cycles;                    \
    uint64_t SIDE##_root(uint64_t s);                                     \
    plain_call SIDE##_words_tick, SIDE##_words_stop;                      \
    plain_load SIDE##_words_load;

PLAIN_SIDE(c)
PLAIN_SIDE(rust)

/* A look-ahead. By closed forms on the record's words, which stay; the record ahead, or on a refusal the same, goes to other words.
 * And tick by tick, from a block's registers, which are not tested. */
struct plain_sums {
    int64_t x, y;
};
typedef int64_t plain_ahead(const int64_t *words, uint64_t ticks, int64_t *then, struct plain_sums *sums);
plain_ahead c_words_ahead;
struct plain_sums c_line_look(struct plain_line line, struct plain_feed feed, uint64_t ticks);
struct plain_sums c_arc_look(struct plain_arc arc, struct plain_feed feed, uint64_t ticks);

/* The words are decoded once; then n calls, or loads each with a stop, on a struct in place; the answers, mixed. */
plain_ticks c_place_ticks;
plain_loads c_place_loads;

/* Other ways to the root: bit by bit, by Newton's rule, and by Rust's library for whole numbers. */
uint64_t c_root_bits(uint64_t s);
uint64_t c_root_newton(uint64_t s);
uint64_t rust_isqrt(uint64_t s);

#endif
