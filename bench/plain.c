#include "cycle.h"
#include "root.h"

#include <string.h>

uint64_t c_root(uint64_t s) { return (uint64_t)least_root((int64_t)s); }

uint64_t c_root_bits(uint64_t s)
{
    uint64_t r = 0;
    for (uint64_t bit = (uint64_t)1 << 22; bit; bit >>= 1)
        if ((r + bit) * (r + bit) < s)
            r += bit;
    return s ? r + 1 : 0;
}

uint64_t c_root_newton(uint64_t s)
{
    if (s < 2)
        return s;
    uint64_t r = (uint64_t)1 << ((65 - __builtin_clzll(s)) / 2), next = (r + s / r) / 2;
    while (next < r) {
        r = next;
        next = (r + s / r) / 2;
    }
    return r + (r * r < s);
}

#define TICKS(NAME, TYPE, CYCLE_OF, DUE_OF)                                                        \
    uint64_t NAME(TYPE *block, struct plain_feed *feed, uint64_t most, uint8_t *out)               \
    {                                                                                              \
        TYPE b = *block;                                                                           \
        uint64_t r = feed->remainder, i = 0;                                                       \
        const uint64_t f = feed->feed, capacity = feed->capacity;                                  \
        uint64_t due = DUE_OF(&b, capacity);                                                       \
        while (i < most) {                                                                         \
            uint8_t byte = 0;                                                                      \
            r += f;                                                                                \
            if (r >= due) {                                                                        \
                r -= due;                                                                          \
                byte = CYCLE_OF(&b);                                                               \
                due = DUE_OF(&b, capacity);                                                        \
            }                                                                                      \
            out[i++] = byte;                                                                       \
            if (byte & LAST)                                                                       \
                break;                                                                             \
        }                                                                                          \
        *block = b;                                                                                \
        feed->remainder = r;                                                                       \
        return i;                                                                                  \
    }

TICKS(c_line_ticks, struct plain_line, line_cycle, line_due)
TICKS(c_arc_ticks, struct plain_arc, arc_cycle, arc_due)

/* From cycle to cycle: after one the remainder is below the feed, so the next comes after one of two numbers of ticks. */
uint64_t c_line_cycles(struct plain_line *block, struct plain_feed *feed, uint64_t most, uint8_t *out)
{
    struct plain_line b = *block;
    const uint64_t f = feed->feed, capacity = feed->capacity, whole = capacity / f, over = capacity - whole * f;
    const uint64_t end = ((b.q - b.done) * capacity - feed->remainder + f - 1) / f, n = most < end ? most : end;
    uint64_t r = feed->remainder, at = (capacity - r + f - 1) / f;
    memset(out, 0, n);
    r = r + at * f - capacity;
    while (at <= n) {
        out[at - 1] = line_cycle(&b);
        if (r >= over) {
            r -= over;
            at += whole;
        } else {
            r += f - over;
            at += whole + 1;
        }
    }
    feed->remainder = r + capacity - (at - n) * f;
    *block = b;
    return n;
}

/* The same, by two such pairs. What is cleared may reach past the block's end: how many of its steps are diagonal is not counted first. */
uint64_t c_arc_cycles(struct plain_arc *block, struct plain_feed *feed, uint64_t most, uint8_t *out)
{
    struct plain_arc b = *block;
    const uint64_t f = feed->feed, due[2] = { feed->capacity, feed->capacity / STRAIGHT * DIAGONAL };
    const uint64_t whole[2] = { due[0] / f, due[1] / f }, over[2] = { due[0] % f, due[1] % f };
    const uint64_t last = (b.left * due[1] + f - 1) / f, n = most < last ? most : last;
    int d = arc_diagonal(&b);
    uint64_t r = feed->remainder, at = (due[d] - r + f - 1) / f;
    memset(out, 0, n);
    r = r + at * f - due[d];
    while (at <= n) {
        const uint8_t byte = out[at - 1] = arc_cycle(&b);
        if (byte & LAST) {
            feed->remainder = r;
            *block = b;
            return at;
        }
        d = arc_diagonal(&b);
        if (r >= over[d]) {
            r -= over[d];
            at += whole[d];
        } else {
            r += f - over[d];
            at += whole[d] + 1;
        }
    }
    feed->remainder = r + due[d] - (at - n) * f;
    *block = b;
    return n;
}
