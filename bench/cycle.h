/* One cycle of a line and of an arc in plain C: shared by runs and single ticks. */
#ifndef CYCLE_H
#define CYCLE_H

#include "plain.h"

#include <stdbool.h>

enum { CYCLE = 16, LAST = 32 };
enum { STRAIGHT = 1000, DIAGONAL = 1414, PER_FEED = 1000 }; /* charges, and what a tick pays for each unit of feed */

static inline uint8_t line_cycle(struct plain_line *l)
{
    uint8_t byte = CYCLE;
    l->register_x += l->a;
    if (l->register_x >= l->q) {
        l->register_x -= l->q;
        byte |= l->code_x;
    }
    l->register_y += l->b;
    if (l->register_y >= l->q) {
        l->register_y -= l->q;
        byte |= l->code_y;
    }
    if (++l->done == l->q)
        byte |= LAST;
    return byte;
}

/* The codes of a rise (across grows) and of a fall (along falls) in each quadrant, counterclockwise; clockwise is seen in the
 * mirror of the X axis. */
static const uint8_t rises[2][4] = { { 4, 2, 8, 1 }, { 8, 2, 4, 1 } };
static const uint8_t falls[2][4] = { { 2, 8, 1, 4 }, { 2, 4, 1, 8 } };

/* Whether the next step goes on both axes. */
static inline bool arc_diagonal(const struct plain_arc *a)
{
    if (a->across < a->along)
        return a->excess + 2 * a->across + 1 >= a->along;
    return a->excess + 1 - 2 * a->along + a->across < 0;
}

/* What the next cycle takes off, where a straight step takes so much. */
static inline uint64_t line_due(const struct plain_line *l, uint64_t straight)
{
    (void)l;
    return straight;
}

static inline uint64_t arc_due(const struct plain_arc *a, uint64_t straight)
{
    return arc_diagonal(a) ? straight / STRAIGHT * DIAGONAL : straight;
}

static inline uint8_t arc_cycle(struct plain_arc *a)
{
    const uint8_t rise = rises[a->clockwise][a->quadrant], fall = falls[a->clockwise][a->quadrant];
    uint8_t byte;
    if (a->across < a->along) {
        int64_t risen = a->excess + 2 * a->across + 1;
        a->across++;
        if (risen < a->along) {
            a->excess = risen;
            byte = CYCLE | rise;
        } else {
            a->excess = risen + 1 - 2 * a->along;
            a->along--;
            byte = CYCLE | rise | fall;
        }
    } else {
        int64_t fallen = a->excess + 1 - 2 * a->along;
        a->along--;
        if (fallen + a->across >= 0) {
            a->excess = fallen;
            byte = CYCLE | fall;
        } else {
            a->excess = fallen + 2 * a->across + 1;
            a->across++;
            byte = CYCLE | rise | fall;
        }
    }
    if (a->along == 0) {
        a->along = a->across;
        a->across = 0;
        a->quadrant = (a->quadrant + 1) & 3;
    }
    if (--a->left == 0)
        byte |= LAST;
    return byte;
}

#endif
