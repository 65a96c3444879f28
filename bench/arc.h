/* Arcs in plain C: the circle test, the travel test and the count of cycles, none of which walks. For machine and check. */
#ifndef ARC_H
#define ARC_H

#include "cycle.h"
#include "machine.h"
#include "root.h"

#include <stdlib.h>

/* Seen from the centre; clockwise is counterclockwise in the mirror of the X axis. */
static inline struct point seen(const struct arc *a, bool clockwise, struct point p)
{
    int64_t y = p.y - a->centre.y;
    return (struct point){ p.x - a->centre.x, clockwise ? -y : y };
}

/* -m <= F < m */
static inline bool on_circle(int64_t square, struct point p)
{
    int64_t x = llabs(p.x), y = llabs(p.y), larger = x < y ? y : x, f = x * x + y * y - square;
    return -larger <= f && f < larger;
}

static inline struct plain_arc place_of(const struct arc *a, bool clockwise, struct point at)
{
    struct point p = seen(a, clockwise, at);
    int64_t excess = p.x * p.x + p.y * p.y - a->square;
    if (p.x > 0 && p.y >= 0)
        return (struct plain_arc){ p.x, p.y, excess, 0, 0, clockwise };
    if (p.x <= 0 && p.y > 0)
        return (struct plain_arc){ p.y, -p.x, excess, 0, 1, clockwise };
    if (p.x < 0)
        return (struct plain_arc){ -p.x, -p.y, excess, 0, 2, clockwise };
    return (struct plain_arc){ -p.y, p.x, excess, 0, 3, clockwise };
}

/* Question 16 without walking there: of the axes that the way passes, each circle point is in travel. */
static inline bool stays(const struct settings *s, const struct arc *a, bool clockwise, struct point at)
{
    struct plain_arc from = place_of(a, clockwise, at), to = place_of(a, clockwise, a->end);
    int64_t up = s->y.upper - a->centre.y, down = a->centre.y - s->y.lower;
    int64_t room[4] = { s->x.upper - a->centre.x, clockwise ? down : up, a->centre.x - s->x.lower, clockwise ? up : down };
    uint64_t passed = (to.quadrant - from.quadrant) & 3;
    if (!passed && to.across - to.along <= from.across - from.along)
        passed = 4;
    for (uint64_t k = 1; k <= passed; k++) {
        int64_t r = room[(from.quadrant + k) & 3];
        if (r < 0 || a->square > r * r + r)
            return false;
    }
    return true;
}

/* A place's number on the way round: each quadrant has `quarter` points, the first half counted by across, the second by along. */
static inline int64_t rank(int64_t quarter, struct plain_arc p)
{
    return (int64_t)p.quadrant * quarter + (p.across <= p.along ? p.across : quarter - p.along);
}

/* The pulses on both axes up to a place: in each quadrant twice as many as the radius has. */
static inline int64_t pulses_to(int64_t radius, struct plain_arc p)
{
    return 2 * radius * (int64_t)p.quadrant + radius - p.along + p.across;
}

/* What so many cycles of an arc with so many pulses are charged: a diagonal step has two of them, a straight one has one. */
static inline int64_t charge(int64_t cycles, int64_t pulses) { return STRAIGHT * cycles + (DIAGONAL - STRAIGHT) * (pulses - cycles); }

/* The cycles to the end where a quarter turn has so many; a whole turn where the arc is already there. */
static inline int64_t cycles_to_end(const struct arc *a, bool clockwise, struct point at, int64_t quarter)
{
    const int64_t n = rank(quarter, place_of(a, clockwise, a->end)) - rank(quarter, place_of(a, clockwise, at));
    return n <= 0 ? n + 4 * quarter : n;
}

struct rest {
    int64_t cycles, charges;
};

/* From here to the end; a whole turn where the arc is already there. */
static inline struct rest rest_of(const struct arc *a, bool clockwise, struct point at)
{
    const struct plain_arc from = place_of(a, clockwise, at), to = place_of(a, clockwise, a->end);
    const int64_t quarter = nearest_root(2 * a->square), radius = nearest_root(a->square);
    const int64_t n = rank(quarter, to) - rank(quarter, from), pulses = pulses_to(radius, to) - pulses_to(radius, from);
    return n <= 0 ? (struct rest){ n + 4 * quarter, charge(n + 4 * quarter, pulses + 8 * radius) } : (struct rest){ n, charge(n, pulses) };
}

#endif
