/* The look-ahead in plain C: tick by tick, and by closed forms as the core has it. */
#include "arc.h"
#include "cycle.h"

#include <math.h>

/* ---- tick by tick on locals, without a test of the record and without bytes */

static struct plain_sums plus(struct plain_sums s, uint8_t byte)
{
    return (struct plain_sums){ s.x + (byte & 1) - (byte >> 1 & 1), s.y + (byte >> 2 & 1) - (byte >> 3 & 1) };
}

#define LOOK(NAME, TYPE, CYCLE_OF, DUE_OF)                                          \
    struct plain_sums NAME(TYPE block, struct plain_feed feed, uint64_t ticks)      \
    {                                                                               \
        struct plain_sums sums = { 0, 0 };                                          \
        uint64_t due = DUE_OF(&block, feed.capacity);                               \
        for (uint64_t i = 0; i < ticks; i++) {                                      \
            feed.remainder += feed.feed;                                            \
            if (feed.remainder < due)                                               \
                continue;                                                           \
            feed.remainder -= due;                                                  \
            uint8_t byte = CYCLE_OF(&block);                                        \
            due = DUE_OF(&block, feed.capacity);                                    \
            sums = plus(sums, byte);                                                \
            if (byte & LAST)                                                        \
                break;                                                              \
        }                                                                           \
        return sums;                                                                \
    }

LOOK(c_line_look, struct plain_line, line_cycle, line_due)
LOOK(c_arc_look, struct plain_arc, arc_cycle, arc_due)

/* ---- closed forms, on a record that has been tested */

static int64_t line_at(const struct line *l, int64_t start, int64_t end)
{
    const int64_t way = end - start, gone = (l->cycles / 2 + llabs(way) * l->done) / l->cycles;
    return way < 0 ? start - gone : start + gone;
}

static void line_on(struct machine *m, int64_t cycles)
{
    struct line *l = &m->line;
    l->done += cycles;
    m->at = (struct point){ line_at(l, l->start.x, l->end.x), line_at(l, l->start.y, l->end.y) };
}

/* Seen from the centre, counterclockwise: turned from the first quadrant. */
static struct point turned(struct plain_arc p)
{
    switch (p.quadrant) {
    case 0: return (struct point){ p.along, p.across };
    case 1: return (struct point){ -p.across, p.along };
    case 2: return (struct point){ -p.along, -p.across };
    default: return (struct point){ p.across, -p.along };
    }
}

/* The place of a rank, which may be a turn on. */
static struct plain_arc ranked(int64_t square, int64_t quarter, int64_t to)
{
    const int64_t i = to % quarter, j = quarter - i;
    const bool first = 2 * i <= quarter;
    return (struct plain_arc){ first ? nearest_root(square - i * i) : j, first ? i : nearest_root(square - j * j), 0, 0,
                               (uint64_t)(to / quarter), 0 };
}

static int64_t least(int64_t a, int64_t b) { return a < b ? a : b; }

/* About the rank where so much has been charged since the X axis. Before the diagonal of a quadrant that is 1,000 across + 414 (radius -
 * along), with across² + along² about the square: a root solves it. After the diagonal the same holds from the quadrant's other end. */
static int64_t rank_near(int64_t square, int64_t quarter, int64_t radius, int64_t charged)
{
    const int64_t quadrant = charge(quarter, 2 * radius), rest = charged % quadrant, before = charged / quadrant * quarter;
    const bool first = 2 * rest <= quadrant;
    const double more = DIAGONAL - STRAIGHT, d = (double)(first ? rest : quadrant - rest) - more * (double)radius;
    const double both = STRAIGHT * STRAIGHT + more * more, under = both * (double)square - d * d;
    const int64_t across = (int64_t)((STRAIGHT * d + more * (under > 0 ? sqrt(under) : 0)) / both);
    return first ? before + across : before + quarter - across - 1;
}

/* As many cycles as so much pays, at most so many. Charges grow with the cycles, so a search that begins near them finds them: where it has
 * gone wrong it goes on in steps that grow. */
static int64_t arc_paid(const struct machine *m, int64_t sum, int64_t most, int64_t *charges)
{
    const struct arc *a = &m->arc;
    const struct plain_arc from = place_of(a, m->kind == CLOCKWISE, m->at);
    const int64_t quarter = nearest_root(2 * a->square), radius = nearest_root(a->square), budget = sum / capacity_of(&m->settings);
    const int64_t rank_from = rank(quarter, from), pulses_from = pulses_to(radius, from);
    int64_t paid = 0, unpaid = least(most, budget / STRAIGHT) + 1, step = 1;
    int64_t n = rank_near(a->square, quarter, radius, charge(rank_from, pulses_from) + budget) - rank_from;
    *charges = 0;
    while (unpaid - paid > 1) {
        n = n <= paid ? paid + 1 : n >= unpaid ? unpaid - 1 : n;
        const int64_t all = charge(n, pulses_to(radius, ranked(a->square, quarter, rank_from + n)) - pulses_from);
        if (all <= budget) {
            paid = n;
            unpaid = least(unpaid, n + (budget - all) / STRAIGHT + 1);
            *charges = all;
            n += step;
        } else {
            unpaid = n;
            n -= step;
        }
        step *= 2;
    }
    return paid;
}

static void arc_on(struct machine *m, int64_t cycles)
{
    const struct arc *a = &m->arc;
    const bool clockwise = m->kind == CLOCKWISE;
    const int64_t quarter = nearest_root(2 * a->square), to = rank(quarter, place_of(a, clockwise, m->at)) + cycles;
    struct plain_arc place = ranked(a->square, quarter, to);
    place.quadrant &= 3;
    const struct point p = turned(place);
    m->at = (struct point){ a->centre.x + p.x, a->centre.y + (clockwise ? -p.y : p.y) };
}

/* At most one cycle a tick: so many ticks do as many cycles as they and the remainder pay, but no more than they are themselves. What is
 * due fits in 63 bits: no arc in travel is charged more than a full turn of radius 1,000,000, 6.63 * 10^9, each of at most 1.2 * 10^9. */
int64_t c_skip(struct machine *m, int64_t ticks, int64_t *cycles)
{
    const bool line = m->kind == LINE;
    const int64_t capacity = capacity_of(&m->settings), feed = PER_FEED * (line ? m->line.feed : m->arc.feed);
    const int64_t lines = line ? m->line.cycles - m->line.done : 0;
    const struct rest left = line ? (struct rest){ lines, STRAIGHT * lines } : rest_of(&m->arc, m->kind == CLOCKWISE, m->at);
    const int64_t due = left.charges * capacity - m->remainder, fed = due > 0 ? (due + feed - 1) / feed : 0;
    const int64_t last = fed < left.cycles ? left.cycles : fed;
    if (ticks >= last) {
        m->remainder = last * feed - due;
        m->at = line ? m->line.end : m->arc.end;
        m->kind = NOTHING;
        *cycles = left.cycles;
        return last;
    }
    const int64_t sum = m->remainder + ticks * feed;
    int64_t charges;
    if (line) {
        *cycles = least(ticks, sum / (STRAIGHT * capacity));
        charges = STRAIGHT * *cycles;
        line_on(m, *cycles);
    } else {
        *cycles = arc_paid(m, sum, ticks, &charges);
        arc_on(m, *cycles);
    }
    m->remainder = sum - charges * capacity;
    return ticks;
}
