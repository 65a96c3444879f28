/* The machine in plain C: the test of the record (01, "sound", and 02 §3), tick, load, stop and look-ahead. */
#include "arc.h"
#include "cycle.h"
#include "root.h"

#include <string.h>

enum { MOST_CYCLES = 4000000, FARTHEST_CENTRE = 2000000, MOST_AHEAD = 1000000, UNSOUND = -9 };
static const int64_t LARGEST_SQUARE = 2000000000000;

static bool axis_right(struct range r) { return within(-TRAVEL, r.lower, 0) && within(0, r.upper, TRAVEL); }

static bool settings_right(const struct settings *s)
{
    return within(1, s->p, 1000) && within(1000, s->w, 20000) && axis_right(s->x) && axis_right(s->y);
}

/* ---- lines */

/* What an axis' register holds after the cycles done; not in 0..cycles-1 where the axis has not gone so far. */
static int64_t register_of(const struct line *l, int64_t way, int64_t gone)
{
    if (way < 0) {
        way = -way;
        gone = -gone;
    }
    return l->cycles / 2 + way * l->done - l->cycles * gone;
}

static bool line_sound(const struct machine *m)
{
    const struct line *l = &m->line;
    if (!inside(&m->settings, l->start) || !inside(&m->settings, l->end))
        return false;
    int64_t a = l->end.x - l->start.x, b = l->end.y - l->start.y, sum = a * a + b * b, q = l->cycles;
    if (!within(1, q, MOST_CYCLES) || sum <= (q - 1) * (q - 1) || sum > q * q || !within(0, l->done, q - 1))
        return false;
    return within(0, register_of(l, a, m->at.x - l->start.x), q - 1) && within(0, register_of(l, b, m->at.y - l->start.y), q - 1);
}

static uint8_t line_step(struct machine *m)
{
    struct line *l = &m->line;
    int64_t a = l->end.x - l->start.x, b = l->end.y - l->start.y;
    struct plain_line p = { (uint64_t)l->cycles, (uint64_t)llabs(a), (uint64_t)llabs(b), (uint64_t)register_of(l, a, m->at.x - l->start.x),
                            (uint64_t)register_of(l, b, m->at.y - l->start.y), (uint64_t)l->done, a < 0 ? 2 : 1, b < 0 ? 8 : 4 };
    l->done++;
    return line_cycle(&p);
}

/* ---- arcs */

static bool arc_sound(const struct machine *m)
{
    const struct arc *a = &m->arc;
    const bool clockwise = m->kind == CLOCKWISE;
    if (!within(-FARTHEST_CENTRE, a->centre.x, FARTHEST_CENTRE) || !within(-FARTHEST_CENTRE, a->centre.y, FARTHEST_CENTRE))
        return false;
    if (!within(1, a->square, LARGEST_SQUARE) || !inside(&m->settings, a->end))
        return false;
    if (!on_circle(a->square, seen(a, clockwise, m->at)) || !on_circle(a->square, seen(a, clockwise, a->end)))
        return false;
    return stays(&m->settings, a, clockwise, m->at);
}

/* ---- blocks as a load is given them, from where they start */

static struct arc arc_from(struct point start, const struct plain_block *b)
{
    return (struct arc){ { start.x + b->i, start.y + b->j }, { b->x, b->y }, b->i * b->i + b->j * b->j, b->feed };
}

/* Minus the first question from 11 to 16 that says no, or 0. */
static int64_t block_no(const struct settings *s, struct point start, const struct plain_block *b)
{
    const struct point end = { b->x, b->y };
    if (!within(1, b->feed, capacity_of(s)))
        return -11;
    if (!inside(s, end))
        return -12;
    if (b->kind == LINE)
        return same(start, end) ? -13 : 0;
    if (!within(-TRAVEL, b->i, TRAVEL) || !within(-TRAVEL, b->j, TRAVEL) || (b->i == 0 && b->j == 0))
        return -14;
    const bool clockwise = b->kind == CLOCKWISE;
    const struct arc a = arc_from(start, b);
    if (!on_circle(a.square, seen(&a, clockwise, end)))
        return -15;
    return stays(s, &a, clockwise, start) ? 0 : -16;
}

/* The block comes into work. */
static void begin(struct machine *m, struct point start, const struct plain_block *b, int64_t root)
{
    m->kind = b->kind;
    if (b->kind == LINE)
        m->line = (struct line){ start, { b->x, b->y }, b->feed, root, 0 };
    else
        m->arc = arc_from(start, b);
}

/* ---- roots and cycles; a root is tested by squares */

static bool is_least_root(int64_t n, int64_t r) { return within(1, r, MOST_CYCLES) && (r - 1) * (r - 1) < n && n <= r * r; }

static bool is_nearest_root(int64_t n, int64_t r) { return within(1, r, MOST_CYCLES) && r * r - r < n && n <= r * r + r; }

static int64_t square_of(int64_t a, int64_t b) { return a * a + b * b; }

static bool root_right(struct point start, const struct waiting *w)
{
    const struct plain_block *b = &w->block;
    return b->kind == LINE ? is_least_root(square_of(b->x - start.x, b->y - start.y), w->root)
                           : is_nearest_root(2 * square_of(b->i, b->j), w->root);
}

static int64_t cycles_of(struct point start, const struct plain_block *b, int64_t root)
{
    if (b->kind == LINE)
        return root;
    const struct arc a = arc_from(start, b);
    return cycles_to_end(&a, b->kind == CLOCKWISE, start, root);
}

static bool work_root_right(const struct machine *m, int64_t root)
{
    return m->kind == NOTHING ? root == 0 : m->kind == LINE ? root == m->line.cycles : is_nearest_root(2 * m->arc.square, root);
}

static int64_t cycles_left(const struct machine *m, int64_t root)
{
    if (m->kind == NOTHING)
        return 0;
    return m->kind == LINE ? m->line.cycles - m->line.done : cycles_to_end(&m->arc, m->kind == CLOCKWISE, m->at, root);
}

/* ---- the test of a record */

static int64_t feed_of(const struct machine *m) { return m->kind == LINE ? m->line.feed : m->arc.feed; }

static struct point end_of(const struct machine *m) { return m->kind == NOTHING ? m->at : m->kind == LINE ? m->line.end : m->arc.end; }

static bool work_sound(const struct machine *m)
{
    if (!settings_right(&m->settings))
        return false;
    const int64_t capacity = capacity_of(&m->settings);
    if (!inside(&m->settings, m->at) || !within(0, m->remainder, DIAGONAL * capacity - 1))
        return false;
    if (m->kind == NOTHING)
        return true;
    if (!within(1, feed_of(m), capacity))
        return false;
    return m->kind == LINE ? line_sound(m) : arc_sound(m);
}

static bool waiting_sound(const struct settings *s, struct point start, const struct waiting *w)
{
    const struct plain_block *b = &w->block;
    if (!within(LINE, b->kind, COUNTERCLOCKWISE) || (b->kind == LINE && (b->i | b->j) != 0))
        return false;
    return block_no(s, start, b) == 0 && root_right(start, w);
}

/* Each block that waits would be taken where the one before it ends, and the cycles of all are those still to do. */
static bool queue_sound(const struct machine *m, const struct queue *q)
{
    if (q->left < 0 || !within(0, q->waiting, m->kind == NOTHING ? 0 : QUEUE) || !work_root_right(m, q->root))
        return false;
    struct point start = end_of(m);
    int64_t left = q->left - cycles_left(m, q->root);
    for (const struct waiting *w = q->first; w < q->first + q->waiting; w++) {
        if (!waiting_sound(&m->settings, start, w))
            return false;
        left -= cycles_of(start, &w->block, w->root);
        start = (struct point){ w->block.x, w->block.y };
    }
    return left == 0;
}

static bool sound(const struct machine *m, const struct queue *q) { return work_sound(m) && queue_sound(m, q); }

/* ---- calls */

/* A working tick: the byte. */
static uint8_t work_tick(struct machine *m)
{
    const int64_t straight = STRAIGHT * capacity_of(&m->settings);
    m->remainder += PER_FEED * feed_of(m);
    if (m->remainder < straight)
        return 0;
    uint8_t byte;
    if (m->kind == LINE) {
        m->remainder -= straight;
        byte = line_step(m);
    } else {
        struct plain_arc p = place_of(&m->arc, m->kind == CLOCKWISE, m->at);
        const int64_t due = (int64_t)arc_due(&p, (uint64_t)straight);
        if (m->remainder < due)
            return 0;
        m->remainder -= due;
        byte = arc_cycle(&p);
    }
    m->at.x += (byte & 1) - (byte >> 1 & 1);
    m->at.y += (byte >> 2 & 1) - (byte >> 3 & 1);
    if (m->kind != LINE && same(m->at, m->arc.end))
        byte |= LAST;
    return byte;
}

/* The first block that waits comes into work, and the others move up. */
static void bring_in(struct machine *m, struct queue *q)
{
    m->kind = NOTHING;
    q->root = 0;
    if (q->waiting == 0)
        return;
    begin(m, m->at, &q->first[0].block, q->first[0].root);
    q->root = q->first[0].root;
    q->waiting--;
    memmove(q->first, q->first + 1, (size_t)q->waiting * sizeof *q->first);
}

int64_t c_tick_in(struct machine *m, struct queue *q)
{
    if (!sound(m, q))
        return UNSOUND;
    if (m->held || m->kind == NOTHING)
        return 0;
    const uint8_t byte = work_tick(m);
    if (byte & CYCLE)
        q->left--;
    if (byte & LAST)
        bring_in(m, q);
    return byte;
}

/* The register width that a load answers, and the root. */
static int64_t measure(struct point start, const struct plain_block *b, int64_t *root)
{
    if (b->kind != LINE) {
        const int64_t square = square_of(b->i, b->j);
        *root = nearest_root(2 * square);
        return width(nearest_root(square));
    }
    const int64_t x = llabs(b->x - start.x), y = llabs(b->y - start.y);
    *root = least_root(square_of(x, y));
    return width(x < y ? y : x);
}

/* The end of the last block that waits, else of the one in work, else the point. */
static struct point start_of(const struct machine *m, const struct queue *q)
{
    if (q->waiting == 0)
        return end_of(m);
    const struct plain_block *last = &q->first[q->waiting - 1].block;
    return (struct point){ last->x, last->y };
}

int64_t c_load_in(struct machine *m, struct queue *q, const struct plain_block *b)
{
    if (!sound(m, q))
        return UNSOUND;
    if (q->waiting == QUEUE)
        return -10;
    const struct point start = start_of(m, q);
    const int64_t no = block_no(&m->settings, start, b);
    if (no != 0)
        return no;
    int64_t root;
    const int64_t bits = measure(start, b, &root);
    q->left += cycles_of(start, b, root);
    if (m->kind == NOTHING) {
        begin(m, start, b, root);
        q->root = root;
    } else {
        q->first[q->waiting++] = (struct waiting){ *b, root };
    }
    return bits;
}

int64_t c_stop_in(struct machine *m, struct queue *q)
{
    if (!sound(m, q))
        return UNSOUND;
    m->kind = NOTHING;
    m->remainder = 0;
    q->root = q->left = q->waiting = 0;
    return 0;
}

int64_t c_ahead_in(struct machine *m, struct queue *q, uint64_t ticks)
{
    if (!sound(m, q))
        return UNSOUND;
    if (ticks > MOST_AHEAD)
        return -38;
    for (int64_t more = (int64_t)ticks; more > 0 && !m->held && m->kind != NOTHING;) {
        int64_t cycles;
        more -= c_skip(m, more, &cycles);
        q->left -= cycles;
        if (m->kind == NOTHING)
            bring_in(m, q);
    }
    return 0;
}
