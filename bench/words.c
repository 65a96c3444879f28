/* The plain C machine behind the words of a record: words 0 to 18 are decoded, the queue behind them is used where it stands. And in place,
 * many times over. */
#include "machine.h"
#include "record.h"

#include <stdlib.h>
#include <string.h>

enum { UNSOUND = -9 };

/* Whether the words are a record at all: of this layout, no mark but 0 and 1, no kind above 3, 0 in what is not used. */
static bool decode(const int64_t *w, struct machine *m)
{
    const int64_t *n = w + WORD_NUMBERS, kind = w[WORD_WORK], held = w[WORD_HELD];
    if (w[WORD_ABI] != ABI || held < 0 || held > 1 || kind < 0 || kind > 3)
        return false;
    const struct range x = { w[WORD_X_LOWER], w[WORD_X_UPPER] }, y = { w[WORD_Y_LOWER], w[WORD_Y_UPPER] };
    m->settings = (struct settings){ w[WORD_P], w[WORD_W], x, y };
    m->at = (struct point){ w[WORD_X], w[WORD_Y] };
    m->held = held;
    m->kind = kind;
    m->remainder = w[WORD_REMAINDER];
    if (kind == NOTHING)
        return (n[0] | n[1] | n[2] | n[3] | n[4] | n[5] | n[6]) == 0;
    if (kind == LINE) {
        m->line = (struct line){ { n[0], n[1] }, { n[2], n[3] }, n[4], n[5], n[6] };
        return true;
    }
    m->arc = (struct arc){ { n[0], n[1] }, { n[3], n[4] }, n[2], n[5] };
    return n[6] == 0;
}

static void put(int64_t *to, const int64_t *numbers)
{
    for (int i = 0; i < NUMBERS; i++)
        to[i] = numbers[i];
}

static struct queue *queue_in(int64_t *w) { return (struct queue *)(w + WORD_ROOT); }

/* What a call may have changed: no setting. */
static void encode(const struct machine *m, int64_t *w)
{
    int64_t *n = w + WORD_NUMBERS;
    w[WORD_X] = m->at.x;
    w[WORD_Y] = m->at.y;
    w[WORD_REMAINDER] = m->remainder;
    w[WORD_WORK] = m->kind;
    if (m->kind == LINE)
        put(n, (int64_t[]){ m->line.start.x, m->line.start.y, m->line.end.x, m->line.end.y, m->line.feed, m->line.cycles, m->line.done });
    else if (m->kind != NOTHING)
        put(n, (int64_t[]){ m->arc.centre.x, m->arc.centre.y, m->arc.square, m->arc.end.x, m->arc.end.y, m->arc.feed, 0 });
    else
        put(n, (int64_t[NUMBERS]){ 0 });
}

int64_t c_words_tick(int64_t *words)
{
    struct machine m;
    if (!decode(words, &m))
        return UNSOUND;
    int64_t answer = c_tick_in(&m, queue_in(words));
    encode(&m, words);
    return answer;
}

int64_t c_words_load(int64_t *words, const struct plain_block *block)
{
    struct machine m;
    if (!decode(words, &m))
        return UNSOUND;
    int64_t answer = c_load_in(&m, queue_in(words), block);
    encode(&m, words);
    return answer;
}

int64_t c_words_stop(int64_t *words)
{
    struct machine m;
    if (!decode(words, &m))
        return UNSOUND;
    int64_t answer = c_stop_in(&m, queue_in(words));
    encode(&m, words);
    return answer;
}

int64_t c_words_ahead(const int64_t *words, uint64_t ticks, int64_t *then, struct plain_sums *sums)
{
    struct machine m;
    memcpy(then, words, WORDS * sizeof *then);
    *sums = (struct plain_sums){ 0, 0 };
    int64_t answer = decode(words, &m) ? c_ahead_in(&m, queue_in(then), ticks) : UNSOUND;
    if (answer < 0)
        return answer;
    *sums = (struct plain_sums){ m.at.x - words[WORD_X], m.at.y - words[WORD_Y] };
    encode(&m, then);
    return answer;
}

/* A machine with its queue in one struct, and back. */
struct whole {
    struct machine machine;
    struct queue queue;
};

static void taken(const int64_t *words, struct whole *w)
{
    if (!decode(words, &w->machine))
        abort();
    memcpy(&w->queue, words + WORD_ROOT, sizeof w->queue);
}

static void put_back(const struct whole *w, int64_t *words)
{
    encode(&w->machine, words);
    memcpy(words + WORD_ROOT, &w->queue, sizeof w->queue);
}

uint64_t c_place_ticks(int64_t *words, uint64_t n)
{
    struct whole w;
    uint64_t sum = 0;
    taken(words, &w);
    for (uint64_t i = 0; i < n; i++)
        sum = plain_mix(sum, c_tick_in(&w.machine, &w.queue));
    put_back(&w, words);
    return sum;
}

uint64_t c_place_loads(int64_t *words, const struct plain_block *block, uint64_t n)
{
    struct whole w;
    uint64_t sum = 0;
    taken(words, &w);
    for (uint64_t i = 0; i < n; i++) {
        struct plain_block b = plain_nth(*block, i);
        sum = plain_mix(sum, c_load_in(&w.machine, &w.queue, &b));
        sum = plain_mix(sum, c_stop_in(&w.machine, &w.queue));
    }
    put_back(&w, words);
    return sum;
}
