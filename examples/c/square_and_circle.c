/* Cuts a square of 10 mm and then a circle of 10 mm. For each block it writes the sums of the pulses sent on each axis, with and
 * without their signs, the cycles, the ticks and where the machine stands. The square goes by vz_run into a buffer, the circle
 * by vz_tick, as from the clock's interrupt. It ends with 1 where a call is refused or the pulses don't add up to the way, and with 2
 * where this can't be written. */
#include <inttypes.h>
#include <stdio.h>

#include "verdaizka.h"

/* 300 mm a minute: a feed is in thousandths of a pulse per minute. */
enum { P = 50, W = 5000, SIDE = 10 * P, FEED = 300 * 1000 * P };

struct sums {
    int64_t x, y;           /* with their signs */
    int64_t x_sent, y_sent; /* without */
    int64_t cycles, ticks;
    int ended;
};

static int64_t pulse(int code)
{
    return code == VZ_PLUS ? 1 : code == VZ_MINUS ? -1 : 0;
}

static void add(struct sums *s, int byte)
{
    s->x += pulse(VZ_X_CODE(byte));
    s->y += pulse(VZ_Y_CODE(byte));
    s->x_sent += VZ_X_CODE(byte) != VZ_NONE;
    s->y_sent += VZ_Y_CODE(byte) != VZ_NONE;
    s->cycles += (byte & VZ_CYCLE) != 0;
    s->ticks += 1;
    s->ended = (byte & VZ_END) != 0;
}

/* The block in work to its end, by runs. */
static int by_runs(vz_record *m, struct sums *s)
{
    uint8_t out[256];
    int64_t report;
    do {
        uint64_t ticks;
        report = vz_run(m, 100000, out, sizeof out, &ticks);
        for (uint64_t i = 0; i < ticks; i++)
            add(s, out[i]);
    } while (report == VZ_FULL || report == VZ_SPENT);
    return report == VZ_ENDED;
}

/* The same by ticks. */
static int by_ticks(vz_record *m, struct sums *s)
{
    while (!s->ended) {
        int64_t byte = vz_tick(m);
        if (byte < 0)
            return 0;
        add(s, (int)byte);
    }
    return 1;
}

/* A block as it should end: where, and after how many pulses on each axis. */
struct block {
    const char *name;
    int64_t x, y, x_sent, y_sent;
    int (*go)(vz_record *, struct sums *);
};

/* Cuts the block that a load has answered. 1 where it ends as it should, with pulses that are the way there. */
static int cut(vz_record *m, int64_t loaded, struct block b)
{
    struct sums s = {0, 0, 0, 0, 0, 0, 0};
    int64_t from_x = m->word[VZ_WORD_X], from_y = m->word[VZ_WORD_Y];
    if (loaded < 0) {
        printf("%-7s refused %" PRId64 "\n", b.name, -loaded);
        return 0;
    }
    if (!b.go(m, &s)) {
        printf("%-7s broke off\n", b.name);
        return 0;
    }
    int64_t x = m->word[VZ_WORD_X], y = m->word[VZ_WORD_Y];
    printf("%-7s pulses %5" PRId64 " %5" PRId64 "  sent %5" PRId64 " %5" PRId64, b.name, s.x, s.y, s.x_sent, s.y_sent);
    printf("  cycles %5" PRId64 "  ticks %6" PRId64 "  at %5" PRId64 " %5" PRId64 "\n", s.cycles, s.ticks, x, y);
    return s.ended && x == b.x && y == b.y && from_x + s.x == x && from_y + s.y == y && s.x_sent == b.x_sent && s.y_sent == b.y_sent;
}

int main(void)
{
    vz_record m;
    int64_t no = vz_make(&m, P, W, 0, 20 * P, -20 * P, 20 * P);
    int good = 1;
    if (no != 0) {
        printf("make    refused %" PRId64 "\n", -no);
        return 1;
    }
    good &= cut(&m, vz_load_line(&m, SIDE, 0, FEED), (struct block){"right", SIDE, 0, SIDE, 0, by_runs});
    good &= cut(&m, vz_load_line(&m, SIDE, SIDE, FEED), (struct block){"up", SIDE, SIDE, 0, SIDE, by_runs});
    good &= cut(&m, vz_load_line(&m, 0, SIDE, FEED), (struct block){"left", 0, SIDE, SIDE, 0, by_runs});
    good &= cut(&m, vz_load_line(&m, 0, 0, FEED), (struct block){"down", 0, 0, 0, SIDE, by_runs});
    good &= cut(&m, vz_load_ccw(&m, 0, 0, FEED, SIDE / 2, 0), (struct block){"circle", 0, 0, 2 * SIDE, 2 * SIDE, by_ticks});
    puts(good ? "the pulses add up" : "the pulses don't add up");
    if (fflush(stdout) != 0 || ferror(stdout)) {
        perror("square_and_circle");
        return 2;
    }
    return good ? 0 : 1;
}
