/* Where will the knife be? A circle of 10 mm radius is in work, and a line and a half circle wait. For each second until all are done this
 * writes where the knife will be, in millimetres, the pulses of that second on each axis, and the cycles and blocks still to do then. The
 * machine itself does not move: each look goes on from the record that the last one gave. It ends with 1 where a call is refused or the
 * pulses don't add up to the way, and with 2 where this can't be written. */
#include <inttypes.h>
#include <stdio.h>

#include "verdaizka.h"

/* 200 mm a minute: a feed is in thousandths of a pulse per minute. */
enum { P = 50, W = 5000, RADIUS = 10 * P, FEED = 200 * 1000 * P };

static double millimetres(int64_t pulses)
{
    return (double)pulses / P;
}

/* The block in work and those that wait. */
static int64_t blocks(const vz_record *m)
{
    return (m->word[VZ_WORD_WORK] != 0) + m->word[VZ_WORD_WAITING];
}

/* A second from here on: writes a row and answers 1, or 0 where the look is refused or its pulses are not the way. */
static int second_on(int n, vz_record *here)
{
    const vz_record from = *here; /* a look reads one record and writes another */
    vz_sums sums;
    int64_t no = vz_ahead(&from, W, here, &sums);
    int64_t x = here->word[VZ_WORD_X], y = here->word[VZ_WORD_Y];
    if (no != 0) {
        printf("look    refused %" PRId64 "\n", -no);
        return 0;
    }
    printf("%2d s  at %6.2f %6.2f mm  pulses %4" PRId64 " %4" PRId64, n, millimetres(x), millimetres(y), sums.x, sums.y);
    printf("  cycles left %4" PRId64 "  blocks left %" PRId64 "\n", here->word[VZ_WORD_LEFT], blocks(here));
    return sums.x == x - from.word[VZ_WORD_X] && sums.y == y - from.word[VZ_WORD_Y];
}

/* Every second until nothing is in work. */
static int every_second(const vz_record *m)
{
    vz_record here = *m;
    int good = 1;
    for (int n = 1; good && here.word[VZ_WORD_WORK] != 0; n++)
        good = second_on(n, &here);
    return good;
}

int main(void)
{
    vz_record m;
    int64_t no = vz_make(&m, P, W, -RADIUS, 3 * RADIUS, -2 * RADIUS, 2 * RADIUS);
    if (no == 0)
        no = vz_load_ccw(&m, 0, 0, FEED, RADIUS, 0);
    if (no > 0)
        no = vz_load_line(&m, 2 * RADIUS, 0, FEED);
    if (no > 0)
        no = vz_load_ccw(&m, 0, 0, FEED, -RADIUS, 0);
    if (no < 0)
        printf("block   refused %" PRId64 "\n", -no);
    int good = no >= 0 && every_second(&m);
    if (fflush(stdout) != 0 || ferror(stdout)) {
        perror("look_ahead");
        return 2;
    }
    return good ? 0 : 1;
}
