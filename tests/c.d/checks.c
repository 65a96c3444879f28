/* The check of a job by its words: how a start answers, what a fill does with a small buffer, ticks beyond 64 bits, and that words which
 * are no check stay as they are, with everything else that a fill could write. Ends with 1 where an answer is another. */
#include "told.h"

/* A check: the words of its bench, and of its progress. */
struct check {
    vz_bench bench;
    vz_progress progress;
};

static const char job[] = "G1 X10 F300\nX0\n";

static int64_t fill_from(const char *text, struct check *c, void *out, size_t length, uint64_t *written)
{
    return vz_check_fill(&c->bench, &c->progress, (const uint8_t *)text, strlen(text), out, length, written);
}

static int64_t fill(struct check *c, void *out, size_t length, uint64_t *written)
{
    return fill_from(job, c, out, length, written);
}

static struct check started(void)
{
    struct check c;
    is("start", vz_check_start(&c.bench, &c.progress, 50, 5000, -1000, 1000, -1000, 1000), 0);
    return c;
}

static void start(void)
{
    struct check c;
    is("p", vz_check_start(&c.bench, &c.progress, 0, 5000, 0, 0, 0, 0), -VZ_REFUSED_P);
    is("w", vz_check_start(&c.bench, &c.progress, 50, 20001, 0, 0, 0, 0), -VZ_REFUSED_W);
    is("travel", vz_check_start(&c.bench, &c.progress, 50, 5000, 0, 0, 1, 1), -VZ_REFUSED_TRAVEL);
    is("p of a refused start", c.bench.word[VZ_WORD_P], 50);
    is("travel of a refused start", c.bench.word[VZ_WORD_Y_LOWER], -1000000);
    is("layout of a start", c.bench.word[VZ_WORD_ABI], VZ_ABI);
    is("feed of a start", c.progress.word[VZ_PROGRESS_FEED], -1);
}

/* The smallest buffer that gets on takes a row for each call, and hands out the same bytes as a large one. */
static void pieces(void)
{
    char large[1000], small[1000];
    uint8_t row[VZ_ROW_BYTES];
    uint64_t all = 0, sum = 0, written = 0;
    struct check c = started();
    int64_t told;
    is("a large buffer", fill(&c, large, sizeof large, &all), 1);
    is("feed", c.progress.word[VZ_PROGRESS_FEED], 300000);
    is("motion", c.progress.word[VZ_PROGRESS_MOTION], 1);
    is("blocks", c.progress.word[VZ_PROGRESS_BLOCKS], 2);
    is("nothing more", fill(&c, large + all, sizeof large - all, &written), 1);
    is("bytes after the last", (int64_t)written, 0);
    c = started();
    is("159 bytes", fill(&c, row, VZ_ROW_BYTES - 1, &written), 0);
    is("bytes in 159", (int64_t)written, 0);
    do {
        told = fill(&c, row, sizeof row, &written);
        memcpy(small + sum, row, written);
        sum += written;
    } while (told == 0);
    is("over", told, 1);
    is("length", (int64_t)sum, (int64_t)all);
    is("bytes", memcmp(small, large, all), 0);
}

/* ---- ticks: two words, of which the first is below 10^18 */

static const int64_t UNIT = INT64_C(1000000000000000000);

/* At p 1, w 20,000 and F 0.001 a tick pays 1 / 1,200,000 of a charge. A full turn of radius 1,000,000 has 5,656,856 cycles and 8,000,000
 * pulses, so that it is charged 6,626,917,616, and 4,000 of them take more than 2^64 ticks. */
static void long_job(void)
{
    enum { TURNS = 4000, CYCLES = 5656856 };
    const int64_t pulses = 1000000, line = 1000 * pulses * 1200000, turn = (INT64_C(586) * CYCLES + 414 * 8 * pulses) * 1200000;
    static char text[VZ_TEXT_BYTES], out[2000], expected[200];
    struct check c;
    uint64_t written;
    int64_t low = line, high = 0, told;
    strcpy(text, "G1 X1000000 F0.001\nG3\n");
    for (size_t n = 0, at = strlen(text); n < TURNS; n++, at += strlen(text + at))
        strcpy(text + at, "I-1000000\n");
    for (int n = 0; n < TURNS; n++) {
        high += (low + turn) / UNIT;
        low = (low + turn) % UNIT;
    }
    is("start", vz_check_start(&c.bench, &c.progress, 1, 20000, -pulses, pulses, -pulses, pulses), 0);
    while ((told = fill_from(text, &c, out, sizeof out - 1, &written)) == 0)
        ;
    out[written] = '\0';
    snprintf(expected, sizeof expected, "total %d %" PRId64 " %" PRId64 "%018" PRId64 "\n", TURNS + 1, pulses + TURNS * (int64_t)CYCLES,
             high, low);
    is("a long job", told, 1);
    is("its ticks below 10^18", c.progress.word[VZ_PROGRESS_TICKS], low);
    is("its ticks above", c.progress.word[VZ_PROGRESS_TICKS_HIGH], high);
    is("more than 2^64", high > 18, 1);
    is("its total", strstr(out, expected) != NULL, 1);
}

/* A check after its header, five lines on, with these words of ticks. */
static struct check lines_on(int64_t low, int64_t high)
{
    struct check c = started();
    c.progress.word[VZ_PROGRESS_STAGE] = 1;
    c.progress.word[VZ_PROGRESS_LINES] = 5;
    c.progress.word[VZ_PROGRESS_TICKS] = low;
    c.progress.word[VZ_PROGRESS_TICKS_HIGH] = high;
    return c;
}

/* One word is carried into the other; words that no five lines come to get no row, and the listing is over. */
static void ticks(void)
{
    const int64_t beyond[][2] = {{UNIT, 0}, {INT64_MAX, 0}, {0, 6}, {0, UINT32_MAX}};
    static const char text[] = "G1 X10 F300\n", listed[] = "1 6 L 500 500 0 9\ntotal 1 500 6000000000000009999\n";
    char out[1000];
    uint64_t written;
    struct check c = lines_on(UNIT - 1, 5);
    is("a row", fill_from(text, &c, out, sizeof out, &written), 1);
    is("its bytes", written == strlen(listed) && memcmp(out, listed, written) == 0, 1);
    is("ticks below 10^18", c.progress.word[VZ_PROGRESS_TICKS], 9999);
    is("ticks above", c.progress.word[VZ_PROGRESS_TICKS_HIGH], 6);
    for (size_t i = 0; i < sizeof beyond / sizeof *beyond; i++) {
        c = lines_on(beyond[i][0], beyond[i][1]);
        is("no row", fill_from(text, &c, out, sizeof out, &written), 1);
        is("no bytes", (int64_t)written, 0);
        is("over", c.progress.word[VZ_PROGRESS_STAGE], 2);
    }
}

/* ---- words that are no check */

/* One word of a check changed, or many. */
static void fill_refused(const char *what, const struct check *bad)
{
    struct check c = *bad;
    uint8_t out[200], before[200];
    uint64_t written = 5;
    memset(before, 7, sizeof before);
    memcpy(out, before, sizeof out);
    is(what, fill(&c, out, sizeof out, &written), -VZ_REFUSED_RECORD);
    is("words that stay", memcmp(&c, bad, sizeof c), 0);
    is("bytes of a refused fill", (int64_t)written, 0);
    is("the buffer of a refused fill", memcmp(out, before, sizeof out), 0);
}

static void bench_changed(const char *what, int word, int64_t to)
{
    struct check c = started();
    c.bench.word[word] = to;
    fill_refused(what, &c);
}

static void progress_changed(const char *what, int word, int64_t to)
{
    struct check c = started();
    c.progress.word[word] = to;
    fill_refused(what, &c);
}

int main(void)
{
    struct check noise;
    uint64_t seed = 1;
    start();
    pieces();
    long_job();
    ticks();
    bench_changed("another layout", VZ_WORD_ABI, VZ_ABI + 1);
    bench_changed("the layout before", VZ_WORD_ABI, VZ_ABI - 1);
    bench_changed("p", VZ_WORD_P, -50);
    bench_changed("x outside", VZ_WORD_X, 1001);
    bench_changed("held 2", VZ_WORD_HELD, 2);
    bench_changed("kind 4", VZ_WORD_WORK, 4);
    progress_changed("stage 3", VZ_PROGRESS_STAGE, 3);
    progress_changed("at", VZ_PROGRESS_AT, -1);
    progress_changed("motion 4", VZ_PROGRESS_MOTION, 4);
    progress_changed("feed -2", VZ_PROGRESS_FEED, -2);
    progress_changed("feed of 11 digits", VZ_PROGRESS_FEED, INT64_C(10000000000));
    progress_changed("ticks", VZ_PROGRESS_TICKS, INT64_MIN);
    progress_changed("ticks", VZ_PROGRESS_TICKS, -1);
    progress_changed("ticks above", VZ_PROGRESS_TICKS_HIGH, INT64_MIN);
    progress_changed("ticks above", VZ_PROGRESS_TICKS_HIGH, -1);
    progress_changed("ticks above, of 33 bits", VZ_PROGRESS_TICKS_HIGH, INT64_C(1) << 32);
    for (int turn = 0; turn < 1000; turn++) {
        noise = started();
        for (int i = 0; i < VZ_PROGRESS_WORDS; i++) {
            seed = seed * 6364136223846793005u + 1442695040888963407u;
            noise.progress.word[i] = (int64_t)seed;
        }
        fill_refused("noise", &noise);
    }
    return wrong;
}
