/* The check on the panel by its words: how a start answers; that pieces of all lengths give the listing of the check, with a scratch buffer
 * of which only the bytes held count; texts of 65,536 bytes and more; buffers that are too short; and that words which are no panel's check
 * stay as they are, with everything else that a read could write. Ends with 1 where an answer is another. */
#include "told.h"

enum { BEHIND = 7, MOST_CALLS = 131074, MOST_OUT = 1 << 20, SHOWN = 300 };

/* A check on the panel, and its two buffers with some bytes behind that are not lent. It has no gaps, so that all of it can be compared. */
struct check {
    vz_bench bench;
    vz_panel panel;
    uint8_t scratch[VZ_SCRATCH_BYTES + BEHIND], rows[VZ_ROW_BYTES + 8];
};

_Static_assert(sizeof(struct check) == 8 * (VZ_BENCH_WORDS + VZ_PANEL_WORDS) + VZ_SCRATCH_BYTES + BEHIND + VZ_ROW_BYTES + 8, "no gaps");

static const char job[] = "G1 X10 F300\nX0\n";

static struct check started(void)
{
    struct check c;
    memset(&c, 0x5a, sizeof c);
    is("start", vz_panel_start(&c.bench, &c.panel, 50, 5000, -1000000, 1000000, -1000000, 1000000), 0);
    return c;
}

/* What a read answers, and what it always sets. */
struct done {
    int64_t told;
    uint64_t took, written;
};

static struct done read_with(struct check *c, size_t scratch, size_t rows, const char *piece, size_t length, int64_t last)
{
    const uint8_t *bytes = (const uint8_t *)piece;
    struct done f = {0, UINT64_MAX, UINT64_MAX};
    f.told = vz_panel_read(&c->bench, &c->panel, c->scratch, scratch, bytes, length, last, c->rows, rows, &f.took, &f.written);
    return f;
}

static void all_are(const char *what, const uint8_t *bytes, size_t length, uint8_t byte)
{
    for (size_t i = 0; i < length; i++)
        is(what, bytes[i], byte);
}

/* A read with as much room as it needs. Before it all bytes that are free become others; those that it has no business with stay. */
static struct done read(struct check *c, const char *piece, size_t length, int64_t last)
{
    static uint8_t noise;
    size_t held = (size_t)c->panel.word[VZ_PANEL_HELD];
    memset(c->rows, ++noise, sizeof c->rows);
    memset(c->scratch + held, noise, sizeof c->scratch - held);
    struct done f = read_with(c, VZ_SCRATCH_BYTES, VZ_ROW_BYTES, piece, length, last);
    is("no more taken than there is", f.took <= length, 1);
    is("no more written than there is room", f.written <= VZ_ROW_BYTES, 1);
    all_are("rows behind those written", c->rows + f.written, sizeof c->rows - f.written, noise);
    all_are("bytes behind the scratch buffer", c->scratch + VZ_SCRATCH_BYTES, BEHIND, noise);
    return f;
}

static void read_is(const char *what, struct done f, int64_t told, uint64_t took, uint64_t written)
{
    is(what, f.told, told);
    is(what, (int64_t)f.took, (int64_t)took);
    is(what, (int64_t)f.written, (int64_t)written);
}

static void start(void)
{
    struct check c;
    is("p", vz_panel_start(&c.bench, &c.panel, 0, 5000, 0, 0, 0, 0), -VZ_REFUSED_P);
    is("w", vz_panel_start(&c.bench, &c.panel, 50, 20001, 0, 0, 0, 0), -VZ_REFUSED_W);
    is("travel", vz_panel_start(&c.bench, &c.panel, 50, 5000, 0, 0, 1, 1), -VZ_REFUSED_TRAVEL);
    is("p of a refused start", c.bench.word[VZ_WORD_P], 50);
    is("travel of a refused start", c.bench.word[VZ_WORD_Y_LOWER], -1000000);
    is("layout of a start", c.bench.word[VZ_WORD_ABI], VZ_ABI);
    for (int word = 0; word < VZ_PANEL_WORDS; word++)
        is("word of a start", c.panel.word[word], word == VZ_PANEL_LEFT ? VZ_TEXT_BYTES : word == VZ_PANEL_FEED ? -1 : 0);
}

/* Call by call: a header, a line in two pieces, the next one behind it, and the total. */
static void steps(void)
{
    struct check c = started();
    read_is("the header takes nothing", read(&c, job, 3, 0), VZ_PANEL_MORE, 0, 32);
    is("stage", c.panel.word[VZ_PANEL_STAGE], 1);
    read_is("the front of a line", read(&c, job, 3, 0), VZ_PANEL_MORE, 3, 0);
    is("held", c.panel.word[VZ_PANEL_HELD], 3);
    is("held bytes", memcmp(c.scratch, job, 3), 0);
    is("left", c.panel.word[VZ_PANEL_LEFT], VZ_TEXT_BYTES - 3);
    read_is("the rest of it, and no more", read(&c, job + 3, 12, 1), VZ_PANEL_MORE, 9, 18);
    is("its row", memcmp(c.rows, "1 1 L 500 500 0 9\n", 18), 0);
    is("held", c.panel.word[VZ_PANEL_HELD], 0);
    is("feed", c.panel.word[VZ_PANEL_FEED], 300000);
    is("motion", c.panel.word[VZ_PANEL_MOTION], 1);
    read_is("a line", read(&c, job + 12, 3, 1), VZ_PANEL_MORE, 3, 16);
    is("lines", c.panel.word[VZ_PANEL_LINES], 2);
    is("blocks", c.panel.word[VZ_PANEL_BLOCKS], 2);
    read_is("the total", read(&c, "", 0, 1), VZ_PANEL_OVER, 0, 19);
    is("its bytes", memcmp(c.rows, "total 2 1000 20000\n", 19), 0);
    is("stage", c.panel.word[VZ_PANEL_STAGE], 2);
}

/* ---- listings */

/* How a text comes: in pieces of so many bytes; its end told with the last one or by an empty one; an empty piece before each call or
 * not. */
struct way {
    size_t size;
    int apart, empty;
};

/* An empty piece that is not the last one does nothing, but where the header comes next. */
static void empty_piece(struct check *c)
{
    vz_bench bench = c->bench;
    vz_panel panel = c->panel;
    read_is("an empty piece", read(c, "", 0, 0), VZ_PANEL_MORE, 0, 0);
    is("bench at an empty piece", memcmp(&bench, &c->bench, sizeof bench), 0);
    is("words at an empty piece", memcmp(&panel, &c->panel, sizeof panel), 0);
}

/* After the last row, whatever comes. */
static void over(struct check *c)
{
    struct check before = *c;
    for (int64_t last = 0; last < 2; last++) {
        read_is("a piece after the last row", read_with(c, VZ_SCRATCH_BYTES, VZ_ROW_BYTES, job, 3, last), VZ_PANEL_OVER, 0, 0);
        read_is("an empty piece after the last row", read_with(c, VZ_SCRATCH_BYTES, VZ_ROW_BYTES, "", 0, last), VZ_PANEL_OVER, 0, 0);
    }
    is("bench after the last row", memcmp(&before.bench, &c->bench, sizeof c->bench), 0);
    is("words after the last row", memcmp(&before.panel, &c->panel, sizeof c->panel), 0);
    is("rows after the last one", memcmp(before.rows, c->rows, sizeof c->rows), 0);
}

/* The panel's listing of a text; its length. */
static size_t listed(const char *text, size_t length, struct way way, char *out)
{
    struct check c = started();
    struct done f = {VZ_PANEL_MORE, 0, 0};
    size_t at = 0, end = 0, sum = 0, calls = 0;
    for (; f.told == VZ_PANEL_MORE && calls < MOST_CALLS; calls++) {
        if (at == end)
            end = length - at < way.size ? length : at + way.size;
        if (way.empty && c.panel.word[VZ_PANEL_STAGE] == 1)
            empty_piece(&c);
        f = read(&c, text + at, end - at, end == length && (at == length || !way.apart));
        memcpy(out + sum, c.rows, f.written);
        at += f.took;
        sum += f.written;
    }
    is("over", f.told, VZ_PANEL_OVER);
    over(&c);
    return sum;
}

/* The listing of the check; its length. */
static size_t checked(const char *text, size_t length, char *out)
{
    vz_bench bench;
    vz_progress progress;
    uint64_t written;
    is("start", vz_check_start(&bench, &progress, 50, 5000, -1000000, 1000000, -1000000, 1000000), 0);
    is("check", vz_check_fill(&bench, &progress, (const uint8_t *)text, length, (uint8_t *)out, MOST_OUT, &written), 1);
    return written;
}

/* What has to come of any text. Of one of more than 65,536 bytes: the check's rows of the whole lines before byte 65,537 and, unless one of
 * them is refused, 30. */
static size_t expected(const char *text, size_t length, char *out)
{
    size_t whole = VZ_TEXT_BYTES, line = 1, all, last;
    if (length <= VZ_TEXT_BYTES)
        return checked(text, length, out);
    while (whole > 0 && text[whole - 1] != '\n')
        whole--;
    for (size_t i = 0; i < whole; i++)
        line += text[i] == '\n';
    all = checked(text, whole, out);
    for (last = all - 1; out[last - 1] != '\n';)
        last--;
    return out[last] == 't' ? last + (size_t)sprintf(out + last, "line %zu refused 30\n", line) : all;
}

static void same_listing(const char *what, const char *text, size_t length, struct way way)
{
    static char got[MOST_OUT], wanted[MOST_OUT];
    size_t all = listed(text, length, way, got), due = expected(text, length, wanted);
    if (all != due || memcmp(got, wanted, all) != 0) {
        printf("%s, in pieces of %zu, apart %d, empty %d:\n", what, way.size, way.apart, way.empty);
        printf("%.*s\nin place of\n%.*s\n", all < SHOWN ? (int)all : SHOWN, got, due < SHOWN ? (int)due : SHOWN, wanted);
        wrong = 1;
    }
}

#define BLANKS_20 "                    "
#define BLANKS_74 BLANKS_20 BLANKS_20 BLANKS_20 "              "

/* Lines that make a block or none, with and without a last LF; those of 80, 81 and more bytes; refused ones. */
static const char *const texts[] = {
    "", "\n", " ", "\n\n", job, "G1 X10 F300\nX0", "N1\nG1F300\n\nX1\nG3 X0 I-0.5\n X2", "G1 X1 F300\r\n", "X1\nG1 X1 F9\n",
    "G1 X0.01 F9\nX1", "G1 X1 F9\nG3 X1 Y0.5 I1", "G1 X1 F9\nG9\nX2\n", BLANKS_74 "G1F9X1", BLANKS_74 "G1F9X1\nX2\n", BLANKS_74 "G1F9X10",
    BLANKS_74 "G1F9X10\nX2\n", BLANKS_74 BLANKS_74 BLANKS_74 "G1F9X1\nX2\n",
    "G1F9\nX1" BLANKS_74 "\nX2" BLANKS_74 "  \n" BLANKS_74 BLANKS_74
};

static void pieces(void)
{
    for (size_t i = 0; i < sizeof texts / sizeof *texts; i++)
        for (size_t size = 1; size <= 90; size++)
            for (int kind = 0; kind < 4; kind++)
                same_listing(texts[i], texts[i], strlen(texts[i]), (struct way){size, kind & 1, kind >> 1});
}

/* A text of which this tail begins with the byte of this number, counted from 1: before it the front, and blank lines. */
static void with_tail(const char *what, const char *front, const char *tail, size_t first)
{
    static char text[VZ_TEXT_BYTES + 1000];
    const size_t sizes[] = {1, 7, 80, 81, 82, 65536, 65537, sizeof text};
    for (size_t at = 0; at < first; at++)
        text[at] = (first - at) % 61 == 2 ? '\n' : ' ';
    memcpy(text, front, strlen(front));
    strcpy(text + first - 1, tail);
    for (size_t i = 0; i < sizeof sizes / sizeof *sizes; i++)
        for (int apart = 0; apart < 2; apart++)
            same_listing(what, text, first - 1 + strlen(tail), (struct way){sizes[i], apart, 0});
}

/* Where the text ends, and where the line that holds byte 65,537 does. */
static void long_texts(void)
{
    static const char good[] = "G1 X1 F9\n", bad[] = "G1 X1 F9\nG9\n";
    const size_t most = VZ_TEXT_BYTES;
    with_tail("65,536 bytes", good, "X2\n", most - 2);
    with_tail("65,536 bytes, no last LF", good, "X2", most - 1);
    with_tail("65,537 bytes, the last an LF", good, "X2\n", most - 1);
    with_tail("65,537 bytes, no last LF", good, "X2", most);
    with_tail("65,537 bytes, the last line of one", good, "X2\nX", most - 2);
    with_tail("65,537 bytes, the last line empty", good, "X2\n\n", most - 2);
    with_tail("more lines", good, "X2\nX3\nX4\n", most - 2);
    with_tail("other faults", good, "X2\nG9 X\nX4\n", most - 4);
    with_tail("a refused line before", bad, "X2\nX3\nX4\n", most - 2);
    with_tail("the last line before refused", good, "G9\nX3\nX4\n", most - 2);
    with_tail("a line of 81 bytes to the end", good, BLANKS_74 "G1F9X10", most - 80);
    with_tail("a line of 80 bytes to the end", good, BLANKS_74 "G1F9X1", most - 79);
    with_tail("an LF behind it", good, BLANKS_74 "G1F9X1\n", most - 79);
    with_tail("a line of 81 bytes and its LF to the end", good, BLANKS_74 "G1F9X10\n", most - 81);
    with_tail("a byte more", good, BLANKS_74 "G1F9X10\nX", most - 81);
    with_tail("a line of 81 bytes, its LF behind", good, BLANKS_74 "G1F9X10\n", most - 80);
    with_tail("a long line that goes on", good, BLANKS_74 BLANKS_74 BLANKS_74, most - 100);
    with_tail("a line begins there", good, BLANKS_74 BLANKS_74, most + 1);
}

/* As many rows as a text may have, byte by byte. */
static void most_rows(void)
{
    static char text[VZ_TEXT_BYTES + 4];
    strcpy(text, "G1 F600\n");
    for (size_t at = 8; at < VZ_TEXT_BYTES; at += 3)
        memcpy(text + at, at % 2 ? "X1\n" : "X2\n", 3);
    same_listing("short lines", text, VZ_TEXT_BYTES, (struct way){1, 1, 0});
    same_listing("short lines, a byte more", text, VZ_TEXT_BYTES + 1, (struct way){1, 1, 0});
}

/* ---- ticks: two words, of which the first is below 10^18 */

static const int64_t UNIT = INT64_C(1000000000000000000);

/* One word is carried into the other; words that no five lines come to get no row, and the listing is over. */
static void ticks(void)
{
    const int64_t beyond[][2] = {{UNIT, 0}, {INT64_MAX, 0}, {0, 6}, {0, UINT32_MAX}};
    struct check c = started(), begun;
    read_is("header", read(&c, "", 0, 0), VZ_PANEL_MORE, 0, 32);
    c.panel.word[VZ_PANEL_LINES] = 5;
    begun = c;
    c.panel.word[VZ_PANEL_TICKS] = UNIT - 1;
    c.panel.word[VZ_PANEL_TICKS_HIGH] = 5;
    read_is("a row", read(&c, job, 12, 1), VZ_PANEL_MORE, 12, 18);
    is("ticks below 10^18", c.panel.word[VZ_PANEL_TICKS], 9999);
    is("ticks above", c.panel.word[VZ_PANEL_TICKS_HIGH], 6);
    read_is("a total", read(&c, "", 0, 1), VZ_PANEL_OVER, 0, 32);
    is("its bytes", memcmp(c.rows, "total 1 500 6000000000000009999\n", 32), 0);
    for (size_t i = 0; i < sizeof beyond / sizeof *beyond; i++) {
        c = begun;
        c.panel.word[VZ_PANEL_TICKS] = beyond[i][0];
        c.panel.word[VZ_PANEL_TICKS_HIGH] = beyond[i][1];
        struct done f = read(&c, job, 12, 0);
        is("no row", f.told, VZ_PANEL_OVER);
        is("no bytes", (int64_t)f.written, 0);
        is("over", c.panel.word[VZ_PANEL_STAGE], 2);
    }
}

/* ---- buffers that are too short, and words that are no check on the panel */

/* Nothing is taken and nothing written: every word and byte stays. */
static void nothing_done(const char *what, const struct check *c, size_t scratch, size_t rows, int64_t told)
{
    for (int64_t last = 0; last < 2; last++) {
        struct check after = *c;
        read_is(what, read_with(&after, scratch, rows, job, sizeof job - 1, last), told, 0, 0);
        is("all that stays", memcmp(&after, c, sizeof after), 0);
    }
}

static void too_short(const char *what, const struct check *c)
{
    const size_t scratch = VZ_SCRATCH_BYTES, rows = VZ_ROW_BYTES, large = 1 << 20;
    const size_t lengths[][2] = {{scratch - 1, rows}, {scratch, rows - 1}, {scratch - 1, rows - 1}, {0, rows}, {scratch, 0}, {0, 0},
                                 {scratch - 1, large}, {large, rows - 1}};
    for (size_t i = 0; i < sizeof lengths / sizeof *lengths; i++)
        nothing_done(what, c, lengths[i][0], lengths[i][1], VZ_PANEL_SHORT);
}

/* 9 comes before the lengths. */
static void refused_read(const char *what, const struct check *bad)
{
    nothing_done(what, bad, VZ_SCRATCH_BYTES, VZ_ROW_BYTES, -VZ_REFUSED_RECORD);
    nothing_done(what, bad, VZ_SCRATCH_BYTES - 1, VZ_ROW_BYTES, -VZ_REFUSED_RECORD);
    nothing_done(what, bad, VZ_SCRATCH_BYTES, VZ_ROW_BYTES - 1, -VZ_REFUSED_RECORD);
    nothing_done(what, bad, 0, 0, -VZ_REFUSED_RECORD);
}

static int64_t *word_of(struct check *c, int word)
{
    return word < VZ_BENCH_WORDS ? &c->bench.word[word] : &c->panel.word[word - VZ_BENCH_WORDS];
}

/* Each word with one bit changed: no check, and all stays; or another check, whose read keeps to its buffers. */
static void bit_by_bit(const struct check *sound)
{
    for (int word = 0; word < VZ_BENCH_WORDS + VZ_PANEL_WORDS; word++)
        for (int bit = 0; bit < 64; bit++) {
            struct check c = *sound;
            *word_of(&c, word) = (int64_t)((uint64_t)*word_of(&c, word) ^ UINT64_C(1) << bit);
            struct check changed = c;
            if (read_with(&c, VZ_SCRATCH_BYTES, VZ_ROW_BYTES, job, sizeof job - 1, 0).told == -VZ_REFUSED_RECORD) {
                refused_read("a bit", &changed);
            } else {
                struct done f = read(&changed, job, sizeof job - 1, 0);
                is("a check of its own", f.told == VZ_PANEL_MORE || f.told == VZ_PANEL_OVER, 1);
            }
        }
}

static void changed(const char *what, const struct check *sound, int word, int64_t to)
{
    struct check c = *sound;
    *word_of(&c, word) = to;
    refused_read(what, &c);
}

static void panel_changed(const char *what, const struct check *sound, int word, int64_t to)
{
    changed(what, sound, VZ_BENCH_WORDS + word, to);
}

/* Values that no sound check has, whatever its other words. */
static void words_changed(const struct check *sound)
{
    for (int word = 0; word < VZ_BENCH_WORDS + VZ_PANEL_WORDS; word++)
        changed("the least number", sound, word, INT64_MIN);
    changed("another layout", sound, VZ_WORD_ABI, VZ_ABI + 1);
    changed("the layout before", sound, VZ_WORD_ABI, VZ_ABI - 1);
    changed("p", sound, VZ_WORD_P, -50);
    changed("x outside", sound, VZ_WORD_X, 1000001);
    changed("held 2", sound, VZ_WORD_HELD, 2);
    changed("kind 4", sound, VZ_WORD_WORK, 4);
    panel_changed("stage 3", sound, VZ_PANEL_STAGE, 3);
    panel_changed("left -1", sound, VZ_PANEL_LEFT, -1);
    panel_changed("more left than a text may have", sound, VZ_PANEL_LEFT, VZ_TEXT_BYTES + 1);
    panel_changed("motion 4", sound, VZ_PANEL_MOTION, 4);
    panel_changed("feed -2", sound, VZ_PANEL_FEED, -2);
    panel_changed("feed of 11 digits", sound, VZ_PANEL_FEED, INT64_C(10000000000));
    for (int word = VZ_PANEL_LINES; word <= VZ_PANEL_TICKS_HIGH; word++)
        panel_changed("a count below 0", sound, word, -1);
    panel_changed("ticks above, of 33 bits", sound, VZ_PANEL_TICKS_HIGH, INT64_C(1) << 32);
    panel_changed("held -1", sound, VZ_PANEL_HELD, -1);
    panel_changed("held 82", sound, VZ_PANEL_HELD, VZ_SCRATCH_BYTES + 1);
    panel_changed("held, of 33 bits", sound, VZ_PANEL_HELD, INT64_C(1) << 32);
}

static void noise(const struct check *sound)
{
    uint64_t seed = 1;
    for (int turn = 0; turn < 1000; turn++) {
        struct check c = *sound;
        for (int i = 0; i < VZ_PANEL_WORDS; i++) {
            seed = seed * 6364136223846793005u + 1442695040888963407u;
            c.panel.word[i] = (int64_t)seed;
        }
        refused_read("noise", &c);
    }
}

/* At the header, between two lines and within one. */
static void nothing_is_done(void)
{
    struct check c = started();
    for (int at = 0; at < 3; at++) {
        too_short("a short buffer", &c);
        words_changed(&c);
        bit_by_bit(&c);
        noise(&c);
        is("on", read(&c, job, at == 1 ? 5 : 0, 0).told, VZ_PANEL_MORE);
    }
    is("held", c.panel.word[VZ_PANEL_HELD], 5);
}

int main(void)
{
    start();
    steps();
    pieces();
    long_texts();
    most_rows();
    ticks();
    nothing_is_done();
    return wrong;
}
