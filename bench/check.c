/* A plain check program, for timing beside the proved one: the same questions and the same listing, with the settings that 01
 * gives it. One pass over the text; its own digits, in one buffer that goes out in large pieces; the hardware's root; arcs
 * counted and tested without a walk. */
#include "arc.h"
#include "root.h"

#include <unistd.h>

enum { P = 50, MOST_TEXT = 65536, MOST_LINE = 80, PIECE = 8192, ROOM = 160 };
static const int64_t CAPACITY = PER_CLOCK * 5000;
static const struct settings table = { P, 5000, { -TRAVEL, TRAVEL }, { -TRAVEL, TRAVEL } };

enum letter { N, G, F, X, Y, I, J, LETTERS };
enum { PLACED = 1 << X | 1 << Y, CENTRED = 1 << I | 1 << J };

/* The words of a line: a bit for each letter that stands, and the numbers, in thousandths from F on. */
struct words {
    unsigned stand, twice;
    int64_t value[LETTERS];
};

/* At these settings 64 bits hold a job's ticks: a block has 4 * 10^13 at most, at F 0.001, and a text fewer than 65,536 blocks. The core's
 * check, which is of any settings, carries them in two numbers, so that less is done here. */
struct job {
    struct point at;
    int64_t motion, feed; /* in thousandths; 0 and -1: not known yet */
    int64_t line, blocks, cycles, ticks, remainder;
};

/* ---- what goes out */

static char out[PIECE + ROOM], *next = out;

static void hand_out(void)
{
    for (char *from = out; from < next;) {
        ssize_t n = write(STDOUT_FILENO, from, (size_t)(next - from));
        if (n < 0)
            _exit(1);
        from += n;
    }
    next = out;
}

static void text(const char *s)
{
    while (*s)
        *next++ = *s++;
}

/* A number, not negative, and the byte after it. */
static void number(int64_t n, char after)
{
    char *end = next + 1;
    for (int64_t ten = 10; ten <= n; ten *= 10)
        end++;
    char *at = end;
    for (uint64_t rest = (uint64_t)n; at > next; rest /= 10)
        *--at = (char)('0' + rest % 10);
    *end = after;
    next = end + 1;
}

static void with_sign(int64_t n, char after)
{
    if (n < 0)
        *next++ = '-';
    number(n < 0 ? -n : n, after);
}

/* ---- words */

static int letter_of(char c)
{
    switch (c) {
    case 'N': return N;
    case 'G': return G;
    case 'F': return F;
    case 'X': return X;
    case 'Y': return Y;
    case 'I': return I;
    case 'J': return J;
    default: return LETTERS;
    }
}

/* Digits written after those of `value`: where they end; NULL where there is none, or more than `most`. */
static const char *digits(const char *at, int most, uint64_t *value)
{
    const char *from = at;
    for (; *at >= '0' && *at <= '9'; at++)
        *value = 10 * *value + (uint64_t)(*at - '0');
    return at > from && at - from <= most ? at : NULL;
}

/* A word from its letter on: where it ends, or NULL. */
static const char *word(const char *at, struct words *w)
{
    static const uint64_t scale[] = { 1000, 100, 10, 1 };
    const int letter = letter_of(*at++);
    uint64_t value = 0;
    int negative = 0;
    if (letter == LETTERS)
        return NULL;
    if (letter >= X && (*at == '+' || *at == '-'))
        negative = *at++ == '-';
    at = digits(at, 7, &value);
    if (at && letter >= F) {
        const char *point = at;
        if (*at == '.')
            at = digits(point + 1, 3, &value);
        if (at)
            value *= scale[at == point ? 0 : at - point - 1];
    }
    w->twice |= w->stand & 1u << letter;
    w->stand |= 1u << letter;
    w->value[letter] = negative ? -(int64_t)value : (int64_t)value;
    return at;
}

/* The words of the line that begins here, up to its LF; 0, or the number of the question. */
static int words_of(const char *from, const char **end, struct words *w)
{
    const char *at = from;
    while (at && *at != '\n')
        at = *at == ' ' ? at + 1 : word(at, w);
    for (*end = at ? at : from; **end != '\n';)
        ++*end;
    if (*end - from > MOST_LINE)
        return 31;
    if (!at)
        return 32;
    return w->twice ? 33 : 0;
}

/* Questions 34 to 37 about the words of a line; motion and feed are those known after it. */
static int words_no(const struct words *w, int64_t motion, int64_t feed)
{
    if (w->stand & 1 << G && !within(1, motion, 3))
        return 34;
    for (int k = X; k <= J; k++)
        if (w->stand & 1u << k && w->value[k] * P % 1000)
            return 35;
    if (w->stand & (PLACED | CENTRED) && (motion == 0 || feed < 0))
        return 36;
    const bool placed = w->stand & PLACED, centred = w->stand & CENTRED, right = motion > 1 ? centred || !placed : !centred;
    return right ? 0 : 37;
}

static int64_t pulses(const struct words *w, enum letter k, int64_t missing)
{
    return w->stand & 1u << k ? w->value[k] * P / 1000 : missing;
}

/* ---- blocks */

/* An accepted block: its row, and the feed to its end. */
static void block(struct job *j, char kind, struct rest all, struct point end, int64_t feed, int bits)
{
    const int64_t cycles = all.cycles, due = all.charges * CAPACITY, fed = PER_FEED * feed, ticks = (due - j->remainder + fed - 1) / fed;
    j->remainder += ticks * fed - due;
    j->blocks++;
    j->cycles += cycles;
    j->ticks += ticks;
    j->at = end;
    if (next > out + PIECE)
        hand_out();
    number(j->blocks, ' ');
    number(j->line, ' ');
    *next++ = kind;
    *next++ = ' ';
    number(cycles, ' ');
    with_sign(end.x, ' ');
    with_sign(end.y, ' ');
    number(bits, '\n');
}

static int line_block(struct job *j, struct point end, int64_t feed)
{
    const int64_t a = llabs(end.x - j->at.x), b = llabs(end.y - j->at.y);
    const int64_t cycles = least_root(a * a + b * b);
    block(j, 'L', (struct rest){ cycles, STRAIGHT * cycles }, end, feed, width(a < b ? b : a));
    return 0;
}

static int arc_block(struct job *j, struct point end, int64_t feed, bool clockwise, int64_t i, int64_t k)
{
    if (!within(-TRAVEL, i, TRAVEL) || !within(-TRAVEL, k, TRAVEL) || (i == 0 && k == 0))
        return 14;
    const struct arc a = { { j->at.x + i, j->at.y + k }, end, i * i + k * k, feed };
    if (!on_circle(a.square, seen(&a, clockwise, end)))
        return 15;
    if (!stays(&table, &a, clockwise, j->at))
        return 16;
    block(j, 'A', rest_of(&a, clockwise, j->at), end, feed, width(nearest_root(a.square)));
    return 0;
}

/* What a line with X, Y, I or J asks for. */
static int moved(struct job *j, const struct words *w, int64_t motion, int64_t feed)
{
    const struct point end = { pulses(w, X, j->at.x), pulses(w, Y, j->at.y) };
    if (motion == 1 && same(end, j->at))
        return 0;
    if (!within(1, feed, CAPACITY))
        return 11;
    if (!inside(&table, end))
        return 12;
    if (motion == 1)
        return line_block(j, end, feed);
    return arc_block(j, end, feed, motion == 2, pulses(w, I, 0), pulses(w, J, 0));
}

/* One text line; 0, or the number of the question. */
static int text_line(struct job *j, const char *from, const char **end)
{
    struct words w;
    w.stand = w.twice = 0;
    int no = words_of(from, end, &w);
    if (no)
        return no;
    const int64_t motion = w.stand & 1 << G ? w.value[G] : j->motion, feed = w.stand & 1 << F ? w.value[F] : j->feed;
    no = words_no(&w, motion, feed);
    if (!no && w.stand & (PLACED | CENTRED))
        no = moved(j, &w, motion, feed * P);
    if (no)
        return no;
    j->motion = motion;
    j->feed = feed;
    return 0;
}

/* The rows of a job; the last line is the total, or the line that is refused and the number. */
static void check(const char *job, size_t size)
{
    struct job j = { .feed = -1 };
    int no = size > MOST_TEXT ? 30 : 0;
    j.line = no ? 1 : 0;
    for (const char *at = job; !no && at < job + size; at++) {
        j.line++;
        no = text_line(&j, at, &at);
    }
    text(no ? "line " : "total ");
    number(no ? j.line : j.blocks, ' ');
    if (no) {
        text("refused ");
        number(no, '\n');
        return;
    }
    number(j.cycles, ' ');
    number(j.ticks, '\n');
}

int main(void)
{
    static char job[MOST_TEXT + 3];
    size_t size = 0;
    for (ssize_t n = 1; n > 0 && size <= MOST_TEXT; size += (size_t)n) {
        n = read(STDIN_FILENO, job + size, MOST_TEXT + 1 - size);
        if (n < 0)
            return 1;
    }
    job[size] = '\n'; /* the last line may lack it */
    text("block line kind cycles x y bits\n");
    check(job, size);
    hand_out();
    return 0;
}
