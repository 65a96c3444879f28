/* A late sender (02 §3: "The sender is sometimes late and the knife halts between blocks."). It comes to the machine, gives it as many
 * lines of a job as it takes, and is away until 1 to 16 blocks and a tick more have gone by. While up to 16 wait, no tick between the first
 * and the last working one is without work. The same sender, away for the same numbers of ticks, that gives a block only when nothing is in
 * work, leaves such ticks. The working ticks send the same bytes either way. The job is the file that the argument names. Ends with 1 where
 * this is not so. */
#include <inttypes.h>
#include <stdio.h>
#include <string.h>

#include "verdaizka.h"

enum { TURNS = 2, MOST_VISITS = 4096 };

static int wrong = 0;

static void must(int right, const char *what)
{
    if (!right) {
        printf("late: not so: %s\n", what);
        wrong = 1;
    }
}

/* A row of numbers in 1..16. */
static uint64_t drawn(void)
{
    static uint64_t seed = 1;
    seed = seed * 6364136223846793005u + 1442695040888963407u;
    return 1 + (seed >> 60);
}

/* ---- the job at the sender, and what has been read of it */

struct sender {
    const char *text;
    size_t length, at;
    vz_known known;
};

static struct sender with(const char *text, size_t length)
{
    return (struct sender){text, length, 0, VZ_NOTHING_KNOWN};
}

/* One line; answers as vz_read_line. A line that is not taken stays the next one. */
static int64_t give_line(struct sender *s, vz_record *m)
{
    const char *line = s->text + s->at, *lf = memchr(line, '\n', s->length - s->at);
    size_t length = lf ? (size_t)(lf - line) : s->length - s->at;
    int64_t told = vz_read_line(m, &s->known, (const uint8_t *)line, length);
    if (told >= 0)
        s->at += lf ? length + 1 : length;
    return told;
}

/* Lines until one is not taken. */
static void give_ahead(struct sender *s, vz_record *m)
{
    int64_t told = 0;
    while (told >= 0 && s->at < s->length)
        told = give_line(s, m);
    must(told >= 0 || told == -VZ_REFUSED_FULL, "a line is refused for no other cause than a full queue");
}

/* Lines until a block is in work. */
static void give_one(struct sender *s, vz_record *m)
{
    while (m->word[VZ_WORD_WORK] == 0 && s->at < s->length && !wrong)
        must(give_line(s, m) >= 0, "a line is taken where nothing is in work");
}

/* ---- the machine under the clock */

struct clock {
    vz_record m;
    uint64_t ticks, blocks; /* so far, and blocks ended */
    uint64_t idle;          /* ticks without work between two working ones */
    uint64_t since;         /* those since the last working one */
    uint64_t sum;           /* of the working bytes, in their order */
};

static void start(struct clock *c)
{
    memset(c, 0, sizeof *c);
    must(vz_make(&c->m, 50, 5000, -1000000, 1000000, -1000000, 1000000) == 0, "make");
}

static void tick(struct clock *c)
{
    int works = c->m.word[VZ_WORD_WORK] != 0;
    int64_t byte = vz_tick(&c->m);
    must(byte >= 0, "tick");
    c->ticks++;
    if (!works) {
        c->since++;
        return;
    }
    c->idle += c->since;
    c->since = 0;
    c->sum = 31 * c->sum + (uint64_t)byte;
    c->blocks += (byte & VZ_END) != 0;
}

static int goes_on(const struct clock *c, const struct sender *s)
{
    return !wrong && (s->at < s->length || c->m.word[VZ_WORD_WORK] != 0);
}

/* How long the sender was away each time, in ticks. */
struct absences {
    uint64_t ticks[MOST_VISITS];
    size_t count;
};

/* Up to 16 blocks wait. The sender comes again a tick after so many have ended, every other time after 16; how many ticks that took is
 * kept. */
static void cut_ahead(struct clock *c, struct sender s, struct absences *a)
{
    start(c);
    for (a->count = 0; goes_on(c, &s) && a->count < MOST_VISITS; a->count++) {
        const uint64_t came = c->ticks, blocks = c->blocks + (a->count % 2 == 0 ? VZ_QUEUE_BLOCKS : drawn());
        give_ahead(&s, &c->m);
        while (c->blocks < blocks && c->m.word[VZ_WORD_WORK] != 0 && !wrong)
            tick(c);
        tick(c);
        a->ticks[a->count] = c->ticks - came;
    }
}

/* None waits: the sender gives a block when it finds nothing in work. It is away as long as before, again and again. */
static void cut_one_by_one(struct clock *c, struct sender s, const struct absences *a)
{
    start(c);
    for (size_t visit = 0; goes_on(c, &s); visit++) {
        give_one(&s, &c->m);
        for (uint64_t i = 0; i < a->ticks[visit % a->count]; i++)
            tick(c);
    }
}

static void turn(const char *text, size_t length)
{
    static struct absences a;
    struct clock ahead, one;
    cut_ahead(&ahead, with(text, length), &a);
    must(ahead.blocks > 2 * VZ_QUEUE_BLOCKS && a.count > 2, "the job is long enough for a sender to be late");
    if (wrong)
        return;
    cut_one_by_one(&one, with(text, length), &a);
    printf("%" PRIu64 " blocks: %" PRIu64 " ticks, %" PRIu64 " of them without work; one by one ", ahead.blocks, ahead.ticks, ahead.idle);
    printf("%" PRIu64 " ticks, %" PRIu64 " of them without work\n", one.ticks, one.idle);
    must(ahead.idle == 0, "with blocks waiting no tick is without work");
    must(one.idle > 0, "one block at a time leaves ticks without work");
    must(one.blocks == ahead.blocks && one.sum == ahead.sum, "the working ticks send the same");
}

int main(int count, char **arguments)
{
    static char text[VZ_TEXT_BYTES];
    FILE *job = count > 1 ? fopen(arguments[1], "rb") : NULL;
    size_t length = job ? fread(text, 1, sizeof text, job) : 0;
    must(length > 0, "the argument names a job");
    for (int i = 0; i < TURNS && !wrong; i++)
        turn(text, length);
    return wrong;
}
