/* The proved core beside the plain programs.
 * bench tables GOALS               the tables: all sides are timed in turns, and the medians are told; the goals' rows go to a file
 * bench agree                      only compares all sides
 * bench list                       what can be counted: table, work, side, times, units in one time, and the names, with tabs between
 * bench do TABLE WORK SIDE TIMES   one work on one side, for a counter of instructions */
#define _POSIX_C_SOURCE 199309L
#include "works.h"
#include "timing.h"

#include <inttypes.h>
#include <stdio.h>
#include <stdlib.h>
#include <string.h>

enum { MOST_ROUNDS = 999 };

/* ns a unit of each side of each work, and the core's part of it. */
static double times[MOST_WORKS][MOST_WAYS][MOST_ROUNDS], ratios[MOST_WORKS][MOST_WAYS][MOST_ROUNDS];

static double timed(const struct table *t, int side, const struct work *w)
{
    const uint64_t often = times_of(t, side, w, w->times);
    double start = now();
    t->way[side].go(w, often);
    return (now() - start) / (double)(often * w->units);
}

/* Each round does every work by every side once, so that what else the machine does falls on all of them. Each round begins with
 * another side: in a fixed order something that comes again and again can fall on the same side every time. */
static void measure(const struct table *t, int rounds)
{
    for (int r = 0; r < rounds; r++)
        for (int w = 0; w < t->works; w++) {
            for (int k = 0; k < t->ways; k++) {
                int s = (k + r) % t->ways;
                times[w][s][r] = timed(t, s, &t->work[w]);
            }
            for (int s = 0; s < t->ways; s++)
                ratios[w][s][r] = times[w][0][r] / times[w][s][r];
        }
}

/* What the rows told of each goal: the least and the greatest, and the rows that missed it. */
static struct told {
    const struct goal *goal;
    const char *way;
    double least, greatest;
    int missed;
    const char *miss[MOST_WORKS];
} told[32];
static int told_count;

static struct told *told_of(const struct goal *g, const struct table *t, double value)
{
    for (struct told *k = told; k < told + told_count; k++)
        if (k->goal == g)
            return k;
    told[told_count] = (struct told){ .goal = g, .way = t->way[g->way].name, .least = value, .greatest = value };
    return &told[told_count++];
}

static int tell(const struct goal *g, const struct table *t, const char *row, double value)
{
    struct told *k = told_of(g, t, value);
    if (value < k->least)
        k->least = value;
    if (value > k->greatest)
        k->greatest = value;
    if (value > g->limit)
        k->miss[k->missed++] = row;
    return value <= g->limit;
}

static void print_goals(const struct table *t, const struct work *w, const double *ns, const double *ratio)
{
    int met = 1, any = 0;
    printf(" | ");
    for (int i = 0; i < MOST_GOALS && w->goals[i]; i++) {
        const struct goal *g = w->goals[i];
        printf(g->way == 0 ? "%s%s at most %g ns" : "%s%s at most %g", any ? ", " : "", t->way[g->way].name, g->limit);
        met &= tell(g, t, w->name, g->way == 0 ? ns[0] : ratio[g->way]);
        any = 1;
    }
    printf("%s | %s |\n", any ? "" : "none", any ? met ? "yes" : "**no**" : "");
}

/* A row for each goal, from the figures that the tables show. */
static void write_goals(FILE *to)
{
    for (const struct told *k = told; k < told + told_count; k++) {
        const int time = k->goal->way == 0;
        fprintf(to, time ? "| %s at most %g ns" : "| %s at most %g times %s", k->goal->text, k->goal->limit, k->way);
        fprintf(to, " | %.2f", k->least);
        if (k->greatest - k->least >= 0.005)
            fprintf(to, " to %.2f", k->greatest);
        fprintf(to, time ? " ns | %s" : " | %s", k->missed ? "**no**: " : "yes");
        for (int i = 0; i < k->missed; i++)
            fprintf(to, "%s%s", i ? "; " : "", k->miss[i]);
        fprintf(to, " |\n");
    }
}

static void print_row(const struct table *t, int w, int rounds)
{
    double ns[MOST_WAYS] = { 0 }, ratio[MOST_WAYS] = { 0 };
    for (int s = 0; s < t->ways; s++) {
        ns[s] = median(times[w][s], rounds);
        ratio[s] = median(ratios[w][s], rounds);
    }
    const int digits = ns[0] < 10 ? 3 : 1;
    printf("| %s | %.*f", t->work[w].name, digits, ns[0]);
    for (int s = 1; s < t->ways; s++)
        printf(ratio[s] < 0.005 ? " | %.*f (%.5f)" : " | %.*f (%.2f)", digits, ns[s], ratio[s]);
    print_goals(t, &t->work[w], ns, ratio);
}

static void print_table(const struct table *t, int rounds)
{
    if (!is_there(t)) {
        printf("The archive has no function of its own for the %s: it is not timed.\n\n", t->name);
        return;
    }
    measure(t, rounds);
    printf("| %s, ns a %s", t->name, t->unit);
    for (int s = 0; s < t->ways; s++)
        printf(" | %s", t->way[s].name);
    printf(" | goal | met |\n|---|---|---|");
    for (int s = 0; s < t->ways; s++)
        printf("---|");
    printf("\n");
    for (int w = 0; w < t->works; w++)
        print_row(t, w, rounds);
    printf("\n");
}

static void list(void)
{
    for (int n = 0; n < table_count; n++) {
        const struct table *t = &tables[n];
        for (int w = 0; is_there(t) && w < t->works; w++)
            for (int s = 0; s < t->ways; s++)
                printf("%d\t%d\t%d\t%" PRIu64 "\t%" PRIu64 "\t%s\t%s\t%s\t%s\n", n, w, s, times_of(t, s, &t->work[w], t->counted),
                       t->work[w].units, t->name, t->unit, t->work[w].name, t->way[s].name);
    }
}

/* All tables, and the goals to a file; 0, or 2 where that cannot be. */
static int print_tables(const char *goals)
{
    const char *asked = getenv("BENCH_ROUNDS");
    int rounds = asked ? atoi(asked) : 51;
    FILE *to = fopen(goals, "w");
    if (rounds < 1 || rounds > MOST_ROUNDS || !to)
        return 2;
    agree();
    for (int t = 0; t < table_count; t++)
        print_table(&tables[t], rounds);
    write_goals(to);
    return fclose(to) == 0 ? 0 : 2;
}

int main(int count, char **given)
{
    const char *command = count > 1 ? given[1] : "";
    if (count == 2 && strcmp(command, "list") == 0) {
        list();
        return 0;
    }
    if (count == 6 && strcmp(command, "do") == 0) {
        const struct table *t = &tables[atoi(given[2])];
        t->way[atoi(given[4])].go(&t->work[atoi(given[3])], strtoull(given[5], NULL, 10));
        return 0;
    }
    if (count == 2 && strcmp(command, "agree") == 0) {
        agree();
        return 0;
    }
    return count == 3 && strcmp(command, "tables") == 0 ? print_tables(given[2]) : 2;
}
