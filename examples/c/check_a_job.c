/* Writes the listing of a job text to standard output, at p 50, w 5,000 and the widest travel. The text comes from the file that
 * the argument names, or from standard input. Ends with 0 where the text is listed to its end, with 1 where a line of it is refused,
 * and with 2 where it can't be read, the listing can't be written or a call is refused. */
#include <stdio.h>
#include <string.h>

#include "verdaizka.h"

/* One byte more than a text may have, so that a longer one is seen to be longer. */
static uint8_t text[VZ_TEXT_BYTES + 1];

static int failed(const char *what)
{
    perror(what);
    return 2;
}

int main(int count, char **arguments)
{
    FILE *job = count > 1 ? fopen(arguments[1], "rb") : stdin;
    vz_bench bench;
    vz_progress progress;
    char out[8 * VZ_ROW_BYTES + 1];
    int64_t told;
    int refused = 0;
    if (job == NULL)
        return failed(arguments[1]);
    size_t length = fread(text, 1, sizeof text, job);
    if (ferror(job))
        return failed("check_a_job: cannot read the job");
    if (vz_check_start(&bench, &progress, 50, 5000, -1000000, 1000000, -1000000, 1000000) != 0)
        return 2;
    do {
        uint64_t written;
        told = vz_check_fill(&bench, &progress, text, length, (uint8_t *)out, sizeof out - 1, &written);
        /* Of all rows only that of a refused line has this word, and a row is never cut. */
        out[written] = '\0';
        refused |= strstr(out, "refused") != NULL;
        if (fwrite(out, 1, written, stdout) != written)
            return failed("check_a_job: cannot write the listing");
    } while (told == 0);
    if (fflush(stdout) != 0)
        return failed("check_a_job: cannot write the listing");
    return told != 1 ? 2 : refused;
}
