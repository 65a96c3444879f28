/* Runs a job text as a board would: lines are read at the record ahead of the knife, as long as it takes them; where 16 blocks wait, the
 * block in work is run to its end and the same line is read again. The tick bytes go to standard output, one byte a tick; at p 50, w 5,000
 * and the widest travel. The text comes from the file that the argument names, or from standard input. Ends with 0 where the text is run to
 * its end; with 1 where a line of it is refused, which it says on standard error, and the blocks before that line are run; and with 2 where
 * the text can't be read, the bytes can't be written or a call is refused for another cause than the line. */
#include <inttypes.h>
#include <stdio.h>
#include <string.h>

#include "verdaizka.h"

static int failed(const char *what)
{
    perror(what);
    return 2;
}

/* The block in work to its end, where the next one comes into work: 0, or 2. */
static int run(vz_record *m)
{
    static uint8_t out[4096];
    int64_t report;
    do {
        uint64_t ticks;
        report = vz_run(m, UINT64_MAX, out, sizeof out, &ticks);
        if (fwrite(out, 1, ticks, stdout) != ticks)
            return failed("run_a_job: cannot write the ticks");
    } while (report == VZ_FULL);
    return report == VZ_ENDED ? 0 : 2;
}

/* The next line of the text without its LF, and where the one after it begins. */
static size_t line_of(const char *text, size_t length, size_t *next)
{
    const char *lf = memchr(text, '\n', length);
    size_t line = lf ? (size_t)(lf - text) : length;
    *next = lf ? line + 1 : length;
    return line;
}

/* No line is refused by 9: something else has written to the record. */
static int refused(size_t line, int64_t number)
{
    fprintf(stderr, "line %zu refused %" PRId64 "\n", line, number);
    return number == VZ_REFUSED_RECORD ? 2 : 1;
}

/* Reads all lines of the text, up to the first that is refused, and runs blocks where no more are taken. */
static int read_lines(vz_record *m, const char *text, size_t length)
{
    vz_known known = VZ_NOTHING_KNOWN;
    size_t next;
    if (length > VZ_TEXT_BYTES)
        return refused(1, VZ_REFUSED_LONG_TEXT);
    for (size_t at = 0, number = 1; at < length; at += next, number++) {
        size_t line = line_of(text + at, length - at, &next);
        int64_t told;
        while ((told = vz_read_line(m, &known, (const uint8_t *)text + at, line)) == -VZ_REFUSED_FULL)
            if (run(m) != 0)
                return 2;
        if (told < 0)
            return refused(number, -told);
    }
    return 0;
}

/* Runs what is in work and what waits: 0, or 2. */
static int run_all(vz_record *m)
{
    int status = 0;
    while (status == 0 && m->word[VZ_WORD_WORK] != 0)
        status = run(m);
    return status;
}

int main(int count, char **arguments)
{
    static char text[VZ_TEXT_BYTES + 1];
    FILE *job = count > 1 ? fopen(arguments[1], "rb") : stdin;
    vz_record m;
    if (job == NULL)
        return failed(arguments[1]);
    size_t length = fread(text, 1, sizeof text, job);
    if (ferror(job))
        return failed("run_a_job: cannot read the job");
    if (vz_make(&m, 50, 5000, -1000000, 1000000, -1000000, 1000000) != 0)
        return 2;
    int status = read_lines(&m, text, length);
    if (status != 2 && run_all(&m) != 0)
        status = 2;
    return fflush(stdout) == 0 ? status : failed("run_a_job: cannot write the ticks");
}
