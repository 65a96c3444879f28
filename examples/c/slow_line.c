/* Lists a job text that comes over a slow line, seven bytes at a time, as a panel does whose memory can't hold the text: it keeps 81 bytes
 * of the job and writes each row as soon as its line is whole. At p 50, w 5,000 and the widest travel. The text comes from the file that
 * the argument names, or from standard input. Ends with 0 where the text is listed to its end, with 1 where a line of it is refused, and
 * with 2 where it can't be read, the listing can't be written or a call is refused. */
#include <stdio.h>

#include "verdaizka.h"

enum { AT_A_TIME = 7 };

static int failed(const char *what)
{
    perror(what);
    return 2;
}

int main(int count, char **arguments)
{
    FILE *job = count > 1 ? fopen(arguments[1], "rb") : stdin;
    vz_bench bench;
    vz_panel panel;
    uint8_t piece[AT_A_TIME], scratch[VZ_SCRATCH_BYTES], row[VZ_ROW_BYTES];
    size_t at = AT_A_TIME, length = AT_A_TIME; /* a piece that is used up; once the text has ended it is one of 0 bytes */
    int refused = 0;
    if (job == NULL)
        return failed(arguments[1]);
    int64_t told = vz_panel_start(&bench, &panel, 50, 5000, -1000000, 1000000, -1000000, 1000000);
    while (told == VZ_PANEL_MORE) {
        uint64_t took, written;
        if (at == length && length > 0) {
            length = fread(piece, 1, sizeof piece, job);
            at = 0;
            /* What came before a read that failed is not the job. */
            if (ferror(job))
                return failed("slow_line: cannot read the job");
        }
        told = vz_panel_read(&bench, &panel, scratch, sizeof scratch, piece + at, length - at, length == 0, row, sizeof row, &took,
                             &written);
        at += took;
        /* Of all rows only that of a refused line begins so. */
        refused |= written > 0 && row[0] == 'l';
        if (fwrite(row, 1, written, stdout) != written || (written > 0 && fflush(stdout) != 0))
            return failed("slow_line: cannot write the listing");
    }
    return told != VZ_PANEL_OVER ? 2 : refused;
}
