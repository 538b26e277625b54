/* A host in C: the case on standard input to its listing, over the header alone. With a word it is planned in two layers. */
#include "ralwinga.h"
#include <stdio.h>
#include <stdlib.h>

static uint8_t text[12289], out[65536];
static int64_t prices[6144];
static uint64_t schedule[6144];

static int print(struct ralwinga_written written) {
    fwrite(out, 1, written.bytes, stdout);
    return written.number != 0;
}

int main(int words, char **given) {
    (void)given;
    size_t length = fread(text, 1, sizeof text, stdin);
    struct ralwinga_case read = ralwinga_read(text, length, prices, 6144);
    if (read.number != 0)
        return print(ralwinga_refusal(read.number, out, sizeof out));
    struct ralwinga_cells sizes = ralwinga_cells(read.unit, read.count);
    size_t lent = words > 1 ? sizes.needed : sizes.table;
    int64_t *scratch = calloc(lent, sizeof *scratch);
    if (scratch == NULL)
        return 1;
    struct ralwinga_report report =
        ralwinga_report(read.unit, prices, read.count, scratch, lent, schedule, 6144);
    struct ralwinga_written written =
        report.number != 0 ? ralwinga_refusal(report.number, out, sizeof out)
                           : ralwinga_listing(schedule, report.count, report.profit, report.outcomes, read.unit.window, out,
                                              sizeof out);
    free(scratch);
    return print(written);
}
