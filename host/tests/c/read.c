/* A host in C: the case on standard input to the numbers of its record, over the header alone. */
#include "ralwinga.h"
#include <inttypes.h>
#include <stdio.h>

static uint8_t text[12289];
static int64_t prices[6144];

int main(void) {
    size_t length = fread(text, 1, sizeof text, stdin);
    struct ralwinga_case read = ralwinga_read(text, length, prices, 6144);
    struct ralwinga_unit u = read.unit;
    const uint64_t figures[] = {u.block, u.pmin, u.pmax, u.mot,   u.mdt, u.was,  u.held,  u.vec, u.mlc,
                                u.suc,   u.starts, u.hours, u.mwh, u.year, u.month, u.day, u.window};
    printf("%" PRIu64 " %zu", read.number, read.count);
    for (size_t i = 0; i < sizeof figures / sizeof *figures; i++)
        printf(" %" PRIu64, figures[i]);
    putchar('\n');
    return 0;
}
