/* A host in C: gas, om, gmc, adder, how many points, their levels and their rates on standard input to the lines of the bid curve, over the header
 * alone. */
#include "ralwinga.h"
#include <inttypes.h>
#include <stdio.h>

enum { MOST = 16 };

static uint64_t levels[MOST], rates[MOST], froms[MOST], tos[MOST];
static int64_t prices[MOST];

static int read_list(uint64_t *list, size_t length) {
    for (size_t i = 0; i < length; i++)
        if (scanf("%" SCNu64, &list[i]) != 1)
            return 0;
    return 1;
}

int main(void) {
    uint64_t given[5];
    if (!read_list(given, 5) || given[4] > MOST || !read_list(levels, given[4]) || !read_list(rates, given[4]))
        return 2;
    struct ralwinga_curve_inputs inputs = {given[0], given[1], given[2], given[3]};
    struct ralwinga_curve curve =
        ralwinga_curve(inputs, levels, given[4], rates, given[4], froms, MOST, tos, MOST, prices, MOST);
    if (curve.number != 0) {
        printf("refused,%" PRIu64 "\n", curve.number);
        return 1;
    }
    puts("from,to,price");
    for (size_t i = 0; i < curve.count; i++)
        printf("%" PRIu64 ",%" PRIu64 ",%" PRId64 "\n", froms[i], tos[i], prices[i]);
    return 0;
}
