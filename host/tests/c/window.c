/* A host in C: lines of year, month, day and window on standard input to what each call answers for one unit with them, over the header alone. */
#include "ralwinga.h"
#include <inttypes.h>
#include <stdio.h>

enum { INTERVALS = 6, CELLS = 588 };

static const int64_t prices[INTERVALS] = {2000, 9000, 8000, 1000, 7000, 10000};
static const uint64_t off[INTERVALS];
static int64_t scratch[CELLS];
static uint64_t schedule[INTERVALS];
static uint8_t out[256];

int main(void) {
    uint64_t year, month, day, window;
    while (scanf("%" SCNu64 "%" SCNu64 "%" SCNu64 "%" SCNu64, &year, &month, &day, &window) == 4) {
        struct ralwinga_unit unit = {10, 1, 2, 2, 2, 0, 2, 3000, 30000, 5000, 2, 2, RALWINGA_NONE, year, month, day, window};
        struct ralwinga_cells cells = ralwinga_cells(unit, INTERVALS);
        struct ralwinga_assessment assessment = ralwinga_assess(unit, prices, INTERVALS, off, INTERVALS);
        struct ralwinga_plan plan = ralwinga_plan(unit, prices, INTERVALS, scratch, CELLS, schedule, INTERVALS);
        struct ralwinga_valuation value = ralwinga_value(unit, prices, INTERVALS, scratch, CELLS);
        struct ralwinga_report report = ralwinga_report(unit, prices, INTERVALS, scratch, CELLS, schedule, INTERVALS);
        struct ralwinga_clock clock = ralwinga_clock_hour(year, month, day, INTERVALS);
        struct ralwinga_written written =
            ralwinga_listing(off, INTERVALS, 0, report.outcomes, window, out, sizeof out);
        printf("%" PRIu64 ",%zu,%zu,%" PRIu64 ",%" PRIu64 ",%zu,%" PRId64 ",%" PRIu64 ",%" PRIu64 ",%" PRId64, cells.number, cells.needed,
               cells.table, assessment.number, plan.number, plan.count, plan.profit, value.number, report.number, report.profit);
        printf(",%" PRIu64 ",%" PRIu64 ",%" PRIu64 "\n", clock.number, clock.hour, written.number);
    }
    return 0;
}
