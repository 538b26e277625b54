/* The proved planner for hosts in C: link libexports.a, which `rt lib` in crates/exports writes to its folder out.
 *
 * Every call answers, whatever record, text or slices it is given. A slice is a pointer and a length in entries; the pointer is to that many
 * entries that live through the call and that no other argument shares, and is aligned and not null even where the length is 0.
 * `number` in an answer is 0, or that of the refusal's cause (docs/CASE.md); then limitations and outcomes are none, and every other number is 0,
 * year, month, day and window too.
 * Profits and gaps are in quarter-cents.
 */
#ifndef RALWINGA_H
#define RALWINGA_H

#include <stddef.h>
#include <stdint.h>

#ifdef __cplusplus
extern "C" {
#endif

/* `none` as the figure of a limitation, and as each of year, month, day and window of a unit that may run at any hour. */
#define RALWINGA_NONE UINT64_MAX

/* Interval 1 begins at midnight of the date; bit h of `window` allows clock hour h. */
struct ralwinga_unit {
    uint64_t block, pmin, pmax, mot, mdt, was, held, vec, mlc, suc;
    uint64_t starts, hours, mwh;
    uint64_t year, month, day, window;
};

enum { RALWINGA_OUTCOME_NONE, RALWINGA_OUTCOME_EMPTY, RALWINGA_OUTCOME_NEVER, RALWINGA_OUTCOME_GAP };

/* `gap` is 0 unless `kind` is RALWINGA_OUTCOME_GAP. */
struct ralwinga_outcome {
    uint64_t kind;
    int64_t gap;
};

struct ralwinga_outcomes {
    struct ralwinga_outcome starts, hours, mwh;
};

struct ralwinga_cost_inputs {
    uint64_t block, pmin, pmax;
    uint64_t gas, transport, allowance, om, gmc, rate;
    uint64_t min_heat, fuel, aux, minutes, start_adder, load_adder;
};

struct ralwinga_curve_inputs {
    uint64_t gas, om, gmc, adder;
};

struct ralwinga_case {
    uint64_t number;
    size_t count;
    struct ralwinga_unit unit;
};

struct ralwinga_figures {
    uint64_t number, vec, suc, mlc;
};

struct ralwinga_curve {
    uint64_t number;
    size_t count;
};

struct ralwinga_assessment {
    uint64_t number;
    int64_t profit;
};

struct ralwinga_cells {
    uint64_t number;
    size_t needed, table;
};

struct ralwinga_plan {
    uint64_t number;
    size_t count;
    int64_t profit;
};

struct ralwinga_valuation {
    uint64_t number;
    struct ralwinga_outcomes outcomes;
};

struct ralwinga_report {
    uint64_t number;
    size_t count;
    int64_t profit;
    struct ralwinga_outcomes outcomes;
};

struct ralwinga_clock {
    uint64_t number, hour;
};

struct ralwinga_hours {
    uint64_t number;
    size_t count;
};

struct ralwinga_written {
    uint64_t number;
    size_t bytes;
};

/* The record of a text; its `count` prices go into the front of `prices`. */
struct ralwinga_case ralwinga_read(const uint8_t *text, size_t text_len, int64_t *prices, size_t prices_len);

/* Cost figures of a unit with segments of these MW and heat rates. */
struct ralwinga_figures ralwinga_figures(struct ralwinga_cost_inputs inputs, const uint64_t *mws, size_t mws_len,
                                         const uint64_t *heats, size_t heats_len);

/* The bid curve through points of these levels in MW and average heat rates. Segment i of its `count` is from froms[i] to tos[i] MW at prices[i] cents
 * per MWh, which can be below 0. Each of the three lists has at least one entry less than there are points; what is past `count` stays as it is. */
struct ralwinga_curve ralwinga_curve(struct ralwinga_curve_inputs inputs, const uint64_t *levels, size_t levels_len,
                                     const uint64_t *rates, size_t rates_len, uint64_t *froms, size_t froms_len,
                                     uint64_t *tos, size_t tos_len, int64_t *prices, size_t prices_len);

/* The profit of a schedule handed in. */
struct ralwinga_assessment ralwinga_assess(struct ralwinga_unit unit, const int64_t *prices, size_t prices_len,
                                           const uint64_t *schedule, size_t schedule_len);

/* The cells of scratch of a case of so many intervals: `needed`, in two layers, and `table`, in the long table.
 * A call lent `table` cells or more uses the long table, else two layers, and refuses with 8 where it is lent fewer than `needed`. The long table is
 * somewhat faster on memory that is there already. The cells used are 0 afterwards and those past them as they were. */
struct ralwinga_cells ralwinga_cells(struct ralwinga_unit unit, size_t intervals);

/* The best plan into the front of `schedule`. */
struct ralwinga_plan ralwinga_plan(struct ralwinga_unit unit, const int64_t *prices, size_t prices_len, int64_t *scratch,
                                   size_t scratch_len, uint64_t *schedule, size_t schedule_len);

/* What one more start, hour and MWh is worth. */
struct ralwinga_valuation ralwinga_value(struct ralwinga_unit unit, const int64_t *prices, size_t prices_len,
                                         int64_t *scratch, size_t scratch_len);

/* Plan and outcomes at once. */
struct ralwinga_report ralwinga_report(struct ralwinga_unit unit, const int64_t *prices, size_t prices_len, int64_t *scratch,
                                       size_t scratch_len, uint64_t *schedule, size_t schedule_len);

/* The clock hour of an interval, counted from 1, where interval 1 begins at midnight of the date. */
struct ralwinga_clock ralwinga_clock_hour(uint64_t year, uint64_t month, uint64_t day, uint64_t interval);

/* The clock hours of the first hours_len intervals, 1 to 2,976 of them, where interval 1 begins at midnight of the date. */
struct ralwinga_hours ralwinga_clock_hours(uint64_t year, uint64_t month, uint64_t day, uint64_t *hours, size_t hours_len);

/* The listing of a plan into the front of `out`. `window` is its unit's, RALWINGA_NONE where that has none. */
struct ralwinga_written ralwinga_listing(const uint64_t *schedule, size_t schedule_len, int64_t profit,
                                         struct ralwinga_outcomes outcomes, uint64_t window, uint8_t *out, size_t out_len);

/* The line of a refusal into the front of `out`. */
struct ralwinga_written ralwinga_refusal(uint64_t number, uint8_t *out, size_t out_len);

#ifdef __cplusplus
}
#endif

#endif
