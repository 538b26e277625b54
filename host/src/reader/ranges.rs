//! The ranges of values and the horizon, asked of the library, so that they stand there alone.

use super::{judge, price, unit_of};
use crate::text::{Cell, Fault, Value, LARGEST};
use crate::{cells, Refusal};
use std::sync::OnceLock;

/// Values that are in order: 1 is in every range but that of years.
pub const fn in_order<const N: usize>() -> [Value; N] {
    [Some(1); N]
}

/// A date that exists in any month, and a word.
pub const WINDOW_IN_ORDER: [Value; 4] = [Some(2024), Some(1), Some(1), Some(1)];

/// The last of the numbers from `taken` on that the library takes: those up to it are taken, `beyond` and those behind it are not.
fn last_taken(taken: i64, beyond: i64, takes: impl Fn(i64) -> bool) -> i64 {
    let (mut taken, mut beyond) = (taken, beyond);
    while taken.abs_diff(beyond) > 1 {
        let middle = taken + (beyond - taken) / 2;
        if takes(middle) {
            taken = middle;
        } else {
            beyond = middle;
        }
    }
    taken
}

/// The least and the greatest that the library takes, about a value that it takes.
fn range(about: i64, takes: impl Fn(i64) -> bool) -> (i64, i64) {
    let least = last_taken(about, -LARGEST - 1, &takes);
    (least, last_taken(about, LARGEST + 1, &takes))
}

/// What the library says of a price beside values in order.
pub fn price_refusal([value]: [Value; 1]) -> Option<Refusal> {
    judge(unit_of(in_order(), None), &[price(value)]).err()
}

/// The range of prices.
pub fn price_range() -> (i64, i64) {
    static RANGE: OnceLock<(i64, i64)> = OnceLock::new();
    let takes = |number| price_refusal([Some(number)]) != Some(Refusal::Range);
    *RANGE.get_or_init(|| range(1, takes))
}

/// No horizon has as many intervals.
const NO_HORIZON: i64 = 1 << 40;

/// The most prices that a case has.
pub fn horizon() -> usize {
    static MOST: OnceLock<usize> = OnceLock::new();
    let unit = unit_of(in_order(), None);
    let takes = |intervals| cells(unit, intervals as usize) != Err(Refusal::Horizon);
    *MOST.get_or_init(|| last_taken(1, NO_HORIZON, takes) as usize)
}

/// The first cell of a row that is outside its range when it alone takes its place among values in order.
pub fn first_out<const N: usize>(
    names: [&str; N],
    in_order: [Value; N],
    row: &[Cell; N],
    asked: impl Fn([Value; N]) -> Option<Refusal>,
) -> Option<Fault> {
    let takes = |place: usize, value: Value| {
        let mut values = in_order;
        values[place] = value;
        asked(values) != Some(Refusal::Range)
    };
    let place = (0..N).find(|place| !takes(*place, row[*place].value))?;
    let about = in_order[place].expect("a number is in every range");
    let (least, most) = range(about, |number| takes(place, Some(number)));
    let none = if takes(place, None) { ", or none" } else { "" };
    let (name, field) = (names[place], row[place].field);
    let said = format!("{name} {field} is outside its range, {least} to {most}{none}");
    Some(Fault::at(Refusal::Range, field, said))
}
