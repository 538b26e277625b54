//! What a host reads: a case of any length and the schedule of a listing here, cost inputs and the points of a bid curve in `inputs`.
//!
//! A case goes through the proved reader wherever that takes its text, and only longer texts through the reader here, which tests hold to the
//! proved one. Texts are read as a stream: a line and the entries that an answer needs are held, and the rest is judged and let go. Form and names
//! are judged here; the ranges, the levels, the shape, the horizon and the segments are the library's to judge. Nothing here is proved.

mod inputs;
mod ranges;

pub use inputs::{curve_from, figures_from, read_curve, read_figures};
pub use ranges::horizon;

use crate::amounts::grouped;
use crate::text::{leading_table, reserve, two_tables, Cell, Fault, FirstTable, ReadError, Value};
use crate::{assess, cells, read_into};
use crate::{Case, Refusal, Unit, Window};
use ranges::{first_out, in_order, price_range, WINDOW_IN_ORDER};
use std::array;
use std::io::{BufRead, BufReader, Read};

/// The longest text that the proved reader takes, and the prices that no such text outgrows.
pub const MOST_BYTES: usize = 12_288;
const MOST_PRICES: usize = 6_144;

/// The bytes of a long text that are asked for at a time.
const BUFFER: usize = 1 << 16;

/// What a field holds that its record cannot: below 0, or `none` where it may not stand. No range reaches it.
pub(crate) const BEYOND: u64 = 10_000_000_000;

pub const UNIT_NAMES: [&str; 13] = [
    "block", "pmin", "pmax", "mot", "mdt", "was", "held", "vec", "mlc", "suc", "starts", "hours",
    "mwh",
];

/// All of them stand beside `UNIT_NAMES`, or none.
pub const WINDOW_NAMES: [&str; 4] = ["year", "month", "day", "window"];

/// The case of a text of any length, or the refusal, with its place where it is 1, 2, 3, 5 or 12.
pub fn case_from(mut input: impl Read) -> Result<Case, ReadError> {
    let mut front = Vec::new();
    reserve(&mut front, MOST_BYTES + 1)?;
    let most = MOST_BYTES as u64 + 1;
    input.by_ref().take(most).read_to_end(&mut front)?;
    if front.len() <= MOST_BYTES {
        return Ok(short_case(&front)?);
    }
    long_case(BufReader::with_capacity(BUFFER, front.chain(input)))
}

/// The case of a text that is held.
pub fn read_case(text: &[u8]) -> Result<Case, Fault> {
    of_held(case_from(text))
}

/// The case of a text of any length, by the reader here.
pub fn read_long_case(text: &[u8]) -> Result<Case, Fault> {
    of_held(long_case(text))
}

/// A text that is held is always read.
fn of_held<T>(answer: Result<T, ReadError>) -> Result<T, Fault> {
    answer.map_err(|error| match error {
        ReadError::Refused(fault) => fault,
        ReadError::Unread(error) => panic!("{error}"),
    })
}

/// The case of a text of at most `MOST_BYTES`. The number is the proved reader's; the place is told where both readers see the same cause.
fn short_case(text: &[u8]) -> Result<Case, Fault> {
    let mut prices = vec![0; MOST_PRICES];
    match read_into(text, &mut prices) {
        Ok((unit, count)) => {
            prices.truncate(count);
            Ok(Case { unit, prices })
        }
        Err(refusal) => Err(match read_long_case(text) {
            Err(fault) if fault.refusal == refusal => fault,
            _ => refusal.into(),
        }),
    }
}

fn long_case(input: impl BufRead) -> Result<Case, ReadError> {
    let mut prices = Prices::new();
    let (table, second) = two_tables(input, ["price"], |[cell]| prices.take(cell))?;
    let row = UnitRow::of(&table)?;
    let line = second?;
    let unit = row.unit();
    let refusal = match judge(unit, &prices.held) {
        // a price that was let go can be out of its range, too, which comes before every cause but that
        _ if prices.out.is_some() => Refusal::Range,
        Ok(()) => {
            let prices = prices.held;
            return Ok(Case { unit, prices });
        }
        Err(refusal) => refusal,
    };
    let fault = match refusal {
        Refusal::Range => out_of_case(&row, prices.out),
        Refusal::Date => no_date(&row),
        Refusal::Horizon => prices.count_is_out(line),
        refusal => refusal.into(),
    };
    Err(fault.into())
}

/// The prices of a text: as many as a horizon has and one more are held, all are judged and counted.
struct Prices {
    held: Vec<i64>,
    count: usize,
    most: usize,
    range: (i64, i64),
    /// The first that is outside its range.
    out: Option<Fault>,
}

impl Prices {
    fn new() -> Prices {
        Prices {
            held: Vec::new(),
            count: 0,
            most: horizon() + 1,
            range: price_range(),
            out: None,
        }
    }

    fn take(&mut self, cell: Cell) -> Result<(), ReadError> {
        let price = price(cell.value);
        let (least, most) = self.range;
        if !(least..=most).contains(&price) && self.out.is_none() {
            self.out = first_out(["price"], in_order(), &[cell], ranges::price_refusal);
        }
        if self.held.len() < self.most {
            reserve(&mut self.held, 1)?;
            self.held.push(price);
        }
        self.count += 1;
        Ok(())
    }

    /// No prices, or more than a horizon has, under the name in this line.
    fn count_is_out(&self, line: usize) -> Fault {
        let (count, most) = (grouped(self.count as u64), grouped(horizon() as u64));
        let said = match self.count {
            0 => format!("no price is here; a case has 1 to {most} prices"),
            _ => {
                format!("{count} prices, and a case has at most {most}: this is the first too many")
            }
        };
        Fault::in_line(
            Refusal::Horizon,
            line + self.count.min(self.most).max(1),
            said,
        )
    }
}

/// The line of values of a case: those under `UNIT_NAMES`, and those under `WINDOW_NAMES` where these stand there.
struct UnitRow<'a> {
    unit: [Cell<'a>; 13],
    window: Option<[Cell<'a>; 4]>,
}

impl<'a> UnitRow<'a> {
    fn of(table: &'a FirstTable) -> Result<UnitRow<'a>, Fault> {
        let names = table.names()?;
        if !WINDOW_NAMES.iter().any(|name| names.has(name)) {
            let unit = table.row(UNIT_NAMES)?;
            return Ok(UnitRow { unit, window: None });
        }
        let names: [&str; 17] = array::from_fn(|i| match i.checked_sub(UNIT_NAMES.len()) {
            None => UNIT_NAMES[i],
            Some(i) => WINDOW_NAMES[i],
        });
        let row = table.row(names)?;
        Ok(UnitRow {
            unit: array::from_fn(|i| row[i]),
            window: Some(array::from_fn(|i| row[UNIT_NAMES.len() + i])),
        })
    }

    fn unit(&self) -> Unit {
        let window = self.window.map(|row| row.map(|cell| cell.value));
        unit_of(self.unit.map(|cell| cell.value), window)
    }
}

/// 3, 4, 12 or 5 of a case, by the library: a schedule of no interval is refused for the case's own causes first, and for its length where the case is
/// in order.
fn judge(unit: Unit, prices: &[i64]) -> Result<(), Refusal> {
    match assess(unit, prices, &[]) {
        Err(Refusal::Length) => Ok(()),
        Err(refusal) => Err(refusal),
        Ok(_) => unreachable!("a case has prices, and this schedule has no interval"),
    }
}

/// The schedule of a listing.
#[derive(Clone, Debug, PartialEq, Eq)]
pub struct HandedIn {
    /// The outputs in MW, as many as a horizon has and one more at most.
    pub outputs: Vec<u64>,
    /// All the intervals that the listing has.
    pub count: usize,
}

/// The line of an interval, counted from 1, behind the names.
pub fn line_of(interval: usize) -> usize {
    interval + 1
}

/// The schedule of a listing, from its first table. What is no output of the unit is left to the library, which gives 10.
pub fn schedule_from(input: impl BufRead) -> Result<HandedIn, ReadError> {
    let mut handed_in = HandedIn {
        outputs: Vec::new(),
        count: 0,
    };
    let most = horizon() + 1;
    let mut out_of_sequence: Option<Fault> = None;
    leading_table(input, ["interval", "mw"], |[interval, mw]| {
        let HandedIn { outputs, count } = &mut handed_in;
        *count += 1;
        if interval.value != Some(*count as i64) && out_of_sequence.is_none() {
            let said = format!("{} stands where interval {count} belongs", interval.field);
            out_of_sequence = Some(Fault::at(Refusal::Range, interval.field, said));
        }
        if outputs.len() < most {
            reserve(outputs, 1)?;
            outputs.push(natural(mw.value));
        }
        Ok(())
    })?;
    match out_of_sequence {
        Some(fault) => Err(fault.into()),
        None => Ok(handed_in),
    }
}

/// The schedule of a listing that is held.
pub fn read_schedule(text: &[u8]) -> Result<HandedIn, Fault> {
    of_held(schedule_from(text))
}

/// The first value of a case that is outside its range: of the unit, of its window, or else the price.
fn out_of_case(row: &UnitRow, price: Option<Fault>) -> Fault {
    first_out(UNIT_NAMES, in_order(), &row.unit, |values| {
        cells(unit_of(values, None), 1).err()
    })
    .or_else(|| {
        let window = row.window.as_ref()?;
        first_out(WINDOW_NAMES, WINDOW_IN_ORDER, window, |values| {
            cells(unit_of(in_order(), Some(values)), 1).err()
        })
    })
    .or(price)
    .unwrap_or(Refusal::Range.into())
}

/// A date that does not exist, at its day.
fn no_date(row: &UnitRow) -> Fault {
    match row.window {
        Some([year, month, day, _]) => {
            let said = format!(
                "there is no day {} in month {} of {}",
                day.field, month.field, year.field
            );
            Fault::at(Refusal::Date, day.field, said)
        }
        None => Refusal::Date.into(),
    }
}

/// A number of a record that has none below 0.
fn natural(value: Value) -> u64 {
    value
        .and_then(|number| u64::try_from(number).ok())
        .unwrap_or(BEYOND)
}

fn price(value: Value) -> i64 {
    value.unwrap_or(BEYOND as i64)
}

/// The record of the values under `UNIT_NAMES`, and under `WINDOW_NAMES` where these stand there.
fn unit_of(values: [Value; 13], window: Option<[Value; 4]>) -> Unit {
    let limit = |value: Value| value.map(|number| natural(Some(number)));
    let [block, pmin, pmax, mot, mdt, was, held, vec, mlc, suc, starts, hours, mwh] = values;
    Unit {
        block: natural(block),
        pmin: natural(pmin),
        pmax: natural(pmax),
        mot: natural(mot),
        mdt: natural(mdt),
        was: natural(was),
        held: natural(held),
        vec: natural(vec),
        mlc: natural(mlc),
        suc: natural(suc),
        starts: limit(starts),
        hours: limit(hours),
        mwh: limit(mwh),
        window: window.map(|values| {
            let [year, month, day, word] = values.map(natural);
            Window {
                year,
                month,
                day,
                word,
            }
        }),
    }
}
