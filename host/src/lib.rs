//! A safe wrapper over the proved static library: types, the refusals with their meaning, and the calls over slices.
//!
//! The calls are proved to meet their contracts for any record and any slices. What is not proved is this crate: the
//! wrapper, the readers (`reader`, over `text`), what is told of a plan (`explanation`) and of a schedule that is refused (`rules`), dates
//! (`calendar`), the drawing, the page and the command.

pub mod amounts;
pub mod calendar;
pub mod explanation;
mod ffi;
pub mod html;
mod markup;
pub mod nearest;
pub mod reader;
mod refusal;
pub mod rules;
pub mod runs;
pub mod svg;
pub mod text;

pub use refusal::Refusal;
use std::fmt;

/// A limitation of the permit: `None` where the unit is not limited.
pub type Limit = Option<u64>;

/// The clock hours at which a permit lets the unit run, and the date whose midnight opens interval 1.
#[derive(Clone, Copy, Debug, PartialEq, Eq)]
pub struct Window {
    pub year: u64,
    pub month: u64,
    pub day: u64,
    /// Bit h allows clock hour h.
    pub word: u64,
}

impl Window {
    /// Whether the unit may run at a clock hour.
    pub fn allows(&self, hour: u64) -> bool {
        hour < 24 && self.word >> hour & 1 == 1
    }
}

/// The unit record of the specification.
#[derive(Clone, Copy, Debug, PartialEq, Eq)]
pub struct Unit {
    /// MW in one block.
    pub block: u64,
    /// Lowest output when on, in blocks.
    pub pmin: u64,
    /// Highest output when on, in blocks.
    pub pmax: u64,
    /// Minimum on time, in intervals.
    pub mot: u64,
    /// Minimum down time, in intervals.
    pub mdt: u64,
    /// State before interval 1: 0 off, 1 on.
    pub was: u64,
    /// Intervals spent in that state.
    pub held: u64,
    /// Variable energy cost, cents per MWh.
    pub vec: u64,
    /// Minimum load cost, cents per hour.
    pub mlc: u64,
    /// Start-up cost, cents.
    pub suc: u64,
    pub starts: Limit,
    pub hours: Limit,
    pub mwh: Limit,
    /// None where the unit may run at any hour.
    pub window: Option<Window>,
}

/// A unit and the price of each interval, cents per MWh.
#[derive(Clone, Debug, PartialEq, Eq)]
pub struct Case {
    pub unit: Unit,
    pub prices: Vec<i64>,
}

/// The inputs of the cost figures but for the segments. Laid out as the library takes it.
#[repr(C)]
#[derive(Clone, Copy, Debug, PartialEq, Eq)]
pub struct CostInputs {
    pub block: u64,
    pub pmin: u64,
    pub pmax: u64,
    pub gas: u64,
    pub transport: u64,
    pub allowance: u64,
    pub om: u64,
    pub gmc: u64,
    pub rate: u64,
    pub min_heat: u64,
    pub fuel: u64,
    pub aux: u64,
    pub minutes: u64,
    pub start_adder: u64,
    pub load_adder: u64,
}

/// vec, suc and mlc in whole cents.
#[derive(Clone, Copy, Debug, PartialEq, Eq)]
pub struct CostFigures {
    pub vec: u64,
    pub suc: u64,
    pub mlc: u64,
}

/// The inputs of a bid curve but for its points. Laid out as the library takes it.
#[repr(C)]
#[derive(Clone, Copy, Debug, PartialEq, Eq)]
pub struct CurveInputs {
    /// Cents per MMBtu.
    pub gas: u64,
    /// Cents per MWh, as are `gmc` and `adder`.
    pub om: u64,
    pub gmc: u64,
    pub adder: u64,
}

/// A segment of a bid curve: from one level to another, in MW, at one price in cents per MWh.
#[derive(Clone, Copy, Debug, PartialEq, Eq)]
pub struct Segment {
    pub from: u64,
    pub to: u64,
    pub price: i64,
}

/// The two sizes of scratch that a case is planned in. Scratch between them is used as two layers; the cells used are 0 afterwards, those past them
/// as they were.
#[derive(Clone, Copy, Debug, PartialEq, Eq)]
pub struct Cells {
    /// Two layers; fewer are refused.
    pub needed: usize,
    /// The long table, which is somewhat faster on memory that is there already.
    pub table: usize,
}

/// What valuing a limitation comes to.
#[derive(Clone, Copy, Debug, PartialEq, Eq)]
pub enum Outcome {
    /// Not limited.
    None,
    /// Nine tenths of the limitation round to 0.
    Empty,
    /// No schedule keeps the figure one unit less.
    Never,
    /// What one more unit is worth, in quarter-cents.
    Gap(i64),
}

#[derive(Clone, Copy, Debug, PartialEq, Eq)]
pub struct Outcomes {
    pub starts: Outcome,
    pub hours: Outcome,
    pub mwh: Outcome,
}

impl fmt::Display for Outcome {
    fn fmt(&self, f: &mut fmt::Formatter) -> fmt::Result {
        match self {
            Outcome::None => f.write_str("none"),
            Outcome::Empty => f.write_str("empty"),
            Outcome::Never => f.write_str("never"),
            Outcome::Gap(gap) => gap.fmt(f),
        }
    }
}

/// A plan's length and profit, and the three outcomes.
#[derive(Clone, Copy, Debug, PartialEq, Eq)]
pub struct Report {
    pub count: usize,
    pub profit: i64,
    pub outcomes: Outcomes,
}

/// 0 is no refusal.
fn unless_refused<T>(number: u64, answer: T) -> Result<T, Refusal> {
    match number {
        0 => Ok(answer),
        _ => Err(Refusal::from_number(number)),
    }
}

/// The figure that stands for `none` is itself out of every range, and so is the one below it, which is handed over in its place.
fn limit_number(limit: Limit) -> u64 {
    limit.map_or(ffi::NONE, |figure| figure.min(ffi::NONE - 1))
}

fn limit_from(number: u64) -> Limit {
    match number {
        ffi::NONE => None,
        figure => Some(figure),
    }
}

/// Year, month, day and word. One that is `none` by itself is out of its range, as in `limit_number`.
fn window_numbers(window: Option<Window>) -> [u64; 4] {
    window.map_or([ffi::NONE; 4], |w| {
        [w.year, w.month, w.day, w.word].map(|figure| limit_number(Some(figure)))
    })
}

fn window_from(unit: &ffi::UnitNumbers) -> Option<Window> {
    (unit.window != ffi::NONE).then_some(Window {
        year: unit.year,
        month: unit.month,
        day: unit.day,
        word: unit.window,
    })
}

impl Unit {
    /// The word of its permitted hours.
    pub fn word(&self) -> Option<u64> {
        self.window.map(|window| window.word)
    }

    fn numbers(self) -> ffi::UnitNumbers {
        let [year, month, day, window] = window_numbers(self.window);
        ffi::UnitNumbers {
            block: self.block,
            pmin: self.pmin,
            pmax: self.pmax,
            mot: self.mot,
            mdt: self.mdt,
            was: self.was,
            held: self.held,
            vec: self.vec,
            mlc: self.mlc,
            suc: self.suc,
            starts: limit_number(self.starts),
            hours: limit_number(self.hours),
            mwh: limit_number(self.mwh),
            year,
            month,
            day,
            window,
        }
    }

    fn from_numbers(unit: ffi::UnitNumbers) -> Unit {
        Unit {
            block: unit.block,
            pmin: unit.pmin,
            pmax: unit.pmax,
            mot: unit.mot,
            mdt: unit.mdt,
            was: unit.was,
            held: unit.held,
            vec: unit.vec,
            mlc: unit.mlc,
            suc: unit.suc,
            starts: limit_from(unit.starts),
            hours: limit_from(unit.hours),
            mwh: limit_from(unit.mwh),
            window: window_from(&unit),
        }
    }
}

impl Outcome {
    fn numbers(self) -> ffi::OutcomeNumbers {
        let (kind, gap) = match self {
            Outcome::None => (0, 0),
            Outcome::Empty => (1, 0),
            Outcome::Never => (2, 0),
            Outcome::Gap(gap) => (3, gap),
        };
        ffi::OutcomeNumbers { kind, gap }
    }

    fn from_numbers(outcome: ffi::OutcomeNumbers) -> Outcome {
        match outcome.kind {
            1 => Outcome::Empty,
            2 => Outcome::Never,
            3 => Outcome::Gap(outcome.gap),
            _ => Outcome::None,
        }
    }
}

impl Outcomes {
    fn numbers(self) -> ffi::OutcomesNumbers {
        ffi::OutcomesNumbers {
            starts: self.starts.numbers(),
            hours: self.hours.numbers(),
            mwh: self.mwh.numbers(),
        }
    }

    fn from_numbers(outcomes: ffi::OutcomesNumbers) -> Outcomes {
        Outcomes {
            starts: Outcome::from_numbers(outcomes.starts),
            hours: Outcome::from_numbers(outcomes.hours),
            mwh: Outcome::from_numbers(outcomes.mwh),
        }
    }
}

/// The record of a text and how many prices it has, which go into the front of `prices`.
pub fn read_into(text: &[u8], prices: &mut [i64]) -> Result<(Unit, usize), Refusal> {
    // Sound: the pointers and lengths are those of slices that live through the call; the library keeps neither.
    let answer =
        unsafe { ffi::ralwinga_read(text.as_ptr(), text.len(), prices.as_mut_ptr(), prices.len()) };
    unless_refused(
        answer.number,
        (Unit::from_numbers(answer.unit), answer.count),
    )
}

/// The three cost figures of a unit with these segments.
pub fn figures(inputs: CostInputs, mws: &[u64], heats: &[u64]) -> Result<CostFigures, Refusal> {
    // Sound: as in `read_into`.
    let answer = unsafe {
        ffi::ralwinga_figures(inputs, mws.as_ptr(), mws.len(), heats.as_ptr(), heats.len())
    };
    unless_refused(
        answer.number,
        CostFigures {
            vec: answer.vec,
            suc: answer.suc,
            mlc: answer.mlc,
        },
    )
}

/// The bid curve through points of these levels and average heat rates into the front of three lists, a part of each segment in each: its segments.
pub fn curve_into(
    inputs: CurveInputs,
    levels: &[u64],
    rates: &[u64],
    froms: &mut [u64],
    tos: &mut [u64],
    prices: &mut [i64],
) -> Result<usize, Refusal> {
    // Sound: as in `read_into`; the three slices that are written are borrowed by themselves.
    let answer = unsafe {
        ffi::ralwinga_curve(
            inputs,
            levels.as_ptr(),
            levels.len(),
            rates.as_ptr(),
            rates.len(),
            froms.as_mut_ptr(),
            froms.len(),
            tos.as_mut_ptr(),
            tos.len(),
            prices.as_mut_ptr(),
            prices.len(),
        )
    };
    unless_refused(answer.number, answer.count)
}

/// The segments of the bid curve through these points.
pub fn curve(inputs: CurveInputs, levels: &[u64], rates: &[u64]) -> Result<Vec<Segment>, Refusal> {
    let most = levels.len().saturating_sub(1);
    let (mut froms, mut tos, mut prices) = (vec![0; most], vec![0; most], vec![0; most]);
    let count = curve_into(inputs, levels, rates, &mut froms, &mut tos, &mut prices)?;
    let segment = |i| Segment {
        from: froms[i],
        to: tos[i],
        price: prices[i],
    };
    Ok((0..count).map(segment).collect())
}

/// The profit of a schedule handed in, in quarter-cents.
pub fn assess(unit: Unit, prices: &[i64], schedule: &[u64]) -> Result<i64, Refusal> {
    // Sound: as in `read_into`.
    let answer = unsafe {
        ffi::ralwinga_assess(
            unit.numbers(),
            prices.as_ptr(),
            prices.len(),
            schedule.as_ptr(),
            schedule.len(),
        )
    };
    unless_refused(answer.number, answer.profit)
}

/// The cells of scratch of a case of so many intervals.
pub fn cells(unit: Unit, intervals: usize) -> Result<Cells, Refusal> {
    // Sound: only numbers go over.
    let answer = unsafe { ffi::ralwinga_cells(unit.numbers(), intervals) };
    unless_refused(
        answer.number,
        Cells {
            needed: answer.needed,
            table: answer.table,
        },
    )
}

/// The best plan into the front of `schedule`: its length and profit.
pub fn plan_into(
    unit: Unit,
    prices: &[i64],
    scratch: &mut [i64],
    schedule: &mut [u64],
) -> Result<(usize, i64), Refusal> {
    // Sound: as in `read_into`; the two slices that are written are borrowed by themselves.
    let answer = unsafe {
        ffi::ralwinga_plan(
            unit.numbers(),
            prices.as_ptr(),
            prices.len(),
            scratch.as_mut_ptr(),
            scratch.len(),
            schedule.as_mut_ptr(),
            schedule.len(),
        )
    };
    unless_refused(answer.number, (answer.count, answer.profit))
}

/// What one more start, hour and MWh is worth.
pub fn value(unit: Unit, prices: &[i64], scratch: &mut [i64]) -> Result<Outcomes, Refusal> {
    // Sound: as in `read_into`.
    let answer = unsafe {
        ffi::ralwinga_value(
            unit.numbers(),
            prices.as_ptr(),
            prices.len(),
            scratch.as_mut_ptr(),
            scratch.len(),
        )
    };
    unless_refused(answer.number, Outcomes::from_numbers(answer.outcomes))
}

/// Plan and outcomes at once.
pub fn report_into(
    unit: Unit,
    prices: &[i64],
    scratch: &mut [i64],
    schedule: &mut [u64],
) -> Result<Report, Refusal> {
    // Sound: as in `plan_into`.
    let answer = unsafe {
        ffi::ralwinga_report(
            unit.numbers(),
            prices.as_ptr(),
            prices.len(),
            scratch.as_mut_ptr(),
            scratch.len(),
            schedule.as_mut_ptr(),
            schedule.len(),
        )
    };
    unless_refused(
        answer.number,
        Report {
            count: answer.count,
            profit: answer.profit,
            outcomes: Outcomes::from_numbers(answer.outcomes),
        },
    )
}

/// The clock hour of an interval, counted from 1, where interval 1 begins at midnight of a date.
pub fn clock_hour(year: u64, month: u64, day: u64, interval: u64) -> Result<u64, Refusal> {
    // Sound: only numbers go over.
    let answer = unsafe { ffi::ralwinga_clock_hour(year, month, day, interval) };
    unless_refused(answer.number, answer.hour)
}

/// The clock hours of the first intervals, as many as the slice has entries; refused, the slice is as it was.
pub fn clock_hours(year: u64, month: u64, day: u64, hours: &mut [u64]) -> Result<usize, Refusal> {
    // Sound: as in `read_into`.
    let answer =
        unsafe { ffi::ralwinga_clock_hours(year, month, day, hours.as_mut_ptr(), hours.len()) };
    unless_refused(answer.number, answer.count)
}

/// The listing of a plan into the front of `out`: its bytes. `word` is that of its unit's permitted hours.
pub fn write_listing(
    schedule: &[u64],
    profit: i64,
    outcomes: Outcomes,
    word: Option<u64>,
    out: &mut [u8],
) -> Result<usize, Refusal> {
    // Sound: as in `read_into`.
    let answer = unsafe {
        ffi::ralwinga_listing(
            schedule.as_ptr(),
            schedule.len(),
            profit,
            outcomes.numbers(),
            limit_number(word),
            out.as_mut_ptr(),
            out.len(),
        )
    };
    unless_refused(answer.number, answer.bytes)
}

/// The line of a refusal into the front of `out`: its bytes.
pub fn write_refusal(refusal: Refusal, out: &mut [u8]) -> Result<usize, Refusal> {
    // Sound: as in `read_into`.
    let answer = unsafe { ffi::ralwinga_refusal(refusal.number(), out.as_mut_ptr(), out.len()) };
    unless_refused(answer.number, answer.bytes)
}

/// The listing of a plan of a unit, as the proved program prints it.
pub fn listing(unit: &Unit, schedule: &[u64], profit: i64, outcomes: Outcomes) -> Vec<u8> {
    // two numbers of at most 20 digits, a comma and a line end to an interval
    let mut out = vec![0; 42 * schedule.len() + 256];
    let bytes = write_listing(schedule, profit, outcomes, unit.word(), &mut out)
        .expect("the buffer holds any listing, and a unit with a plan is in its ranges");
    out.truncate(bytes);
    out
}

/// The line of a refusal, as the proved program prints it.
pub fn refusal_line(refusal: Refusal) -> Vec<u8> {
    let mut out = vec![0; 64];
    let bytes = write_refusal(refusal, &mut out).expect("the buffer holds any refusal");
    out.truncate(bytes);
    out
}
