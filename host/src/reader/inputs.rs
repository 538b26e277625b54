//! The inputs of cost figures and of a bid curve.

use super::ranges::{first_out, in_order};
use super::{natural, of_held};
use crate::text::{two_tables, Cell, Fault, ReadError, Value};
use crate::{curve, figures};
use crate::{CostFigures, CostInputs, CurveInputs, Refusal, Segment};
use std::io::BufRead;

const COST_NAMES: [&str; 15] = [
    "block",
    "pmin",
    "pmax",
    "gas",
    "transport",
    "allowance",
    "om",
    "gmc",
    "rate",
    "minheat",
    "fuel",
    "aux",
    "minutes",
    "startadder",
    "loadadder",
];

const CURVE_NAMES: [&str; 4] = ["gas", "om", "gmc", "adder"];

/// The entries of a list that are held, more than the library takes of any.
const MOST_HELD: usize = 64;

/// A table of two columns, of which the first entries are held and all are counted.
struct Pairs {
    firsts: Vec<u64>,
    seconds: Vec<u64>,
    count: usize,
    /// What is wrong with the first of them that is outside its range.
    out: Option<Fault>,
}

impl Pairs {
    fn new() -> Pairs {
        Pairs {
            firsts: Vec::new(),
            seconds: Vec::new(),
            count: 0,
            out: None,
        }
    }

    /// One more; `asked` is what the library says of two values beside others in order.
    fn take(
        &mut self,
        names: [&str; 2],
        row: &[Cell; 2],
        asked: impl Fn([Value; 2]) -> Option<Refusal>,
    ) {
        self.count += 1;
        if self.count > MOST_HELD {
            return;
        }
        if self.out.is_none() {
            self.out = first_out(names, in_order(), row, asked);
        }
        self.firsts.push(natural(row[0].value));
        self.seconds.push(natural(row[1].value));
    }
}

/// The cost figures of a text of inputs.
pub fn figures_from(input: impl BufRead) -> Result<CostFigures, ReadError> {
    let mut segments = Pairs::new();
    let (table, second) = two_tables(input, ["mw", "heat"], |row| {
        segments.take(["mw", "heat"], &row, |[mw, heat]| {
            figures(inputs_of(in_order()), &[natural(mw)], &[natural(heat)]).err()
        });
        Ok(())
    })?;
    let row = table.row(COST_NAMES)?;
    let line = second?;
    let inputs = inputs_of(row.map(|cell| cell.value));
    let answer = figures(inputs, &segments.firsts, &segments.seconds);
    Ok(answer.map_err(|refusal| match refusal {
        Refusal::Range => out_of_inputs(&row, segments, line),
        _ => refusal.into(),
    })?)
}

/// The cost figures of a text that is held.
pub fn read_figures(text: &[u8]) -> Result<CostFigures, Fault> {
    of_held(figures_from(text))
}

/// The first value of cost inputs that is outside its range, or else the number of segments.
fn out_of_inputs(row: &[Cell; 15], segments: Pairs, line: usize) -> Fault {
    first_out(COST_NAMES, in_order(), row, |values| {
        figures(inputs_of(values), &[], &[]).err()
    })
    .or(segments.out)
    .unwrap_or_else(|| {
        let said = format!("{} segments, more than there may be", segments.count);
        Fault::in_line(Refusal::Range, line, said)
    })
}

/// The bid curve of a text of inputs and points.
pub fn curve_from(input: impl BufRead) -> Result<Vec<Segment>, ReadError> {
    let mut points = Pairs::new();
    let mut rising = Rising::default();
    let (table, second) = two_tables(input, ["level", "rate"], |row| {
        rising.take(&row[0]);
        // one point twice: what is in its range is refused for its levels
        points.take(["level", "rate"], &row, |[level, rate]| {
            let (levels, rates) = ([natural(level); 2], [natural(rate); 2]);
            curve(curve_inputs_of(in_order()), &levels, &rates).err()
        });
        Ok(())
    })?;
    let row = table.row(CURVE_NAMES)?;
    let line = second?;
    let inputs = curve_inputs_of(row.map(|cell| cell.value));
    let answer = curve(inputs, &points.firsts, &points.seconds);
    Ok(answer.map_err(|refusal| match refusal {
        Refusal::Range => out_of_curve(&row, points, line),
        Refusal::Levels => rising.fault.unwrap_or(refusal.into()),
        _ => refusal.into(),
    })?)
}

/// The bid curve of a text that is held.
pub fn read_curve(text: &[u8]) -> Result<Vec<Segment>, Fault> {
    of_held(curve_from(text))
}

/// The first value of a curve's inputs or points that is outside its range, or else the number of points.
fn out_of_curve(row: &[Cell; 4], points: Pairs, line: usize) -> Fault {
    first_out(CURVE_NAMES, in_order(), row, |values| {
        curve(curve_inputs_of(values), &[1, 2], &[1, 1]).err()
    })
    .or(points.out)
    .unwrap_or_else(|| {
        let said = format!(
            "the number of points, {}, is outside its range",
            points.count
        );
        Fault::in_line(Refusal::Range, line, said)
    })
}

/// The first level that is not over the one before it.
#[derive(Default)]
struct Rising {
    before: Option<(Value, String)>,
    fault: Option<Fault>,
}

impl Rising {
    fn take(&mut self, level: &Cell) {
        let field = level.field;
        if let (Some((value, shown)), None) = (&self.before, &self.fault) {
            if level.value <= *value {
                let said = format!("level {field} is not over {shown}");
                self.fault = Some(Fault::at(Refusal::Levels, field, said));
            }
        }
        self.before = Some((level.value, field.to_string()));
    }
}

/// The inputs of the values under `COST_NAMES`.
fn inputs_of(values: [Value; 15]) -> CostInputs {
    let [block, pmin, pmax, gas, transport, allowance, om, gmc, rate, min_heat, fuel, aux, minutes, start_adder, load_adder] =
        values.map(natural);
    CostInputs {
        block,
        pmin,
        pmax,
        gas,
        transport,
        allowance,
        om,
        gmc,
        rate,
        min_heat,
        fuel,
        aux,
        minutes,
        start_adder,
        load_adder,
    }
}

/// The inputs of the values under `CURVE_NAMES`.
fn curve_inputs_of(values: [Value; 4]) -> CurveInputs {
    let [gas, om, gmc, adder] = values.map(natural);
    CurveInputs {
        gas,
        om,
        gmc,
        adder,
    }
}
