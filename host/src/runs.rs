//! A plan as runs: when the unit is on, at which outputs, and what that earns. The sums are this module's own, by formula 7; tests hold them to
//! the library's profit.

use crate::{Case, Unit};

/// Intervals in a row at one output, and what they earn in quarter-cents.
#[derive(Clone, Debug, PartialEq, Eq)]
pub struct Stretch {
    /// The places of the first interval and of the last, counted from 0.
    pub first: usize,
    pub last: usize,
    pub mw: u64,
    pub earned: i64,
}

impl Stretch {
    /// Intervals, which are quarter-hours.
    pub fn length(&self) -> u64 {
        (self.last - self.first + 1) as u64
    }

    /// Quarters of a MWh.
    pub fn output(&self) -> u64 {
        self.mw * self.length()
    }
}

/// Intervals in a row that are on. There is at least one stretch.
#[derive(Clone, Debug, PartialEq, Eq)]
pub struct Run {
    pub stretches: Vec<Stretch>,
    /// What its start cost in quarter-cents; none of a run begun before interval 1.
    pub start: Option<i64>,
}

impl Run {
    pub fn first(&self) -> usize {
        self.stretches[0].first
    }

    pub fn last(&self) -> usize {
        self.stretches[self.stretches.len() - 1].last
    }

    /// Quarter-hours.
    pub fn length(&self) -> u64 {
        self.stretches.iter().map(Stretch::length).sum()
    }

    /// Quarters of a MWh.
    pub fn output(&self) -> u64 {
        self.stretches.iter().map(Stretch::output).sum()
    }

    /// What the intervals earn, the start not counted.
    pub fn earned(&self) -> i64 {
        self.stretches.iter().map(|stretch| stretch.earned).sum()
    }

    pub fn start_cost(&self) -> i64 {
        self.start.unwrap_or(0)
    }

    /// The output in MW, or the lowest and the highest.
    pub fn mw(&self) -> String {
        let outputs = || self.stretches.iter().map(|stretch| stretch.mw);
        match (outputs().min(), outputs().max()) {
            (Some(low), Some(high)) if low < high => format!("{low}-{high}"),
            (low, _) => low.unwrap_or(0).to_string(),
        }
    }

    /// One more interval, behind those that are there.
    fn add(&mut self, place: usize, mw: u64, earned: i64) {
        match self.stretches.last_mut() {
            Some(stretch) if stretch.mw == mw => {
                stretch.last = place;
                stretch.earned += earned;
            }
            _ => self.stretches.push(Stretch {
                first: place,
                last: place,
                mw,
                earned,
            }),
        }
    }
}

/// What an on-interval earns, in quarter-cents (formula 7, the start not counted).
fn margin(unit: &Unit, price: i64, mw: u64) -> i64 {
    let above = mw as i64 - (unit.pmin * unit.block) as i64;
    price * mw as i64 - unit.vec as i64 * above - unit.mlc as i64
}

/// The runs of a schedule that keeps the case.
pub fn runs(case: &Case, schedule: &[u64]) -> Vec<Run> {
    let start_cost = 4 * case.unit.suc as i64;
    let mut runs: Vec<Run> = Vec::new();
    let mut was_on = case.unit.was == 1;
    for (place, (price, mw)) in case.prices.iter().zip(schedule).enumerate() {
        let on = *mw > 0;
        if on {
            if !was_on || runs.is_empty() {
                runs.push(Run {
                    stretches: Vec::new(),
                    start: (!was_on).then_some(start_cost),
                });
            }
            let run = runs.last_mut().expect("one was pushed");
            run.add(place, *mw, margin(&case.unit, *price, *mw));
        }
        was_on = on;
    }
    runs
}
