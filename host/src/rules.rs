//! The rule that a schedule breaks first, and at which interval. The library is asked: a schedule that keeps its case does so up to each of its
//! intervals, and one that breaks a rule passes where that rule is lifted.

use crate::amounts::{quarters, time_of_day, PER_HOUR};
use crate::reader::BEYOND;
use crate::{assess, clock_hour, Case, Refusal, Unit};

/// The rules of a case, in the order in which they are asked for.
#[derive(Clone, Copy, Debug, PartialEq, Eq)]
pub enum Rule {
    Output,
    OnTime,
    DownTime,
    Starts,
    Hours,
    Mwh,
    Window,
}

impl Rule {
    pub const ALL: [Rule; 7] = [
        Rule::Output,
        Rule::OnTime,
        Rule::DownTime,
        Rule::Starts,
        Rule::Hours,
        Rule::Mwh,
        Rule::Window,
    ];

    /// The unit without this rule. Outputs are always judged.
    fn lifted(self, unit: Unit) -> Unit {
        match self {
            Rule::Output => unit,
            Rule::OnTime => Unit { mot: 1, ..unit },
            Rule::DownTime => Unit { mdt: 1, ..unit },
            Rule::Starts => Unit {
                starts: None,
                ..unit
            },
            Rule::Hours => Unit {
                hours: None,
                ..unit
            },
            Rule::Mwh => Unit { mwh: None, ..unit },
            Rule::Window => Unit {
                window: None,
                ..unit
            },
        }
    }
}

/// A rule that is broken, and the first interval at which it is, counted from 1.
#[derive(Clone, Copy, Debug, PartialEq, Eq)]
pub struct Broken {
    pub interval: usize,
    pub rule: Rule,
}

/// What a schedule of as many intervals as there are prices breaks first; nothing where it keeps the case.
pub fn first_broken(case: &Case, schedule: &[u64]) -> Option<Broken> {
    let breaks = |unit: Unit, n: usize| {
        assess(unit, &case.prices[..n], &schedule[..n]) == Err(Refusal::NotKept)
    };
    let intervals: Vec<usize> = (1..=schedule.len()).collect();
    let kept = intervals.partition_point(|n| !breaks(case.unit, *n));
    let interval = *intervals.get(kept)?;
    // all rules behind one are lifted, then all but it and those before, and so on: the one with which it fails is the first
    let lifted_behind = |place: usize| {
        let behind = &Rule::ALL[place + 1..];
        behind
            .iter()
            .fold(case.unit, |unit, rule| rule.lifted(unit))
    };
    let place = (0..Rule::ALL.len()).find(|place| breaks(lifted_behind(*place), interval))?;
    Some(Broken {
        interval,
        rule: Rule::ALL[place],
    })
}

impl Broken {
    /// The interval, its output and the rule.
    pub fn said(&self, case: &Case, schedule: &[u64]) -> String {
        let (interval, rule) = (self.interval, self.rule_said(&case.unit, schedule));
        match schedule[interval - 1] {
            BEYOND => format!("interval {interval}: {rule}"),
            mw => format!("interval {interval}, {mw} MW: {rule}"),
        }
    }

    fn rule_said(&self, unit: &Unit, schedule: &[u64]) -> String {
        let (before, front) = (&schedule[..self.interval - 1], &schedule[..self.interval]);
        match self.rule {
            Rule::Output => outputs(unit),
            Rule::OnTime => {
                let (run, mot) = (lasted(unit, before, true), unit.mot);
                format!("the run before it lasted {run}, and mot is {mot}")
            }
            Rule::DownTime => {
                let (spell, mdt) = (lasted(unit, before, false), unit.mdt);
                format!("the unit was off for {spell}, and mdt is {mdt}")
            }
            Rule::Starts => {
                let (start, most) = (starts(unit, front), limit(unit.starts));
                format!("this is start {start}, and starts is {most}")
            }
            Rule::Hours => {
                let on = front.iter().filter(|mw| **mw > 0).count() as u64;
                let (hours, most) = (quarters(on), limit(unit.hours));
                format!("{hours} run-hours are used, and hours is {most}")
            }
            Rule::Mwh => {
                let (mwh, most) = (quarters(front.iter().sum()), limit(unit.mwh));
                format!("{mwh} MWh are used, and mwh is {most}")
            }
            Rule::Window => shut(unit, self.interval),
        }
    }
}

fn limit(limit: Option<u64>) -> String {
    limit.map_or("none".to_string(), |figure| figure.to_string())
}

fn outputs(unit: &Unit) -> String {
    let (least, most) = (unit.pmin * unit.block, unit.pmax * unit.block);
    format!(
        "outputs are 0, or {least} to {most} MW in steps of {} MW",
        unit.block
    )
}

/// The quarter-hours in a row up to the end of a schedule that were on, or off, with those before interval 1.
fn lasted(unit: &Unit, schedule: &[u64], on: bool) -> String {
    let row = schedule.iter().rev().take_while(|mw| (**mw > 0) == on);
    let row = row.count();
    let before = row == schedule.len() && (unit.was == 1) == on;
    match row as u64 + if before { unit.held } else { 0 } {
        1 => "1 quarter-hour".to_string(),
        several => format!("{several} quarter-hours"),
    }
}

fn starts(unit: &Unit, schedule: &[u64]) -> usize {
    let states = schedule.iter().map(|mw| *mw > 0);
    let before = std::iter::once(unit.was == 1).chain(states.clone());
    before.zip(states).filter(|(was, on)| !was && *on).count()
}

fn shut(unit: &Unit, interval: usize) -> String {
    let hour = unit
        .window
        .and_then(|w| clock_hour(w.year, w.month, w.day, interval as u64).ok());
    let time = hour.map_or("it".to_string(), |hour| {
        time_of_day(hour as usize * PER_HOUR)
    });
    format!("the hour of the clock that begins at {time} is shut")
}
