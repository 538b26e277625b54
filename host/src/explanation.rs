//! A plan told to a person: its runs in time and dollars, the hours that are permitted, what it uses of each limitation, and the adders as they
//! go into a bid. The plan, its profit and the outcomes are the library's.

use crate::amounts::{dollars, quarters};
use crate::calendar::Calendar;
use crate::runs::{runs, Run, Stretch};
use crate::{Case, Limit, Outcome, Report, Unit};
use std::fmt;

/// What a plan uses of a limitation, in quarters of its unit.
#[derive(Clone, Copy, Debug, PartialEq, Eq)]
pub struct Usage {
    pub name: &'static str,
    pub used: u64,
    pub limit: Limit,
}

impl Usage {
    /// What is left, in quarters; none where there is no limitation. A plan uses no more than it has.
    pub fn left(&self) -> Option<u64> {
        self.limit
            .map(|limit| (4 * limit).saturating_sub(self.used))
    }
}

/// An opportunity cost and where it goes in a bid.
#[derive(Clone, Copy, Debug, PartialEq, Eq)]
pub struct Adder {
    pub bid: &'static str,
    pub per: &'static str,
    pub outcome: Outcome,
}

impl Adder {
    /// Dollars for one unit, or why there are none.
    pub fn amount(&self) -> String {
        match self.outcome {
            Outcome::None => "none: not limited".to_string(),
            Outcome::Empty => "empty: nine tenths of the limitation is 0".to_string(),
            Outcome::Never => "never: no schedule keeps one unit less".to_string(),
            Outcome::Gap(gap) => dollars(gap),
        }
    }
}

/// A plan as a person reads it.
#[derive(Clone, Debug, PartialEq, Eq)]
pub struct Explanation {
    pub intervals: usize,
    pub calendar: Calendar,
    pub profit: i64,
    pub runs: Vec<Run>,
    pub usages: [Usage; 3],
    pub adders: [Adder; 3],
}

impl Explanation {
    pub fn of(case: &Case, schedule: &[u64], report: &Report) -> Explanation {
        let runs = runs(case, schedule);
        Explanation {
            intervals: schedule.len(),
            calendar: Calendar::of(&case.unit, schedule.len()),
            profit: report.profit,
            usages: usages_of(&case.unit, &runs),
            adders: adders(report),
            runs,
        }
    }

    /// What all runs earn, the starts not counted, and what all starts cost.
    pub fn totals(&self) -> (i64, i64) {
        let earned = self.runs.iter().map(Run::earned).sum();
        let starts = self.runs.iter().map(Run::start_cost).sum();
        (earned, starts)
    }
}

/// What a schedule that keeps a case uses of each limitation.
pub fn usages(case: &Case, schedule: &[u64]) -> [Usage; 3] {
    usages_of(&case.unit, &runs(case, schedule))
}

fn usages_of(unit: &Unit, runs: &[Run]) -> [Usage; 3] {
    let starts = runs.iter().filter(|run| run.start.is_some()).count();
    let usage = |name, used, limit| Usage { name, used, limit };
    [
        usage("starts", 4 * starts as u64, unit.starts),
        usage("hours", runs.iter().map(Run::length).sum(), unit.hours),
        usage("mwh", runs.iter().map(Run::output).sum(), unit.mwh),
    ]
}

fn adders(report: &Report) -> [Adder; 3] {
    let adder = |bid, per, outcome| Adder { bid, per, outcome };
    let outcomes = report.outcomes;
    [
        adder("start-up", "start", outcomes.starts),
        adder("minimum load", "hour", outcomes.hours),
        adder("energy", "MWh", outcomes.mwh),
    ]
}

/// Rows of text in columns as wide as their widest entry, those from `right` on set to the right.
fn columns<const N: usize>(
    f: &mut fmt::Formatter,
    rows: &[[String; N]],
    right: usize,
) -> fmt::Result {
    let width = |column: usize| rows.iter().map(|row| row[column].len()).max().unwrap_or(0);
    for row in rows {
        let mut line = String::new();
        for (column, entry) in row.iter().enumerate() {
            let width = width(column);
            if column < right {
                line.push_str(&format!("{entry:<width$}  "));
            } else {
                line.push_str(&format!("{entry:>width$}  "));
            }
        }
        writeln!(f, "{}", line.trim_end())?;
    }
    Ok(())
}

impl Explanation {
    /// A heading, a line for each run, for each stretch of those whose output changes, and for all.
    pub fn run_rows(&self) -> Vec<[String; 9]> {
        let head = [
            "run", "from", "to", "MW", "hours", "MWh", "earns", "start", "in all",
        ];
        let mut rows = vec![head.map(str::to_string)];
        for (run, number) in self.runs.iter().zip(1..) {
            rows.push([
                number.to_string(),
                self.calendar.beginning(run.first()),
                self.calendar.ending(run.last()),
                run.mw(),
                quarters(run.length()),
                quarters(run.output()),
                dollars(run.earned()),
                run.start.map_or("on before".to_string(), dollars),
                dollars(run.earned() - run.start_cost()),
            ]);
            if run.stretches.len() > 1 {
                rows.extend(
                    run.stretches
                        .iter()
                        .map(|stretch| self.stretch_row(stretch)),
                );
            }
        }
        let (earned, starts) = self.totals();
        let [_, hours, mwh] = self.usages;
        rows.push([
            "all".to_string(),
            String::new(),
            String::new(),
            String::new(),
            quarters(hours.used),
            quarters(mwh.used),
            dollars(earned),
            dollars(starts),
            dollars(earned - starts),
        ]);
        rows
    }

    fn stretch_row(&self, stretch: &Stretch) -> [String; 9] {
        [
            String::new(),
            self.calendar.beginning(stretch.first),
            self.calendar.ending(stretch.last),
            stretch.mw.to_string(),
            quarters(stretch.length()),
            quarters(stretch.output()),
            dollars(stretch.earned),
            String::new(),
            String::new(),
        ]
    }

    pub fn usage_rows(&self) -> Vec<[String; 4]> {
        let mut rows = vec![["limitation", "used", "of", "left"].map(str::to_string)];
        rows.extend(self.usages.iter().map(|usage| {
            [
                usage.name.to_string(),
                quarters(usage.used),
                usage.limit.map_or("none".to_string(), |l| quarters(4 * l)),
                usage.left().map_or(String::new(), quarters),
            ]
        }));
        rows
    }

    pub fn adder_rows(&self) -> Vec<[String; 3]> {
        let mut rows = vec![["adder to", "for one", "amount"].map(str::to_string)];
        rows.extend(
            self.adders
                .iter()
                .map(|adder| [adder.bid.to_string(), adder.per.to_string(), adder.amount()]),
        );
        rows
    }
}

impl fmt::Display for Explanation {
    fn fmt(&self, f: &mut fmt::Formatter) -> fmt::Result {
        let profit = dollars(self.profit);
        write!(f, "profit {profit} over {} quarter-hours", self.intervals)?;
        if let Some(dated) = self.calendar.dated() {
            write!(f, " from {}\n{}", dated.date(), dated.permitted())?;
        }
        writeln!(f, "\n")?;
        columns(f, &self.run_rows(), 3)?;
        writeln!(f)?;
        columns(f, &self.usage_rows(), 1)?;
        writeln!(f)?;
        columns(f, &self.adder_rows(), 3)
    }
}
