//! The table of many cases, a row to each.

use crate::planning::Planned;
use crate::stop::Stop;
use ralwinga::amounts::{plain_dollars, plain_quarters};
use ralwinga::explanation::Usage;
use ralwinga::Outcome;
use std::path::Path;

/// How amounts are written.
#[derive(Clone, Copy)]
pub enum Form {
    /// In dollars under headings that say so, with what is used and left of each limitation.
    Dollars,
    /// In quarter-cents, as a listing has them.
    Raw,
}

impl Form {
    pub fn heading(self) -> &'static str {
        match self {
            Form::Raw => "file,number,profit,starts,hours,mwh\n",
            Form::Dollars => {
                "file,number,profit_usd,start_adder_usd,hour_adder_usd,mwh_adder_usd,\
                 starts_used,starts_left,hours_used,hours_left,mwh_used,mwh_left\n"
            }
        }
    }

    /// The file, 0 and the answer; or the number of a refusal, or `unread`, and no answer.
    pub fn row(self, file: &Path, answer: &Result<Planned, Stop>) -> Vec<u8> {
        let figures = match (self, answer) {
            (Form::Raw, Ok(planned)) => raw_figures(planned),
            (Form::Dollars, Ok(planned)) => figures_in_dollars(planned),
            (Form::Raw, Err(stop)) => format!("{},0,none,none,none", number_of(stop)),
            // nothing that could be taken for an amount
            (Form::Dollars, Err(stop)) => format!("{},,,,,,,,,,", number_of(stop)),
        };
        let mut row = quoted(file.as_os_str().as_encoded_bytes());
        row.extend(format!(",{figures}\n").bytes());
        row
    }
}

fn number_of(stop: &Stop) -> String {
    let number = stop.refusal().map(|refusal| refusal.number().to_string());
    number.unwrap_or("unread".to_string())
}

fn raw_figures(planned: &Planned) -> String {
    let (profit, outcomes) = (planned.report.profit, planned.report.outcomes);
    format!(
        "0,{profit},{},{},{}",
        outcomes.starts, outcomes.hours, outcomes.mwh
    )
}

fn figures_in_dollars(planned: &Planned) -> String {
    let outcomes = planned.report.outcomes;
    let adders = [outcomes.starts, outcomes.hours, outcomes.mwh].map(adder);
    let profit = plain_dollars(planned.report.profit);
    let usages = planned.usages.map(|usage| used_and_left(&usage));
    format!("0,{profit},{},{}", adders.join(","), usages.join(","))
}

fn adder(outcome: Outcome) -> String {
    match outcome {
        Outcome::Gap(gap) => plain_dollars(gap),
        word => word.to_string(),
    }
}

fn used_and_left(usage: &Usage) -> String {
    let left = usage.left().map_or("none".to_string(), plain_quarters);
    format!("{},{left}", plain_quarters(usage.used))
}

/// A field of the table: between quotes where it has a comma, a quote or a line end, each quote in it doubled.
fn quoted(field: &[u8]) -> Vec<u8> {
    if !field.iter().any(|byte| b",\"\r\n".contains(byte)) {
        return field.to_vec();
    }
    let mut out = vec![b'"'];
    for byte in field {
        out.extend(std::iter::repeat_n(*byte, 1 + usize::from(*byte == b'"')));
    }
    out.push(b'"');
    out
}
