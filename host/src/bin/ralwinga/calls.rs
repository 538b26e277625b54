//! The subcommands that are one call of the library.

use crate::arguments::{AssessWords, CostsWords, CurveWords};
use crate::identity;
use crate::input::read;
use crate::stop::{all_of, is_standard_input, print, say, Stop};
use ralwinga::reader::{case_from, curve_from, figures_from, line_of, schedule_from, HandedIn};
use ralwinga::rules::first_broken;
use ralwinga::text::Fault;
use ralwinga::{Case, Refusal, Segment};
use std::io::BufReader;
use std::path::Path;

/// `profit,N` of a schedule handed in. Of the causes of the two texts the one that comes first is given.
pub fn assess(words: &AssessWords) -> Result<(), Stop> {
    let AssessWords { case, listing, .. } = words;
    if is_standard_input(case) && is_standard_input(listing) {
        return Err(Stop::words(
            "the case and the listing cannot both be standard input",
        ));
    }
    identity::check(&[case, listing], &[])?;
    let crlf = words.common.crlf;
    let read_case = read(case, crlf, case_from);
    let handed_in = read(listing, crlf, |input| schedule_from(BufReader::new(input)));
    let (read_case, handed_in) = match (read_case, handed_in) {
        (Ok(read_case), Ok(handed_in)) => (read_case, handed_in),
        (Err(of_case), Err(of_listing)) => return Err(first_of(of_case, of_listing)),
        (Err(stop), Ok(_)) | (Ok(_), Err(stop)) => return Err(stop),
    };
    let profit = ralwinga::assess(read_case.unit, &read_case.prices, &handed_in.outputs)
        .map_err(|refusal| Stop::refused(listing, not_passed(refusal, &read_case, &handed_in)))?;
    print(format!("profit,{profit}\n").as_bytes())
}

/// The one that is given where neither text is in order: a file that is not read, then the cause that comes first.
fn first_of(of_case: Stop, of_listing: Stop) -> Stop {
    match (of_case.refusal(), of_listing.refusal()) {
        (Some(_), None) => of_listing,
        (Some(one), Some(other)) if other.precedes(one) => of_listing,
        _ => of_case,
    }
}

/// Why a schedule is not passed, with the counts or the rule that it breaks.
fn not_passed(refusal: Refusal, case: &Case, handed_in: &HandedIn) -> Fault {
    let (prices, count) = (case.prices.len(), handed_in.count);
    match refusal {
        Refusal::Length => {
            let said = format!("the listing has {count} intervals, the case has {prices} prices");
            Fault::in_line(refusal, line_of(count.min(prices + 1)), said)
        }
        Refusal::NotKept => match first_broken(case, &handed_in.outputs) {
            Some(broken) => {
                let said = broken.said(case, &handed_in.outputs);
                Fault::in_line(refusal, line_of(broken.interval), said)
            }
            None => refusal.into(),
        },
        _ => refusal.into(),
    }
}

/// `vec,N`, `suc,N` and `mlc,N` of cost inputs.
pub fn costs(words: &CostsWords) -> Result<(), Stop> {
    let CostsWords { inputs, common } = words;
    identity::check(&[inputs], &[])?;
    let figures = read(inputs, common.crlf, |input| {
        figures_from(BufReader::new(input))
    })?;
    let lines = format!(
        "vec,{}\nsuc,{}\nmlc,{}\n",
        figures.vec, figures.suc, figures.mlc
    );
    print(lines.as_bytes())
}

/// `from,to,price` and a line to each segment of a bid curve, which is drawn where that is asked for.
pub fn curve(words: &CurveWords) -> Result<(), Stop> {
    identity::check(&[&words.inputs], &words.outputs())?;
    let answer = segments(&words.inputs, words.common.crlf);
    let drawn = words.draw(&answer);
    let segments = match answer {
        Ok(segments) => segments,
        Err(stop) => {
            drawn.unwrap_or_else(say);
            return Err(stop);
        }
    };
    let line = |Segment { from, to, price }: &Segment| format!("{from},{to},{price}\n");
    let lines: String = segments.iter().map(line).collect();
    all_of([print(format!("from,to,price\n{lines}").as_bytes()), drawn])
}

fn segments(inputs: &Path, crlf: bool) -> Result<Vec<Segment>, Stop> {
    read(inputs, crlf, |input| curve_from(BufReader::new(input)))
}
