//! One case, planned and told as its listing or as an explanation.

use crate::arguments::CaseOptions;
use crate::identity;
use crate::memory::Scratch;
use crate::planning::{Planned, Prepared};
use crate::progress::Progress;
use crate::stop::{all_of, note, print, say, Stop};
use ralwinga::explanation::Explanation;
use std::path::Path;

/// The listing on standard output.
pub fn plan(case: &Path, options: &CaseOptions) -> Result<(), Stop> {
    answer(case, options, |_, planned| planned.listing())
}

/// The plan as runs, limitations used and adders.
pub fn explain(case: &Path, options: &CaseOptions) -> Result<(), Stop> {
    answer(case, options, |prepared, planned| {
        Explanation::of(&prepared.case, &planned.schedule, &planned.report)
            .to_string()
            .into_bytes()
    })
}

fn answer(
    case: &Path,
    options: &CaseOptions,
    told: impl Fn(&Prepared, &Planned) -> Vec<u8>,
) -> Result<(), Stop> {
    identity::check(&[case], &options.outputs())?;
    match prepare_and_plan(case, options) {
        Ok((prepared, planned)) => all_of([
            print(&told(&prepared, &planned)),
            options.draw(&prepared, &planned),
        ]),
        Err(stop) => {
            options.show_stop(case, &stop).unwrap_or_else(say);
            Err(stop)
        }
    }
}

fn prepare_and_plan(case: &Path, options: &CaseOptions) -> Result<(Prepared, Planned), Stop> {
    let prepared = Prepared::from_file(case, options)?;
    note(prepared.said_of_scratch());
    let progress = Progress::over(&[&prepared], 1);
    let planned = prepared.plan(&mut Scratch::default(), &progress)?;
    Ok((prepared, planned))
}
