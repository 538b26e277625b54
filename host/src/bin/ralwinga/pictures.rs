//! The drawing and the page of a case and the drawing of a curve, where they are asked for. Where there is no plan or no curve they say so, so that
//! none of an earlier run is taken for this one's.

use crate::arguments::{CaseOptions, CurveWords};
use crate::output::write;
use crate::planning::{Planned, Prepared};
use crate::stop::{all_of, shown, Stop};
use ralwinga::explanation::Explanation;
use ralwinga::{html, svg, Segment};
use std::path::Path;

/// A word of the command, and the file behind it.
pub type Output<'a> = (&'static str, &'a Path);

/// The content into a file that is asked for.
fn write_to(file: Option<&Path>, content: impl FnOnce() -> String) -> Result<(), Stop> {
    file.map_or(Ok(()), |file| write(file, content().as_bytes()))
}

/// A sheet that says why there is no drawing.
fn svg_notice(file: &Path, stop: &Stop) -> String {
    let (why, said) = stop.notice();
    svg::notice(&shown(file), &why, &said)
}

fn drawing_output(svg: &Option<std::path::PathBuf>) -> Vec<Output<'_>> {
    svg.iter().map(|file| ("--svg ", file.as_path())).collect()
}

impl CurveWords {
    pub fn outputs(&self) -> Vec<Output<'_>> {
        drawing_output(&self.svg)
    }

    pub fn draw(&self, answer: &Result<Vec<Segment>, Stop>) -> Result<(), Stop> {
        write_to(self.svg.as_deref(), || match answer {
            Ok(segments) => svg::curve::draw(segments),
            Err(stop) => svg_notice(&self.inputs, stop),
        })
    }
}

impl CaseOptions {
    pub fn outputs(&self) -> Vec<Output<'_>> {
        let mut outputs = drawing_output(&self.svg);
        outputs.extend(self.html.iter().map(|file| ("--html ", file.as_path())));
        outputs
    }

    pub fn draw(&self, prepared: &Prepared, planned: &Planned) -> Result<(), Stop> {
        let (case, title) = (&prepared.case, shown(&prepared.file));
        let (schedule, report) = (&planned.schedule, &planned.report);
        all_of([
            write_to(self.svg.as_deref(), || {
                let told = Explanation::of(case, schedule, report);
                svg::draw(&case.prices, schedule, &told)
            }),
            write_to(self.html.as_deref(), || {
                html::plan_page(&title, case, schedule, report)
            }),
        ])
    }

    /// The drawing and the page of a case that has no plan.
    pub fn show_stop(&self, case: &Path, stop: &Stop) -> Result<(), Stop> {
        let (why, said) = stop.notice();
        all_of([
            write_to(self.svg.as_deref(), || svg_notice(case, stop)),
            write_to(self.html.as_deref(), || {
                html::notice_page(&shown(case), &why, &said)
            }),
        ])
    }
}
