//! One case from its file to its plan.

use crate::arguments::CaseOptions;
use crate::input::read;
use crate::memory::{scratch_of, too_large, two_layers_of, Cap, Scratch};
use crate::progress::Progress;
use crate::stop::{note, shown, Stop};
use crate::ways::Way;
use ralwinga::explanation::{usages, Usage};
use ralwinga::reader::case_from;
use ralwinga::{cells, listing, refusal_line, report_into, Case, Cells, Report, Unit};
use std::path::{Path, PathBuf};

/// A case that is in order and may have the cells that it needs, and the way to plan it in what it may have.
pub struct Prepared {
    pub file: PathBuf,
    pub case: Case,
    pub cells: Cells,
    /// The cells that it may have.
    most: usize,
    pub way: Way,
}

/// The plan of a unit and what it earns.
pub struct Planned {
    pub unit: Unit,
    pub schedule: Vec<u64>,
    pub report: Report,
    pub usages: [Usage; 3],
}

impl Prepared {
    pub fn from_file(file: &Path, options: &CaseOptions) -> Result<Prepared, Stop> {
        let case = read(file, options.common.crlf, case_from)?;
        let cap = Cap::new(options.cells);
        let cells =
            cells(case.unit, case.prices.len()).map_err(|refusal| Stop::refused(file, refusal))?;
        let way =
            Way::fastest_in(cap.cells, cells).ok_or_else(|| no_way(file, &case, cells, cap))?;
        let file = file.to_path_buf();
        Ok(Prepared {
            file,
            case,
            cells,
            most: cap.cells,
            way,
        })
    }

    /// The cells that a way lends it.
    pub fn scratch(&self, way: Way) -> usize {
        way.scratch(self.cells)
    }

    /// The cells that a way works out for it.
    pub fn work(&self, way: Way) -> f64 {
        way.work(self.cells, self.case.prices.len())
    }

    /// Whether its long table fits in what it may have, taken or not.
    pub fn table_fits(&self) -> bool {
        self.cells.table <= self.most
    }

    /// The scratch that it takes, and which way that is where it is not the long table.
    pub fn said_of_scratch(&self) -> String {
        match self.way {
            Way::LongTable => scratch_of(self.cells.table),
            Way::TwoLayers => two_layers_of(self.cells, self.most),
        }
    }

    pub fn plan(&self, scratch: &mut Scratch, progress: &Progress) -> Result<Planned, Stop> {
        let way = self.way_in(scratch, progress)?;
        let scratch = scratch.first(self.scratch(way));
        let Case { unit, prices } = &self.case;
        let mut schedule = vec![0; prices.len()];
        let report = progress
            .planning(self.work(way), || {
                report_into(*unit, prices, scratch, &mut schedule)
            })
            .map_err(|refusal| Stop::refused(&self.file, refusal))?;
        Ok(Planned {
            unit: *unit,
            usages: usages(&self.case, &schedule),
            schedule,
            report,
        })
    }

    /// The way chosen; another where the system does not give its memory, though that was free.
    fn way_in(&self, scratch: &mut Scratch, progress: &Progress) -> Result<Way, Stop> {
        let told = |cells, took| progress.handed_out(cells, took);
        let mut way = self.way;
        while !scratch.has(self.scratch(way), told) {
            let cap = Cap::below(self.scratch(way));
            let other = Way::fastest_in(cap.cells, self.cells)
                .ok_or_else(|| no_way(&self.file, &self.case, self.cells, cap))?;
            progress.goes(self, way, other);
            way = other;
            let (file, said) = (shown(&self.file), two_layers_of(self.cells, cap.cells));
            note(format!("{file}: {said}"));
        }
        Ok(way)
    }
}

fn no_way(file: &Path, case: &Case, cells: Cells, cap: Cap) -> Stop {
    let said = too_large(case.unit, case.prices.len(), cells.needed, cap);
    Stop::too_large(file, said)
}

impl Planned {
    pub fn listing(&self) -> Vec<u8> {
        listing(
            &self.unit,
            &self.schedule,
            self.report.profit,
            self.report.outcomes,
        )
    }
}

/// What a case's listing holds: the listing, the line of its refusal, as the proved program prints them, or that it was not read.
pub fn printed(answer: &Result<Planned, Stop>) -> Vec<u8> {
    match answer {
        Ok(planned) => planned.listing(),
        Err(stop) => stop.refusal().map_or(b"unread\n".to_vec(), refusal_line),
    }
}
