//! Memory for the planner's cells: what a case may take, how many cases fit at once, and what is said of it.

use crate::allocation::asking;
use crate::groups;
use ralwinga::{cells, Cells, Unit};
use std::time::{Duration, Instant};

const CELL_BYTES: usize = 8;

/// At most so many cells, and by whose word.
#[derive(Clone, Copy)]
pub struct Cap {
    pub cells: usize,
    from: &'static str,
}

impl Cap {
    /// The number asked for, else what the memory free now holds; no cap where the system does not say.
    pub fn new(asked: Option<usize>) -> Cap {
        match asked {
            Some(cells) => Cap {
                cells,
                from: "--cells allows",
            },
            None => Cap {
                cells: free_cells(),
                from: "free memory holds",
            },
        }
    }

    /// What the system gave, where it would not give so many.
    pub fn below(cells: usize) -> Cap {
        Cap {
            cells: cells - 1,
            from: "the system gives at most",
        }
    }
}

/// The cells that the memory free now holds, since memory that is promised and not there ends the process.
pub fn free_cells() -> usize {
    available_bytes().map_or(usize::MAX, |bytes| bytes / CELL_BYTES)
}

/// The least of what the machine has and of what the control groups of this process leave it.
fn available_bytes() -> Option<usize> {
    let of_machine = machine_bytes().into_iter();
    of_machine.chain(groups::free_bytes()).min()
}

fn machine_bytes() -> Option<usize> {
    let info = std::fs::read_to_string("/proc/meminfo").ok()?;
    let line = info
        .lines()
        .find(|line| line.starts_with("MemAvailable:"))?;
    let kib: usize = line.split_whitespace().nth(1)?.parse().ok()?;
    Some(kib * 1024)
}

/// The cells whose handing out is told of at a time.
const CHUNK: usize = 1_000_000;

/// Cells that one case after another is planned in, so that the system hands them out once.
#[derive(Default)]
pub struct Scratch(Vec<i64>);

impl Scratch {
    /// Whether the system has so many cells, which are then there; `told` hears how many more are and how long that took.
    pub fn has(&mut self, cells: usize, told: impl Fn(usize, Duration)) -> bool {
        if self.0.len() >= cells {
            told(cells, Duration::ZERO);
            return true;
        }
        // what is too short goes before more is asked for
        self.0 = Vec::new();
        if asking(|| self.0.try_reserve_exact(cells)).is_err() {
            return false;
        }
        while self.0.len() < cells {
            let began = Instant::now();
            let more = CHUNK.min(cells - self.0.len());
            self.0.resize(self.0.len() + more, 0);
            told(more, began.elapsed());
        }
        true
    }

    /// The first of the cells that are there.
    pub fn first(&mut self, cells: usize) -> &mut [i64] {
        &mut self.0[..cells]
    }
}

/// How many cases go side by side: as many as there are threads, and as fit in memory whichever of them come together.
pub fn side_by_side(needs: &[usize], threads: usize, free: usize) -> usize {
    let fits = |jobs: &usize| at_once(needs, *jobs) <= free;
    let most = threads.clamp(1, needs.len().max(1));
    (1..=most).rev().find(fits).unwrap_or(1)
}

/// The most cells that so many of the cases take together.
pub fn at_once(needs: &[usize], jobs: usize) -> usize {
    let mut largest = needs.to_vec();
    largest.sort_unstable_by(|a, b| b.cmp(a));
    let add = |total: usize, need: &usize| total.saturating_add(*need);
    largest.iter().take(jobs).fold(0, add)
}

/// Cells, and their size.
pub fn scratch_of(cells: usize) -> String {
    let kib = cells as f64 * CELL_BYTES as f64 / 1024.0;
    match kib {
        small if small < 1024.0 => format!("{cells} cells, {small:.1} KiB of scratch"),
        large => format!("{cells} cells, {:.1} MiB of scratch", large / 1024.0),
    }
}

/// Two layers of a case that may have so many cells, and why not the long table.
pub fn two_layers_of(cells: Cells, most: usize) -> String {
    let (scratch, table) = (scratch_of(cells.needed), cells.table);
    if table <= most {
        format!("{scratch}: two layers, which are faster than the long table of {table} cells")
    } else {
        format!("{scratch}: two layers, since the long table of {table} cells does not fit")
    }
}

/// The need, what there is, and what would make the case fit.
pub fn too_large(unit: Unit, intervals: usize, needed: usize, cap: Cap) -> String {
    let fits = |unit, n| cells(unit, n).is_ok_and(|cells| cells.needed <= cap.cells);
    let mut ways = vec![format!("{needed} cells")];
    if let Some(n) = (1..intervals).rev().find(|n| fits(unit, *n)) {
        ways.push(format!("the first {n} of the {intervals} prices"));
    }
    ways.extend(
        freed(unit)
            .into_iter()
            .filter(|(_, unit)| fits(*unit, intervals))
            .map(|(name, _)| format!("{name} none")),
    );
    format!(
        "the case needs {}; {} {}; it fits with {}",
        scratch_of(needed),
        cap.from,
        cap.cells,
        ways.join(", or ")
    )
}

/// The unit without each of its limitations.
fn freed(unit: Unit) -> Vec<(&'static str, Unit)> {
    let mut freed = Vec::new();
    if unit.starts.is_some() {
        let starts = None;
        freed.push(("starts", Unit { starts, ..unit }));
    }
    if unit.hours.is_some() {
        let hours = None;
        freed.push(("hours", Unit { hours, ..unit }));
    }
    if unit.mwh.is_some() {
        let mwh = None;
        freed.push(("mwh", Unit { mwh, ..unit }));
    }
    freed
}

#[cfg(test)]
mod tests {
    use super::*;

    #[test]
    fn as_many_as_fit() {
        for (needs, threads, free, jobs) in [
            (&[5, 5, 5][..], 2, 100, 2),
            (&[5, 5, 5], 8, 100, 3),
            (&[5, 5, 5], 8, 14, 2),
            (&[1, 50, 1, 50], 4, 100, 2),
            (&[1, 50, 1, 50], 4, 101, 3),
            (&[1, 50, 1, 50], 4, 60, 1),
            (&[usize::MAX, usize::MAX], 4, usize::MAX - 1, 1),
            (&[], 4, 10, 1),
        ] {
            assert_eq!(side_by_side(needs, threads, free), jobs, "{needs:?}");
        }
    }
}
