//! A bar on standard error while cases are planned, where that is a terminal.
//!
//! A cell is counted when the system has handed out its memory, which is known, and again each time it is worked out. The planner answers in one
//! call that tells nothing on its way, so that planning goes by time, at a rate measured on the front of the case with the most work when the run
//! begins, and is set right whenever a case is done.

use crate::memory::Scratch;
use crate::planning::Prepared;
use crate::stop::is_quiet;
use crate::ways::Way;
use indicatif::{ProgressBar, ProgressStyle};
use ralwinga::{cells, report_into, Case};
use std::io::{self, IsTerminal};
use std::sync::mpsc::{channel, RecvTimeoutError, Sender};
use std::sync::{Arc, Mutex, MutexGuard};
use std::thread::{Builder, JoinHandle};
use std::time::{Duration, Instant};

/// The work that the rate is measured on: some milliseconds.
const SAMPLE_CELLS: f64 = 4e6;
const TICK: Duration = Duration::from_millis(100);
/// A case that is not done is not shown as done.
const NEARLY: f64 = 0.99;

/// The work on cells: all of it, and what is done.
#[derive(Default)]
struct Tally {
    /// Cells whose memory is to be handed out and was, and the seconds that took, those of all cases added up.
    to_hand_out: f64,
    handed_out: f64,
    handing_out: f64,
    /// Cells to be worked out, and the work and number of the cases that are done.
    to_plan: f64,
    planned: f64,
    cases: usize,
    /// When the planning of each other case began, and its work.
    under_way: Vec<(Instant, f64)>,
}

/// What is to be done, at what rate of planning, and what is done.
struct Work {
    cases: usize,
    jobs: f64,
    cells_per_second: f64,
    tally: Mutex<Tally>,
}

impl Work {
    fn tally(&self) -> MutexGuard<'_, Tally> {
        self.tally.lock().expect("no thread ends while it counts")
    }

    /// The share that is done, and the seconds left.
    fn estimate(&self) -> (f64, f64) {
        let tally = self.tally();
        let by_rate = |(began, work): &(Instant, f64)| {
            (began.elapsed().as_secs_f64() * self.cells_per_second).min(NEARLY * work)
        };
        let planned = tally.planned + tally.under_way.iter().map(by_rate).sum::<f64>();
        let share = (tally.handed_out + planned) / (tally.to_hand_out + tally.to_plan);
        let per_cell = tally.handing_out / tally.handed_out.max(1.0);
        let handing_out = (tally.to_hand_out - tally.handed_out) * per_cell;
        let planning = (tally.to_plan - planned) / self.cells_per_second;
        (share, (handing_out + planning) / self.jobs)
    }

    fn show(&self, bar: &ProgressBar) {
        let (share, seconds) = self.estimate();
        let mut said = format!("about {seconds:.0} s left");
        if self.cases > 1 {
            let done = self.tally().cases;
            said = format!("{said}, {done} of {} cases done", self.cases);
        }
        bar.set_message(said);
        bar.set_position((share * BAR as f64) as u64);
    }
}

const BAR: u64 = 1000;

/// The bar, or nothing where nobody looks on.
pub struct Progress(Option<Shown>);

struct Shown {
    work: Arc<Work>,
    bar: ProgressBar,
    ticking: Option<(Sender<()>, JoinHandle<()>)>,
}

impl Progress {
    /// Over cases that are planned so many at a time.
    pub fn over(cases: &[&Prepared], jobs: usize) -> Progress {
        let work = |case: &Prepared| case.work(case.way);
        let longest = cases.iter().max_by(|a, b| work(a).total_cmp(&work(b)));
        let seen = std::io::stderr().is_terminal() && !is_quiet();
        let shown = longest.filter(|_| seen).and_then(|longest| {
            Shown::new(Work {
                cases: cases.len(),
                jobs: jobs as f64,
                cells_per_second: measured_rate(longest)?,
                tally: Mutex::new(Tally {
                    to_hand_out: cases.iter().map(|c| c.scratch(c.way) as f64).sum(),
                    to_plan: cases.iter().map(|case| work(case)).sum(),
                    ..Tally::default()
                }),
            })
        });
        Progress(shown)
    }

    /// A case goes another way than was counted on.
    pub fn goes(&self, case: &Prepared, from: Way, to: Way) {
        if let Some(shown) = &self.0 {
            let mut tally = shown.work.tally();
            tally.to_hand_out += case.scratch(to) as f64 - case.scratch(from) as f64;
            tally.to_plan += case.work(to) - case.work(from);
        }
    }

    /// So many cells more have their memory.
    pub fn handed_out(&self, cells: usize, took: Duration) {
        if let Some(shown) = &self.0 {
            let mut tally = shown.work.tally();
            tally.handed_out += cells as f64;
            tally.handing_out += took.as_secs_f64();
        }
    }

    /// The planning of a case of so much work.
    pub fn planning<T>(&self, cells: f64, plan: impl FnOnce() -> T) -> T {
        let Some(Shown { work, .. }) = &self.0 else {
            return plan();
        };
        let begun = (Instant::now(), cells);
        work.tally().under_way.push(begun);
        let answer = plan();
        let mut tally = work.tally();
        tally.under_way.retain(|other| *other != begun);
        tally.planned += cells;
        tally.cases += 1;
        answer
    }
}

impl Shown {
    /// None where the system has no thread for it.
    fn new(work: Work) -> Option<Shown> {
        let work = Arc::new(work);
        let style = ProgressStyle::with_template("{elapsed_precise} [{bar:40}] {percent}%, {msg}");
        let bar = ProgressBar::new(BAR).with_style(style.expect("a template in order"));
        let ticking = Some(ticking(work.clone(), bar.clone()).ok()?);
        Some(Shown { work, bar, ticking })
    }
}

/// A thread that keeps the bar going until its sender is dropped.
fn ticking(work: Arc<Work>, bar: ProgressBar) -> io::Result<(Sender<()>, JoinHandle<()>)> {
    let (sender, receiver) = channel();
    let thread = Builder::new().spawn(move || {
        while receiver.recv_timeout(TICK) == Err(RecvTimeoutError::Timeout) {
            work.show(&bar);
        }
    })?;
    Ok((sender, thread))
}

impl Drop for Shown {
    fn drop(&mut self) {
        if let Some((sender, thread)) = self.ticking.take() {
            drop(sender);
            let _ = thread.join();
        }
        self.bar.finish_and_clear();
    }
}

/// Cells per second that the front of a case is planned at, the way that all of it goes; none where there is no memory to try it in.
fn measured_rate(prepared: &Prepared) -> Option<f64> {
    let Prepared { case, way, .. } = prepared;
    let Case { unit, prices } = case;
    let sizes = |n| cells(*unit, n).unwrap_or(prepared.cells);
    let front = (1..=prices.len())
        .rev()
        .find(|n| way.work(sizes(*n), *n) <= SAMPLE_CELLS)
        .unwrap_or(1);
    let size = way.scratch(sizes(front));
    let mut scratch = Scratch::default();
    // the memory is there before; the time is what is asked for, and the front may have no schedule
    if !scratch.has(size, |_, _| ()) {
        return None;
    }
    let mut schedule = vec![0; front];
    let began = Instant::now();
    let _ = report_into(*unit, &prices[..front], scratch.first(size), &mut schedule);
    Some(way.work(sizes(front), front) / began.elapsed().as_secs_f64().max(1e-9))
}
