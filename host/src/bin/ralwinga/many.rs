//! Many cases side by side: their listings into a folder, a table of their answers to standard output.

use crate::arguments::PlanWords;
use crate::identity;
use crate::memory::{at_once, free_cells, scratch_of, side_by_side, Scratch};
use crate::output::write;
use crate::pictures::Output;
use crate::planning::{printed, Planned, Prepared};
use crate::progress::Progress;
use crate::stop::{is_standard_input, note, print, say, shown, Stop};
use crate::table::Form;
use crate::ways::Way;
use rayon::prelude::*;
use rayon::ThreadPoolBuilder;
use std::cell::RefCell;
use std::collections::HashMap;
use std::fs;
use std::path::{Path, PathBuf};

thread_local! {
    /// Each thread's own. Together they are at most as large as the largest cases that may go side by side.
    static SCRATCH: RefCell<Scratch> = RefCell::default();
}

/// What came of a case: its answer, and whether that could be written to the folder.
struct Entry {
    answer: Result<Planned, Stop>,
    written: Result<(), Stop>,
}

impl Entry {
    fn stops(&self) -> impl Iterator<Item = &Stop> {
        let answer = self.answer.as_ref().err();
        answer.into_iter().chain(self.written.as_ref().err())
    }
}

/// Plans every case, whatever becomes of the others. Whether all were answered and written.
pub fn plan(words: &PlanWords) -> Result<bool, Stop> {
    let standard_inputs = words.cases.iter().filter(|file| is_standard_input(file));
    if standard_inputs.count() > 1 {
        return Err(Stop::words("standard input can be one of the cases alone"));
    }
    let listings = listing_files(words)?;
    let cases: Vec<&Path> = words.cases.iter().map(PathBuf::as_path).collect();
    let outputs = listings.iter().flatten();
    let outputs: Vec<Output> = outputs.map(|file| ("", file.as_path())).collect();
    identity::check(&cases, &outputs)?;
    if let Some(folder) = &words.out {
        fs::create_dir_all(folder).map_err(|error| Stop::unwritten(folder, error))?;
    }
    let prepared: Vec<Result<Prepared, Stop>> = words
        .cases
        .iter()
        .map(|file| Prepared::from_file(file, &words.options))
        .collect();
    let entries = planned(prepared, &listings, words.jobs)?;
    let stops: Vec<&Stop> = entries.iter().flat_map(Entry::stops).collect();
    stops.iter().for_each(say);
    print(&table_of(words, &entries))?;
    Ok(stops.is_empty())
}

fn table_of(words: &PlanWords, entries: &[Entry]) -> Vec<u8> {
    let form = match words.raw {
        true => Form::Raw,
        false => Form::Dollars,
    };
    let mut table = match words.no_header {
        true => Vec::new(),
        false => form.heading().as_bytes().to_vec(),
    };
    for (file, entry) in words.cases.iter().zip(entries) {
        table.extend(form.row(file, &entry.answer));
    }
    table
}

/// Where each case's listing goes. Two cases of one name are no order to plan by, and nothing is planned.
fn listing_files(words: &PlanWords) -> Result<Vec<Option<PathBuf>>, Stop> {
    let Some(folder) = &words.out else {
        return Ok(vec![None; words.cases.len()]);
    };
    let mut takers: HashMap<PathBuf, &Path> = HashMap::new();
    let mut files = Vec::new();
    for case in &words.cases {
        let file = folder.join(listing_name(case));
        if let Some(other) = takers.insert(file.clone(), case) {
            let (other, case, file) = (shown(other), shown(case), file.display());
            return Err(Stop::words(format!(
                "{other} and {case} would both be written to {file}"
            )));
        }
        files.push(Some(file));
    }
    Ok(files)
}

fn listing_name(case: &Path) -> PathBuf {
    let stem = if is_standard_input(case) {
        "stdin".as_ref()
    } else {
        case.file_stem().unwrap_or("case".as_ref())
    };
    let mut name = stem.to_os_string();
    name.push(".listing.csv");
    PathBuf::from(name)
}

/// The entries in the order of the cases, worked out as many at a time as there are cores and as memory allows.
fn planned(
    mut prepared: Vec<Result<Prepared, Stop>>,
    listings: &[Option<PathBuf>],
    jobs: Option<usize>,
) -> Result<Vec<Entry>, Stop> {
    let threads = jobs.unwrap_or_else(cores);
    take_tables(&mut prepared, threads, free_cells());
    let ready: Vec<&Prepared> = prepared.iter().flatten().collect();
    let needs: Vec<usize> = ready.iter().map(|case| case.scratch(case.way)).collect();
    let jobs = side_by_side(&needs, threads, free_cells());
    note(format!(
        "{}, {jobs} at a time, at most {}{}",
        counted(prepared.len()),
        scratch_of(at_once(&needs, jobs)),
        in_two_layers(&ready)
    ));
    let progress = Progress::over(&ready, jobs);
    let entry = |(prepared, listing): (Result<Prepared, Stop>, &Option<PathBuf>)| {
        let answer = prepared
            .and_then(|case| SCRATCH.with_borrow_mut(|scratch| case.plan(scratch, &progress)));
        let listing = listing.as_deref();
        let written = listing.map_or(Ok(()), |file| write(file, &printed(&answer)));
        Entry { answer, written }
    };
    let pool = ThreadPoolBuilder::new().num_threads(jobs).build();
    let pool =
        pool.map_err(|error| Stop::System(format!("cannot start {jobs} threads: {error}")))?;
    let cases = prepared.into_par_iter().zip(listings).with_max_len(1);
    Ok(pool.install(|| cases.map(entry).collect()))
}

/// From so many cases to a thread on the memory of the long tables is paid for: it is handed out once, and then they are the faster way.
const MANY: usize = 16;

/// The long tables, where each thread plans many cases in the same cells and has its own at the same time as the others.
fn take_tables(prepared: &mut [Result<Prepared, Stop>], threads: usize, free: usize) {
    let ready = prepared.iter_mut().flatten();
    let mut cases: Vec<&mut Prepared> = ready.filter(|case| case.table_fits()).collect();
    let tables: Vec<usize> = cases.iter().map(|case| case.cells.table).collect();
    if cases.len() >= MANY * threads && at_once(&tables, threads) <= free {
        for case in &mut cases {
            case.way = Way::LongTable;
        }
    }
}

/// How many of the cases are planned in two layers, and why, where any are.
fn in_two_layers(ready: &[&Prepared]) -> String {
    let layered = ready.iter().filter(|case| case.way == Way::TwoLayers);
    let cases = layered.clone().count();
    let faster = layered.filter(|case| case.table_fits()).count();
    let unfit = layered_since(
        cases - faster,
        "since its long table does not fit",
        "since their long tables do not fit",
    );
    let faster = layered_since(
        faster,
        "which are faster than its long table",
        "which are faster than their long tables",
    );
    let said: Vec<String> = unfit.into_iter().chain(faster).collect();
    match said.as_slice() {
        [] => String::new(),
        said => format!(": {}", said.join(", and ")),
    }
}

/// So many cases in two layers for a reason, which is said of one or of more.
fn layered_since(cases: usize, of_one: &str, of_more: &str) -> Option<String> {
    match cases {
        0 => None,
        1 => Some(format!("1 in two layers, {of_one}")),
        _ => Some(format!("{cases} in two layers, {of_more}")),
    }
}

fn cores() -> usize {
    std::thread::available_parallelism().map_or(1, usize::from)
}

fn counted(cases: usize) -> String {
    match cases {
        1 => "1 case".to_string(),
        _ => format!("{cases} cases"),
    }
}
