//! The examples: the script writes them, the command makes their drawing and page, and their prices and permits are what is said of them.

mod support;

use ralwinga::reader::read_case;
use std::fs;
use std::path::{Path, PathBuf};
use std::process::Command;
use support::{ralwinga, Folder};

const CASES: [&str; 7] = [
    "week.csv",
    "month.csv",
    "units/starts.csv",
    "units/hours.csv",
    "units/mwh.csv",
    "units/window.csv",
    "units/starts-hours.csv",
];

fn examples() -> PathBuf {
    Path::new(env!("CARGO_MANIFEST_DIR")).join("../examples")
}

fn read(name: &str) -> String {
    fs::read_to_string(examples().join(name)).unwrap_or_else(|error| panic!("{name}: {error}"))
}

#[test]
fn the_script_writes_them() {
    let folder = Folder::new("examples");
    let mut python = Command::new("python3");
    let script = python
        .arg(examples().join("prices.py"))
        .arg(folder.path(""));
    match script.status() {
        Ok(status) => assert!(status.success()),
        Err(_) => {
            println!("skipped: there is no python3");
            return;
        }
    }
    for name in CASES {
        assert_eq!(folder.read(name), read(name), "{name}");
    }
}

/// The drawing and the page are those of the command, and the drawing is README's, too.
#[test]
fn the_drawing_and_the_page() {
    let folder = Folder::new("pictures");
    let (svg, html) = (folder.path("week.svg"), folder.path("week.html"));
    let mut command = ralwinga(["week.csv".as_ref(), "--svg".as_ref(), svg.as_os_str()]);
    let command = command.arg("--html").arg(&html).current_dir(examples());
    assert!(command.output().expect("runs").status.success());
    assert_eq!(folder.read("week.svg"), read("week.svg"));
    assert_eq!(folder.read("week.html"), read("week.html"));
    assert_eq!(folder.read("week.svg"), read("../docs/plan.svg"));
}

#[test]
fn the_prices() {
    let prices = |name: &str| read_case(read(name).as_bytes()).expect("in order").prices;
    let (week, month) = (prices("week.csv"), prices("month.csv"));
    assert_eq!((week.len(), month.len()), (672, 2976));
    assert_eq!(week, month[14 * 96..21 * 96]);
    let mean = |prices: &[i64]| prices.iter().sum::<i64>() / prices.len() as i64;
    let days: Vec<&[i64]> = week.chunks(96).collect();
    for day in &days {
        // nights under evenings, and noon under both
        let (night, noon, evening) = (mean(&day[..20]), mean(&day[48..56]), mean(&day[72..84]));
        assert!(noon < night && night < evening, "{noon} {night} {evening}");
    }
    let weekend = days[5..].iter().flat_map(|day| day.iter());
    assert!(weekend.clone().any(|price| *price < 0));
    assert!(mean(&weekend.copied().collect::<Vec<_>>()) < mean(&days[..5].concat()));
    assert!(month.iter().any(|price| *price > 50_000), "no spike");
}

/// Each permit binds: a start, an hour or a MWh more is worth something, and shut hours cost something.
#[test]
fn the_permits() {
    let mut command = ralwinga(["plan", "--quiet", "--no-header"]);
    let answer = command.args(CASES).current_dir(examples()).output();
    let answer = answer.expect("runs");
    assert!(answer.status.success() && answer.stderr.is_empty());
    let table = String::from_utf8(answer.stdout).expect("text");
    let rows: Vec<Vec<&str>> = table.lines().map(|row| row.split(',').collect()).collect();
    for (row, limited) in rows.iter().zip([
        [true, true, false],
        [true, true, false],
        [true, false, false],
        [false, true, false],
        [false, false, true],
        [false, false, false],
        [true, true, false],
    ]) {
        for (adder, limited) in row[3..6].iter().zip(limited) {
            let worth = adder.parse::<f64>().is_ok_and(|amount| amount > 0.0);
            assert!(worth == limited && (limited || *adder == "none"), "{row:?}");
        }
    }
    let free = read("units/starts.csv").replacen(",4,none,none", ",none,none,none", 1);
    let folder = Folder::new("free");
    let free = folder.file("free.csv", free);
    let answer = ralwinga(["plan", "--no-header", "--out"]);
    let answer = { answer }
        .arg(folder.path("out"))
        .arg(free)
        .output()
        .expect("runs");
    let row = String::from_utf8(answer.stdout).expect("text");
    let profit = |row: &[&str]| row[2].parse::<f64>().expect("an amount");
    assert!(profit(&rows[5]) < profit(&row.split(',').collect::<Vec<_>>()));
}
