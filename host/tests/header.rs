//! The C header: hosts in C over it print what the command prints.

mod support;

use ralwinga::{Case, Cells, Unit, Window};
use std::path::{Path, PathBuf};
use std::process::Command;
use support::points::{any_points, text_of_points};
use support::{answer_on, any_case, c1, paper, run_on, text_of, Folder, Random, FULL};

const CASES: usize = 200;

/// A host in C, compiled with the linker that Rust links with, warnings as errors.
fn compiled(folder: &Folder, source: &str) -> PathBuf {
    let root = Path::new(env!("CARGO_MANIFEST_DIR"));
    let program = folder.path("host");
    let library = std::env::var("RALWINGA_LIBRARY")
        .map_or_else(|_| root.join("../crates/exports/out"), PathBuf::from);
    let status = Command::new("cc")
        .args(["-std=c99", "-Wall", "-Wextra", "-Werror", "-O2", "-I"])
        .arg(root.join("include"))
        .arg(root.join("tests/c").join(source))
        .arg(library.join("libexports.a"))
        .arg("-o")
        .arg(&program)
        .status()
        .expect("a C compiler");
    assert!(status.success());
    program
}

#[test]
fn a_host_in_c() {
    let folder = Folder::new("c");
    let program = compiled(&folder, "host.c");
    let mut random = Random::new(10);
    for _ in 0..CASES {
        let case = any_case(&mut random);
        let text = text_of(&mut random, &case.unit, &case.prices).into_bytes();
        if text.len() > 12_288 {
            continue;
        }
        let expected = answer_on(&["-"], &text);
        for words in [&[][..], &["in two layers"]] {
            let mut host = Command::new(&program);
            host.args(words);
            assert_eq!(run_on(host, &text).stdout, expected.stdout);
        }
    }
}

/// `none` as a number.
const NONE: u64 = u64::MAX;

/// The numbers of a record, each of the four of its window too.
fn numbers_of_unit(u: &Unit) -> Vec<u64> {
    let limits = [u.starts, u.hours, u.mwh].map(|limit| limit.unwrap_or(NONE));
    let window = u.window.map(|w| [w.year, w.month, w.day, w.word]);
    let others = [
        u.block, u.pmin, u.pmax, u.mot, u.mdt, u.was, u.held, u.vec, u.mlc, u.suc,
    ];
    [&others[..], &limits, &window.unwrap_or([NONE; 4])].concat()
}

#[test]
fn a_record_in_c() {
    let folder = Folder::new("c-read");
    let program = compiled(&folder, "read.c");
    let mut random = Random::new(13);
    let (mut with, mut refused) = (0, 0);
    for _ in 0..CASES {
        let Case { unit, prices } = any_case(&mut random);
        let text = text_of(&mut random, &unit, &prices).into_bytes();
        let written = paper::writable(&unit, &prices).then_some(()).ok_or(1);
        let expected = match written.and_then(|()| paper::judge_case(&unit, &prices)) {
            Ok(()) => [vec![0, prices.len() as u64], numbers_of_unit(&unit)].concat(),
            // zeros, of date and word too, and `none` for limitations
            Err(number) => [vec![number], vec![0; 11], vec![NONE; 3], vec![0; 4]].concat(),
        };
        with += usize::from(expected[0] == 0 && unit.window.is_some());
        refused += usize::from(expected[0] > 0);
        let answer = run_on(Command::new(&program), &text);
        let said = String::from_utf8(answer.stdout).expect("text");
        let numbers = said
            .split_whitespace()
            .map(|n| n.parse().expect("a number"));
        assert_eq!(numbers.collect::<Vec<u64>>(), expected, "{unit:?}");
    }
    assert!(
        with > 20 && refused > 20,
        "{with} windows, {refused} refused"
    );
}

/// The window of four numbers: none where all are `none`; no window where a part of them is.
fn window_of([year, month, day, word]: [u64; 4]) -> Result<Option<Window>, u64> {
    let window = Window {
        year,
        month,
        day,
        word,
    };
    let numbers = [year, month, day, word];
    match numbers.iter().filter(|number| **number == NONE).count() {
        0 => Ok(Some(window)),
        4 => Ok(None),
        _ => Err(3),
    }
}

/// What the host in C is to print for a unit's window.
fn numbers_of(four: [u64; 4]) -> String {
    let [year, month, day, word] = four;
    let prices = c1().prices;
    let judged = window_of(four).and_then(|window| {
        let unit = Unit {
            window,
            ..c1().unit
        };
        let (report, _) = paper::reported(&unit, &prices)?;
        Ok((paper::cells(&unit, prices.len()), report))
    });
    let (number, needed, table, count, profit) = match judged {
        Ok((Cells { needed, table }, report)) => (0, needed, table, report.count, report.profit),
        Err(number) => (number, 0, 0, 0, 0),
    };
    // by the first hour a day has not come to a change of time; interval 6 is in the second
    let on_date = |number| match number {
        0 => (0, 1),
        number => (number, 0),
    };
    let dated = Unit {
        window: Some(Window {
            year,
            month,
            day,
            word: 0,
        }),
        ..c1().unit
    };
    let (refused, hour) = on_date(paper::judge_case(&dated, &prices).err().unwrap_or(0));
    let listed = if word > FULL && word != NONE { 3 } else { 0 };
    format!(
        "{number},{needed},{table},{number},{number},{count},{profit},{number},{number},{profit},{refused},{hour},{listed}"
    )
}

/// Any of the four at `none`, out of its range or in it.
#[test]
fn a_window_in_c() {
    let folder = Folder::new("c-window");
    let program = compiled(&folder, "window.c");
    for year in [NONE, NONE - 1, 0, 2006, 2007, 2023, 2024, 2099, 2100] {
        let mut given = Vec::new();
        for month in [NONE, 0, 1, 2, 12, 13] {
            for day in [NONE, 0, 1, 29, 30, 31, 32] {
                let words = [NONE, NONE - 1, 0, 1, 2, FULL, FULL + 1];
                given.extend(words.map(|word| [year, month, day, word]));
            }
        }
        let lines: Vec<String> = given
            .iter()
            .map(|four| four.map(|number| number.to_string()).join(" "))
            .collect();
        let answer = run_on(Command::new(&program), lines.join("\n").as_bytes());
        let said = String::from_utf8(answer.stdout).expect("text");
        assert_eq!(said.lines().count(), given.len());
        for (four, line) in given.into_iter().zip(said.lines()) {
            assert_eq!(line, numbers_of(four), "{four:?}");
        }
    }
    // none of the four, and one of them
    assert!(numbers_of([NONE; 4]).starts_with("0,168,588,0,0,6,400000,"));
    assert!(numbers_of([NONE, 2, 3, 1]).starts_with("3,0,0,3,3,0,0,"));
}

#[test]
fn a_curve_in_c() {
    let folder = Folder::new("c-curve");
    let program = compiled(&folder, "curve.c");
    let mut random = Random::new(12);
    for _ in 0..CASES {
        let mut points = any_points(&mut random);
        let count = points.levels.len().min(points.rates.len());
        points.levels.truncate(count);
        points.rates.truncate(count);
        let k = points.inputs;
        let figures = [k.gas, k.om, k.gmc, k.adder, count as u64].into_iter();
        let figures: Vec<u64> = figures
            .chain(points.levels.clone())
            .chain(points.rates.clone())
            .collect();
        // what the command's text and the host's lists hold
        if count > 16 || figures.iter().any(|figure| *figure > 9_999_999_999) {
            continue;
        }
        let text = text_of_points(&mut random, &points);
        let expected = answer_on(&["curve", "-"], text.as_bytes());
        let figures: Vec<String> = figures.iter().map(u64::to_string).collect();
        let answer = run_on(Command::new(&program), figures.join(" ").as_bytes());
        assert_eq!(answer.stdout, expected.stdout, "{text}");
    }
}
