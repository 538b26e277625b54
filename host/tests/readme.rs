//! The examples of README.md, docs/CASE.md and docs/COMMAND.md: each block is what is read or what is printed, and each command runs as written.

mod support;

use ralwinga::amounts::grouped;
use ralwinga::reader::read_case;
use ralwinga::{cells, Unit};
use std::fs;
use std::path::Path;
use std::process::{Command, Output};
use support::{answer_on, proved_program, ralwinga, run_on, Folder, C1};

const DOCUMENTS: [(&str, &str); 3] = [
    ("README.md", include_str!("../../README.md")),
    ("docs/COMMAND.md", include_str!("../../docs/COMMAND.md")),
    ("docs/CASE.md", include_str!("../../docs/CASE.md")),
];

/// docs/COMMAND.md.
fn command_document() -> &'static str {
    DOCUMENTS[1].1
}

/// The blocks between fences without a word behind the first fence.
fn blocks(text: &str) -> Vec<String> {
    let mut blocks = Vec::new();
    let mut open: Option<(bool, String)> = None;
    for line in text.lines() {
        match (line.strip_prefix("```"), &mut open) {
            (Some(word), None) => open = Some((word.is_empty(), String::new())),
            (Some(_), Some((plain, block))) => {
                if *plain {
                    blocks.push(std::mem::take(block));
                }
                open = None;
            }
            (None, Some((_, block))) => block.push_str(&format!("{line}\n")),
            (None, None) => {}
        }
    }
    assert!(open.is_none(), "a fence is open");
    blocks
}

/// All blocks of the documents.
fn all_blocks() -> Vec<String> {
    DOCUMENTS
        .iter()
        .flat_map(|(_, text)| blocks(text))
        .collect()
}

fn beginning(begins: &[&str]) -> Vec<String> {
    let begins_so = |block: &String| begins.iter().any(|begin| block.starts_with(begin));
    all_blocks().into_iter().filter(begins_so).collect()
}

/// Whether one of the documents says this.
fn is_said(said: &str) -> bool {
    DOCUMENTS.iter().any(|(_, text)| text.contains(said))
}

const CASES: [&str; 2] = ["block,pmin,pmax,mot,", "year,month,day,window,"];
const COSTS: &str = "block,pmin,pmax,gas,";
const CURVES: &str = "gas,om,gmc,adder\n";

fn case() -> String {
    let case = beginning(&CASES[..1]).into_iter().next();
    case.expect("a case in README.md or docs/COMMAND.md")
}

fn printed(words: &[&str], text: &str) -> String {
    let answer = answer_on(words, text.as_bytes());
    assert!(answer.status.success(), "{text}");
    String::from_utf8(answer.stdout).expect("text")
}

/// What is printed for a block that is read.
fn answers_to(block: &str) -> Vec<String> {
    if CASES.iter().any(|begins| block.starts_with(begins)) {
        let listing = printed(&["-"], block);
        let program = run_on(proved_program(), block.as_bytes()).stdout;
        assert_eq!(program, listing.as_bytes());
        let (_, values) = listing.split_once("\n\n").expect("two tables");
        let values = values.to_string();
        return vec![listing, values, printed(&["explain", "-"], block)];
    }
    match block {
        _ if block.starts_with(COSTS) => vec![printed(&["costs", "-"], block)],
        _ if block.starts_with(CURVES) => vec![printed(&["curve", "-"], block)],
        _ => Vec::new(),
    }
}

/// The tables and the messages about the case, in files of the names that the documents have.
fn told() -> Vec<String> {
    let folder = Folder::new("readme-told");
    folder.file("north.csv", case());
    folder.file("south.csv", case().replacen("mot", "mob", 1));
    let run = |words: &[&str]| -> Output {
        let mut command = ralwinga(words);
        command
            .current_dir(folder.path("."))
            .output()
            .expect("runs")
    };
    let table = |words: &[&str]| {
        let answer = run(&[&["plan", "north.csv", "south.csv"], words].concat());
        String::from_utf8(answer.stdout).expect("text")
    };
    let mut messages = String::new();
    for (from, to) in [
        ("mot", "mob"),
        ("9000", "90.00"),
        ("10,1,2,2", "10,1,2,97"),
        ("\n", "\r\n"),
    ] {
        folder.file("unit.csv", case().replacen(from, to, 1));
        messages.push_str(&String::from_utf8_lossy(&run(&["unit.csv"]).stderr));
    }
    folder.file("unit.csv", case());
    folder.file(
        "unit.listing.csv",
        "interval,mw\n1,0\n2,20\n3,0\n4,0\n5,20\n6,20\n",
    );
    let refused = run(&["assess", "unit.csv", "unit.listing.csv"]).stderr;
    messages.push_str(&String::from_utf8_lossy(&refused));
    vec![table(&[]), table(&["--raw"]), messages]
}

/// Every block is read, or is printed for one that is.
#[test]
fn every_block() {
    let blocks = all_blocks();
    let answers: Vec<Vec<String>> = blocks.iter().map(|block| answers_to(block)).collect();
    let told = told();
    for (block, own) in blocks.iter().zip(&answers) {
        let is_printed = answers
            .iter()
            .flatten()
            .chain(&told)
            .any(|answer| answer == block);
        assert!(
            !own.is_empty() || is_printed,
            "neither read nor printed:\n{block}"
        );
    }
    for answer in told {
        assert!(blocks.contains(&answer), "in no document:\n{answer}");
    }
    assert!(blocks.contains(&C1.to_string()));
}

/// The case with four names more, where it stands in a document, and the words that are given with their hours.
#[test]
fn the_permitted_hours() {
    for dated in beginning(&CASES[1..]) {
        for (word, times) in [
            (4_194_176, "15 of 24 clock hours: 07:00-22:00"),
            (16_777_215, "24 of 24 clock hours: 00:00-24:00"),
            (0, "0 of 24 clock hours"),
        ] {
            assert!(is_said(&format!(" {} ", grouped(word))), "{word}");
            let text = dated.replacen("2024,2,3,1,", &format!("2024,2,3,{word},"), 1);
            let said = printed(&["explain", "-"], &text);
            assert!(
                said.contains(&format!("\npermitted in {times}\n")),
                "{said}"
            );
        }
    }
}

/// A copy of the examples, in which the documents' commands run.
fn examples(name: &str) -> Folder {
    let folder = Folder::new(name);
    let examples = Path::new(env!("CARGO_MANIFEST_DIR")).join("../examples");
    for part in ["", "units"] {
        for entry in fs::read_dir(examples.join(part)).expect("a folder") {
            let path = entry.expect("an entry").path();
            if path.extension().is_some_and(|ending| ending == "csv") {
                let name = Path::new(part).join(path.file_name().expect("a name"));
                folder.file(name.to_str().expect("text"), fs::read(path).expect("read"));
            }
        }
    }
    folder
}

/// What the shell makes of a line in a folder, with the command on its path.
fn shell(folder: &Folder, line: &str) -> Output {
    let program = Path::new(env!("CARGO_BIN_EXE_ralwinga"));
    let path = std::env::var("PATH").expect("a path");
    let path = format!("{}:{path}", program.parent().expect("a folder").display());
    let mut shell = Command::new("sh");
    shell
        .args(["-c", line])
        .env("PATH", path)
        .env("SLURM_ARRAY_TASK_ID", "2");
    shell
        .current_dir(folder.path("."))
        .output()
        .expect("a shell")
}

/// The lines of a document that are commands of these programs.
fn commands<'a>(text: &'a str, programs: &'a [&str]) -> impl Iterator<Item = &'a str> {
    let lines = text.lines().filter_map(|line| line.strip_prefix("    "));
    lines.filter(|line| programs.iter().any(|program| line.starts_with(program)))
}

#[test]
fn every_command() {
    for (document, text) in DOCUMENTS {
        let folder = examples("readme-commands");
        for line in commands(text, &["ralwinga "]) {
            let answer = shell(&folder, line);
            let said = String::from_utf8_lossy(&answer.stderr).to_string();
            assert!(answer.status.success(), "{document}: {line}: {said}");
        }
    }
    let page = include_str!("../ralwinga.1").replace("\\-", "-");
    let (_, lines) = page.split_once(".SH EXAMPLES\n.nf\n").expect("examples");
    let (lines, _) = lines.split_once(".fi\n").expect("an end");
    let folder = examples("manual-commands");
    for line in lines.lines() {
        assert!(shell(&folder, line).status.success(), "{line}");
    }
}

/// The listings of all units, and one row for each in the table.
fn has_all(folder: &Folder, table: &str, header: usize) {
    let units = fs::read_dir(folder.path("units")).expect("a folder");
    let names = units.map(|entry| entry.expect("an entry").path());
    let names: Vec<String> = names
        .map(|path| {
            path.file_stem()
                .expect("a name")
                .to_string_lossy()
                .to_string()
        })
        .collect();
    assert_eq!(table.lines().count(), names.len() + header, "{table}");
    for name in names {
        let listing = folder.read(&format!("plans/{name}.listing.csv"));
        assert!(listing.starts_with("interval,mw\n"), "{listing}");
    }
}

/// GNU parallel, a case at a time: one table without a heading between its rows.
#[test]
fn the_line_for_parallel() {
    let there = Command::new("parallel").arg("--version").output();
    if !there.is_ok_and(|answer| answer.status.success()) {
        println!("skipped: parallel, of Debian's package parallel, is missing");
        return;
    }
    let text = command_document();
    let lines: Vec<&str> = commands(text, &["parallel "]).collect();
    assert_eq!(lines.len(), 1);
    let folder = examples("readme-parallel");
    let answer = shell(&folder, lines[0]);
    assert!(answer.status.success());
    let table = folder.read("summary.csv");
    has_all(&folder, &table, 0);
    let columns = |row: &str| row.split(',').count();
    assert!(table
        .lines()
        .all(|row| row.starts_with("units/") && columns(row) == 12));
}

/// The shell's part of the line for Slurm, whose task number is given here.
#[test]
fn the_line_for_an_array_of_jobs() {
    let text = command_document();
    let lines: Vec<&str> = commands(text, &["sbatch "]).collect();
    assert_eq!(lines.len(), 1);
    let (front, wrapped) = lines[0].split_once("--wrap '").expect("what is run");
    let wrapped = wrapped.strip_suffix('\'').expect("a quote");
    let folder = examples("readme-array");
    let count = front.split_once("1-").expect("a number").1;
    let count = count.split(" --mem").next().expect("a number");
    let answer = shell(&folder, &format!("echo {count}"));
    assert_eq!(String::from_utf8_lossy(&answer.stdout), "5\n");
    let answer = shell(&folder, wrapped);
    assert!(answer.status.success());
    let row = String::from_utf8(answer.stdout).expect("text");
    assert!(
        row.starts_with("units/mwh.csv,0,") && row.lines().count() == 1,
        "{row}"
    );
    assert!(folder.path("plans/mwh.listing.csv").exists());
    assert_eq!(
        fs::read_dir(folder.path("plans"))
            .expect("a folder")
            .count(),
        1
    );
}

/// Cells and their memory, as the table has them.
fn sized(cells: usize) -> String {
    let (bytes, unit) = match 8 * cells {
        small if small < 1 << 20 => (1 << 10, "KiB"),
        _ => (1 << 20, "MiB"),
    };
    let tenths = (cells as f64 * 80.0 / f64::from(bytes)).round() as u64;
    let memory = format!("{}.{} {unit}", grouped(tenths / 10), tenths % 10);
    format!("= {} | {memory} |", grouped(cells as u64))
}

/// The months of the table of memory.
#[test]
fn the_cells_of_a_month() {
    let unit = read_case(case().as_bytes()).expect("a case in order").unit;
    for (starts, hours, mwh) in [
        (Some(30), None, None),
        (None, Some(200), None),
        (None, None, Some(5000)),
        (Some(30), Some(200), None),
        (Some(30), None, Some(5000)),
        (None, Some(200), Some(5000)),
    ] {
        let limited = Unit {
            block: 5,
            mot: 4,
            mdt: 4,
            starts,
            hours,
            mwh,
            ..unit
        };
        let sizes = cells(limited, 2976).expect("a case in order");
        let (layers, table) = (sized(sizes.needed), sized(sizes.table));
        let row = |line: &&str| line.contains(&layers) && line.contains(&table);
        let text = command_document();
        assert_eq!(text.lines().filter(row).count(), 1, "{layers} {table}");
    }
}

/// The sizes of the case, and of days in the program's cells where a document has them.
#[test]
fn the_cells_of_the_case_and_of_a_day() {
    let unit = read_case(case().as_bytes()).expect("a case in order").unit;
    let of_a_day = |starts, hours| Unit {
        starts,
        hours,
        ..unit
    };
    for (unit, intervals, said) in [
        (unit, 6, ["needs 168 cells", "long table has 588"]),
        (of_a_day(Some(2), None), 96, ["= 24 cells", "= 1,164"]),
        (of_a_day(Some(4), Some(12)), 96, ["= 1,960", "= 95,060"]),
    ] {
        let sizes = cells(unit, intervals).expect("a case in order");
        for (size, said) in [sizes.needed, sizes.table].into_iter().zip(said) {
            assert!(said.contains(&grouped(size as u64)), "{size} as {said}");
            assert!(intervals == 96 || is_said(said), "{said}");
        }
    }
}

/// The table of the definitions that a reader must believe is what `docs/trusted` counts.
#[test]
fn the_definitions_counted_are_those_there() {
    let counted = Command::new(Path::new(env!("CARGO_MANIFEST_DIR")).join("../docs/trusted"))
        .arg("--check")
        .output()
        .expect("docs/trusted runs");
    let said = String::from_utf8_lossy(&counted.stderr);
    assert!(counted.status.success(), "{said}");
}
