//! Many cases in one run: their table beside the library and beside enumeration, their listings beside the proved program, and the files that go wrong.

mod support;

use ralwinga::{cells, report_into, Case, Report};
use std::ffi::OsStr;
use std::os::unix::ffi::OsStrExt;
use std::os::unix::fs::PermissionsExt;
use std::path::PathBuf;
use std::process::Output;
use support::{any_case, month, paper, proved_program, ralwinga, run_on, run_unread};
use support::{text_of, Folder, Random, C1};

const FILES: usize = 500;
const HEAD: &str = "file,number,profit,starts,hours,mwh\n";

/// The number, or the report by the library, from one call to the next.
fn by_the_library(case: &Case) -> Result<Report, u64> {
    let Case { unit, prices } = case;
    let answer = cells(*unit, prices.len()).and_then(|cells| {
        let (mut scratch, mut schedule) = (vec![0; cells.table], vec![0; prices.len()]);
        report_into(*unit, prices, &mut scratch, &mut schedule)
    });
    answer.map_err(|refusal| refusal.number())
}

fn row(file: &str, answer: &Result<Report, u64>) -> String {
    match answer {
        Ok(report) => format!("{file},0,{}\n", paper::figures_printed(report).join(",")),
        Err(number) => format!("{file},{number},0,none,none,none\n"),
    }
}

fn text(bytes: &[u8]) -> String {
    String::from_utf8(bytes.to_vec()).expect("text")
}

/// The table in quarter-cents and the exit status.
fn table_of(words: &[&str], files: &[PathBuf]) -> (String, Output) {
    let mut command = ralwinga(words);
    let output = command.arg("--raw").args(files).output().expect("runs");
    (text(&output.stdout), output)
}

#[test]
fn five_hundred_files() {
    let folder = Folder::new("many");
    let out = folder.path("plans/of a day");
    let mut random = Random::new(21);
    let (mut files, mut expected, mut refused) = (Vec::new(), HEAD.to_string(), 0);
    let mut cases = Vec::new();
    for i in 0..FILES {
        let case = any_case(&mut random);
        let text = text_of(&mut random, &case.unit, &case.prices);
        let file = folder.file(&format!("unit{i}.csv"), &text);
        let answer = match paper::writable(&case.unit, &case.prices) {
            true => by_the_library(&case),
            false => Err(1),
        };
        let enumerated = paper::answer_to_text(&case.unit, &case.prices, usize::MAX);
        assert_eq!(answer, enumerated.clone().map(|(report, _)| report));
        refused += usize::from(answer.is_err());
        expected.push_str(&row(file.to_str().expect("text"), &answer));
        files.push(file);
        cases.push((text, case, enumerated));
    }
    assert!(refused > 20 && refused < FILES - 20, "{refused} refusals");
    for jobs in [&[][..], &["--jobs", "1"], &["--jobs", "7"]] {
        let words = [&["plan", "--out", out.to_str().expect("text")], jobs].concat();
        let (table, output) = table_of(&words, &files);
        assert_eq!(table, expected);
        assert_eq!(output.status.code(), Some(1));
        // how much memory, and a line for each that is refused
        assert_eq!(text(&output.stderr).lines().count(), 1 + refused);
    }
    for (i, (text, Case { unit, prices }, enumerated)) in cases.iter().enumerate() {
        let listing = folder.read(&format!("plans/of a day/unit{i}.listing.csv"));
        assert_eq!(listing, paper::printed(unit, enumerated), "{text}");
        if i % 10 == 0 && text.len() <= 12_288 && !listing.contains("refused,") {
            let program = run_on(proved_program(), text.as_bytes()).stdout;
            let fits = paper::used(unit, prices.len(), 4000).is_ok();
            let expected = if fits { &listing } else { "refused,8\n" };
            assert_eq!(program, expected.as_bytes(), "{text}");
        }
    }
}

#[test]
fn one_refused_among_many() {
    let folder = Folder::new("refused");
    let files = [
        folder.file("a.csv", C1),
        folder.file("b.csv", C1.replacen("8000\n", "eight\n", 1)),
        folder.path("missing.csv"),
        folder.file("d.csv", C1),
    ];
    let (table, output) = table_of(&["plan"], &files);
    let rows: Vec<String> = table
        .lines()
        .map(|line| line.rsplit('/').next().expect("a line").to_string())
        .collect();
    assert_eq!(
        rows,
        [
            "file,number,profit,starts,hours,mwh",
            "a.csv,0,400000,400000,320000,none",
            "b.csv,1,0,none,none,none",
            "missing.csv,unread,0,none,none,none",
            "d.csv,0,400000,400000,320000,none",
        ]
    );
    assert_eq!(output.status.code(), Some(1));
    let said = text(&output.stderr);
    assert!(
        said.contains("b.csv: line 7, column 1: 'eight' is no value"),
        "{said}"
    );
    assert!(said.contains("cannot read"), "{said}");
    let (_, output) = table_of(&["plan"], &[files[0].clone(), files[3].clone()]);
    assert_eq!(output.status.code(), Some(0));
}

/// The short form takes many, too; and with a folder one file is told as many are.
#[test]
fn short_form_and_one_file() {
    let folder = Folder::new("short");
    let (a, b) = (folder.file("a", C1), folder.file("b", C1));
    let (table, _) = table_of(&[], &[a.clone(), b]);
    assert_eq!(table.lines().count(), 3);
    let out = folder.path("out");
    let (table, output) = table_of(&["--out", out.to_str().expect("text")], &[a]);
    assert!(table.starts_with(HEAD) && table.ends_with("/a,0,400000,400000,320000,none\n"));
    assert_eq!(output.status.code(), Some(0));
    assert!(folder
        .read("out/a.listing.csv")
        .starts_with("interval,mw\n1,0\n2,20\n"));
}

/// Months are longer than the proved reader takes, and each has its memory.
#[test]
fn seven_months() {
    let folder = Folder::new("months");
    let files: Vec<PathBuf> = (0..7)
        .map(|i| folder.file(&format!("month{i}.csv"), month()))
        .collect();
    let (table, output) = table_of(&["plan", "--jobs", "3"], &files);
    assert_eq!(output.status.code(), Some(0));
    assert!(text(&output.stderr).starts_with("ralwinga: 7 cases, 3 at a time, at most "));
    let rows = table.lines().skip(1);
    assert_eq!(rows.filter(|row| row.contains(",0,1100000,")).count(), 7);
}

#[test]
fn names_that_meet() {
    let folder = Folder::new("names");
    let files = [folder.file("a/x.csv", C1), folder.file("b/x.csv", C1)];
    let out = folder.path("out");
    let (table, output) = table_of(&["plan", "--out", out.to_str().expect("text")], &files);
    assert_eq!((table.as_str(), output.status.code()), ("", Some(2)));
    assert!(text(&output.stderr).contains("would both be written to"));
    assert!(!out.exists());
    // without a folder there is nothing to meet in
    let (table, output) = table_of(&["plan"], &files);
    assert_eq!((table.lines().count(), output.status.code()), (3, Some(0)));
}

/// A second run over a folder that holds the listings of the first.
#[test]
fn a_listing_among_the_cases() {
    let folder = Folder::new("again");
    let case = folder.file("x.csv", C1);
    let out = folder.path("").display().to_string();
    let (_, output) = table_of(&["plan", "--out", &out], std::slice::from_ref(&case));
    assert_eq!(output.status.code(), Some(0));
    let listing = folder.path("x.listing.csv");
    let (table, output) = table_of(&["plan", "--out", &out], &[case, listing]);
    assert_eq!((table.as_str(), output.status.code()), ("", Some(2)));
    assert!(text(&output.stderr).contains("x.listing.csv is the input "));
    let (table, output) = table_of(&["plan"], &["-".into(), "-".into()]);
    assert_eq!((table.as_str(), output.status.code()), ("", Some(2)));
}

/// A name with a comma and a quote stays one field of the table; any bytes are a name.
#[test]
fn names_of_any_kind() {
    let folder = Folder::new("quoted");
    folder.file("a,\"b\".csv", C1);
    let odd = OsStr::from_bytes(b"\xff.csv");
    std::fs::write(folder.path("").join(odd), C1).expect("written");
    let mut command = ralwinga(["plan".as_ref(), "--out".as_ref(), ".".as_ref(), odd]);
    command.args(["a,\"b\".csv", "--raw"]);
    command.current_dir(folder.path(""));
    let table = command.output().expect("runs").stdout;
    let expected = [
        HEAD.as_bytes(),
        b"\xff.csv,0,400000,400000,320000,none\n",
        b"\"a,\"\"b\"\".csv\",0,400000,400000,320000,none\n",
    ];
    assert_eq!(table, expected.concat());
    let listing = folder.path("").join(OsStr::from_bytes(b"\xff.listing.csv"));
    assert!(listing.exists());
}

#[test]
fn a_folder_that_cannot_be_written() {
    let folder = Folder::new("unwritable");
    let files = [folder.file("a.csv", C1), folder.file("b.csv", C1)];
    // a file stands where the folder should be
    let taken = folder.file("taken", "");
    let (table, output) = table_of(&["plan", "--out", taken.to_str().expect("text")], &files);
    assert_eq!((table.as_str(), output.status.code()), ("", Some(1)));
    assert!(text(&output.stderr).contains("cannot write"));
    // one listing cannot be written: a folder has its name
    let out = folder.path("out");
    std::fs::create_dir_all(out.join("a.listing.csv")).expect("made");
    let (table, output) = table_of(&["plan", "--out", out.to_str().expect("text")], &files);
    assert_eq!(table.matches(",0,400000,").count(), 2);
    assert_eq!(output.status.code(), Some(1));
    assert!(text(&output.stderr).contains("a.listing.csv: "));
    assert!(folder
        .read("out/b.listing.csv")
        .starts_with("interval,mw\n"));
    // a folder without the right to write, which does not hold for root
    let closed = folder.path("closed");
    std::fs::create_dir_all(&closed).expect("made");
    std::fs::set_permissions(&closed, std::fs::Permissions::from_mode(0o555)).expect("closed");
    if std::fs::write(closed.join("tried"), "").is_err() {
        let (table, output) = table_of(&["plan", "--out", closed.to_str().expect("text")], &files);
        assert_eq!(table.matches(",0,400000,").count(), 2);
        assert_eq!(output.status.code(), Some(1));
    }
}

#[test]
fn a_table_that_nobody_reads() {
    let folder = Folder::new("closed-pipe");
    let files = [folder.file("a.csv", C1), folder.file("b.csv", C1)];
    let mut command = ralwinga(["plan"]);
    command.args(&files);
    let (status, said) = run_unread(command);
    assert_eq!((status, said.lines().count()), (Some(0), 1), "{said}");
}
