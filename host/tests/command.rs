//! The command on one case: beside the proved program, byte for byte, and its own lines and exits.

mod support;

use std::path::Path;
use std::process::{Command, Output, Stdio};
use support::{answer_on, any_case, damage_text, month, paper, proved_program, ralwinga};
use support::{limited, run_on, run_unread, text_of, Folder, Random, C1};

const CASES: usize = 500;

#[test]
fn the_listing_is_the_proved_programs() {
    let mut random = Random::new(9);
    let mut refused = 0;
    for _ in 0..CASES {
        let case = any_case(&mut random);
        let mut text = text_of(&mut random, &case.unit, &case.prices).into_bytes();
        let damaged = random.one_in(4);
        if damaged {
            damage_text(&mut random, &mut text);
        }
        if text.len() > 12_288 {
            continue;
        }
        let expected = run_on(proved_program(), &text);
        let answer = answer_on(&["--cells", "4000", "-"], &text);
        let shown = String::from_utf8_lossy(&text);
        assert_eq!(answer.stdout, expected.stdout, "{shown}");
        assert_eq!(answer_on(&["plan", "--cells", "4000", "-"], &text), answer);
        if !damaged {
            let by_enumeration = paper::printed(
                &case.unit,
                &paper::answer_to_text(&case.unit, &case.prices, 4000),
            );
            assert_eq!(answer.stdout, by_enumeration.as_bytes(), "{shown}");
        }
        let is_refusal = expected.stdout.starts_with(b"refused,");
        refused += is_refusal as usize;
        assert_eq!(answer.status.code(), Some(is_refusal as i32));
    }
    assert!(refused > 20 && refused < CASES - 20, "{refused} refusals");
}

/// One line on standard error, a non-zero exit, and this on standard output.
fn stops(answer: &Output, status: i32, stdout: &str, said: &str) {
    assert_eq!(answer.status.code(), Some(status));
    assert_eq!(String::from_utf8_lossy(&answer.stdout), stdout);
    let line = String::from_utf8_lossy(&answer.stderr);
    assert_eq!(line.lines().count(), 1, "{line}");
    assert!(
        line.starts_with("ralwinga: ") && line.contains(said),
        "{line}"
    );
}

/// Words, and what is said of them.
#[rustfmt::skip]
const BAD_ARGUMENTS: [(&[&str], &str); 16] = [
    (&[], "<CASE>...; usage: ralwinga <CASE>..."),
    (&["--unknown", "case"], "'--unknown'"),
    (&["--cells"], "usage: ralwinga "),
    (&["--cells", "many", "case"], "'many'"),
    (&["--svg"], "usage: ralwinga "),
    (&["plan"], "usage: ralwinga plan "),
    (&["plan", "--jobs", "0", "case"], "'0'"),
    (&["assess", "case"], "usage: ralwinga assess <CASE> <LISTING>"),
    (&["assess", "-", "-"], "cannot both be standard input"),
    (&["costs", "one", "two"], "'two'"),
    (&["curve"], "usage: ralwinga curve "),
    (&["curve", "one", "--html", "page"], "'--html'"),
    (&["explain"], "usage: ralwinga explain "),
    (&["completion", "no-shell"], "'no-shell'"),
    (&["one", "two", "--svg", "drawing"], "--svg and --html are for one case"),
    (&["one", "--out", "folder", "--html", "page"], "--svg and --html are for one case"),
];

#[test]
fn bad_arguments() {
    for (words, said) in BAD_ARGUMENTS {
        let answer = ralwinga(words).output().expect("runs");
        stops(&answer, 2, "", said);
    }
}

#[test]
fn bad_files() {
    for words in [
        &["no such file"][..],
        &["costs", "no such file"],
        &["curve", "no such file"],
        &["explain", "no such file"],
        &["assess", "/dev/null", "no such file"],
    ] {
        let answer = ralwinga(words).output().expect("runs");
        stops(&answer, 1, "", "cannot read no such file: ");
    }
}

#[test]
fn refusals_and_drawings_that_fail() {
    stops(
        &answer_on(&["-"], b"\xff\x00"),
        1,
        "refused,1\n",
        "(refused, 1: the text",
    );
    let answer = answer_on(&["-"], C1.replacen("mot", "mob", 1).as_bytes());
    let said = "standard input: line 1, column 17: 'mob' is unknown (did you mean 'mot'?), 'mot' is missing";
    stops(&answer, 1, "refused,2\n", said);
    let drawing = "/no/such/folder/drawing";
    let answer = answer_on(&["-", "--svg", drawing], C1.as_bytes());
    assert_eq!(answer.status.code(), Some(1));
    assert!(answer.stdout.starts_with(b"interval,mw\n"));
    let said = String::from_utf8_lossy(&answer.stderr);
    assert!(
        said.contains(&format!("cannot write {drawing}: ")),
        "{said}"
    );
}

#[rustfmt::skip]
const HELP: [(&[&str], &str); 8] = [
    (&["--help"], "What is proved: "),
    (&["-h"], "Usage: ralwinga [OPTIONS] <CASE>..."),
    (&["plan", "--help"], "Usage: ralwinga plan [OPTIONS] <CASE>..."),
    (&["assess", "--help"], "Usage: ralwinga assess [OPTIONS] <CASE> <LISTING>"),
    (&["costs", "--help"], "Usage: ralwinga costs [OPTIONS] <INPUTS>"),
    (&["curve", "--help"], "Usage: ralwinga curve [OPTIONS] <INPUTS>"),
    (&["explain", "--help"], "Usage: ralwinga explain [OPTIONS] <CASE>"),
    (&["completion", "--help"], "Usage: ralwinga completion <SHELL>"),
];

#[test]
fn help_and_version() {
    let version = concat!("ralwinga ", env!("CARGO_PKG_VERSION"), "\n");
    for (words, expected) in HELP.into_iter().chain([(&["--version"][..], version)]) {
        let answer = ralwinga(words).output().expect("runs");
        assert_eq!(answer.status.code(), Some(0));
        assert!(answer.stderr.is_empty());
        let said = String::from_utf8(answer.stdout).expect("text");
        assert!(said.contains(expected), "{said}");
    }
}

#[test]
fn memory_is_said_and_capped() {
    let answer = answer_on(&["--cells", "588", "-"], C1.as_bytes());
    assert!(answer.stdout.starts_with(b"interval,mw\n1,0\n2,20\n"));
    assert_eq!(answer.stderr, b"ralwinga: 588 cells, 4.6 KiB of scratch\n");
    let listing = answer.stdout;
    for cells in ["587", "168"] {
        let answer = answer_on(&["--cells", cells, "-"], C1.as_bytes());
        assert_eq!(answer.stdout, listing);
        let said = "ralwinga: 168 cells, 1.3 KiB of scratch: two layers, since the long table of 588 cells does not fit\n";
        assert_eq!(String::from_utf8_lossy(&answer.stderr), said);
    }
    let answer = answer_on(&["--cells", "167", "-"], C1.as_bytes());
    stops(&answer, 1, "refused,8\n", "needs 168 cells");
    stops(&answer, 1, "refused,8\n", "--cells allows 167; it fits with 168 cells, or the first 5 of the 6 prices, or starts none, or hours none");
}

/// What the command makes of a case where the system gives it so many KiB for all it has.
fn in_kib(case: &Path, kib: u32) -> Output {
    limited(&format!("'{}'", case.display()), kib, |_| ())
}

/// Where the system does not give what it says is free, the case is planned in two layers too.
#[test]
fn memory_that_is_not_given() {
    let folder = Folder::new("not-given");
    // 352 cells to a layer: 8.0 MiB the 2,977 of the long table
    let text = month().replacen(",2,2,none", ",87,none,none", 1);
    let case = folder.file("month.csv", text);
    let expected = ralwinga([&case]).output().expect("runs");
    let said = "ralwinga: 1047904 cells, 8.0 MiB of scratch\n";
    assert_eq!(String::from_utf8_lossy(&expected.stderr), said);
    // less and less, until the long table does not go beside the command itself
    let mut answers = (4..=20).rev().map(|times| in_kib(&case, 2000 * times));
    let answer = answers
        .find(|answer| answer.stderr != expected.stderr)
        .expect("a limit too low");
    assert_eq!(answer.stdout, expected.stdout);
    let again = "month.csv: 704 cells, 5.5 KiB of scratch: two layers, since the long table of 1047904 cells does not fit\n";
    let both = String::from_utf8_lossy(&answer.stderr).to_string();
    assert!(both.starts_with(said) && both.ends_with(again), "{both}");
    assert_eq!(both.lines().count(), 2, "{both}");
}

/// Two layers that the system does not give.
#[test]
fn two_layers_that_are_not_given() {
    let folder = Folder::new("wide");
    let mut text = C1.lines().take(4).collect::<Vec<_>>().join("\n") + "\n";
    // 1,152,192 cells to a layer: 8.8 MiB
    text = text.replacen("10,1,2,2,2,0,2,", "1,1,500,96,96,0,96,", 1);
    text = text.replacen(",2,2,none", ",none,none,5000", 1);
    text.push_str(&"9000\n".repeat(12));
    let case = folder.file("wide.csv", &text);
    let answer = in_kib(&case, 100_000);
    assert_eq!(answer.status.code(), Some(0));
    let said = "ralwinga: 2304384 cells, 17.6 MiB of scratch: two layers, which are faster than the long table of 14978496 cells\n";
    assert_eq!(String::from_utf8_lossy(&answer.stderr), said);
    let answer = in_kib(&case, 20_000);
    assert_eq!(answer.stdout, b"refused,8\n");
    let said = String::from_utf8_lossy(&answer.stderr).to_string();
    assert!(
        said.contains(
            "; the system gives at most 2304383; it fits with 2304384 cells, or the first "
        ),
        "{said}"
    );
}

/// A month is longer than the proved reader takes.
#[test]
fn a_month_with_a_drawing() {
    let folder = Folder::new("month");
    let text = month();
    assert!(text.len() > 12_288);
    let case = folder.file("month", &text);
    let drawing = folder.path("month.svg");
    let answer = ralwinga([case.as_os_str(), "--svg".as_ref(), drawing.as_os_str()]).output();
    let answer = answer.expect("runs");
    assert_eq!(answer.status.code(), Some(0));
    let listing = String::from_utf8(answer.stdout).expect("bytes of the listing");
    assert_eq!(listing.lines().count(), 1 + 2976 + 1 + 5);
    // two hours: 8 intervals at 20 MW and 10,000 cents in one run, less what they cost and one start
    assert!(listing.contains("\nprofit,1100000\n"), "{listing}");
    let svg = folder.read("month.svg");
    assert!(svg.starts_with("<svg") && svg.ends_with("</svg>\n"));
}

/// A reader that goes away after some bytes leaves no trace; a disk that is full does.
#[test]
fn output_that_is_not_taken() {
    let folder = Folder::new("pipe");
    let case = folder.file("month", month());
    for subcommand in ["plan", "explain"] {
        let (status, said) = run_unread(ralwinga([subcommand.as_ref(), case.as_os_str()]));
        assert_eq!(status, Some(0), "{said}");
        assert_eq!(said.lines().count(), 1, "{said}");
    }
    // with nobody at standard error either
    let mut command = ralwinga(["no such file"]);
    command.stdout(Stdio::piped()).stderr(Stdio::piped());
    let mut child = command.spawn().expect("starts");
    drop((child.stdout.take(), child.stderr.take()));
    assert_eq!(child.wait().expect("ends").code(), Some(1));
    let full = std::fs::File::options().write(true).open("/dev/full");
    let mut command = ralwinga([&case]);
    command
        .stdout(full.expect("a device that is always full"))
        .stderr(Stdio::piped());
    let answer = command.output().expect("runs");
    assert_eq!(answer.status.code(), Some(1));
    assert!(String::from_utf8_lossy(&answer.stderr).contains("cannot write standard output: "));
}

/// What bash offers for words begun.
#[test]
fn completion() {
    let script = ralwinga(["completion", "bash"]).output().expect("runs");
    let script = String::from_utf8(script.stdout).expect("text");
    for (words, offered) in [
        ("ex", "explain"),
        ("plan --o", "--out"),
        ("plan --ra", "--raw"),
        ("plan --no", "--no-header"),
        ("explain --q", "--quiet"),
        ("costs --cr", "--crlf"),
        ("--ht", "--html"),
        ("cu", "curve"),
        ("curve --s", "--svg"),
    ] {
        let last = words.rsplit(' ').next().expect("a word");
        let count = words.split(' ').count();
        let asked = format!(
            "{script}\nCOMP_WORDS=(ralwinga {words}); COMP_CWORD={count}; _ralwinga ralwinga '{last}'; echo \"${{COMPREPLY[@]}}\""
        );
        let answer = Command::new("bash").args(["-c", &asked]).output();
        let answer = String::from_utf8(answer.expect("bash").stdout).expect("text");
        assert_eq!(answer.trim(), offered);
    }
}
