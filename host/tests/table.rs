//! The table of many cases: dollars under headings that say so, quarter-cents with `--raw`, with or without its heading.

mod support;

use std::process::Output;
use support::{ralwinga, Folder, C1};

const HEAD: &str = "file,number,profit_usd,start_adder_usd,hour_adder_usd,mwh_adder_usd,\
                    starts_used,starts_left,hours_used,hours_left,mwh_used,mwh_left\n";

fn run(folder: &Folder, words: &[&str]) -> Output {
    let mut command = ralwinga(words);
    command.current_dir(folder.path(""));
    command.output().expect("runs")
}

fn printed(folder: &Folder, words: &[&str]) -> String {
    String::from_utf8(run(folder, words).stdout).expect("text")
}

/// C1 with other limitations.
fn limited(starts: &str, hours: &str, mwh: &str) -> String {
    C1.replacen(",2,2,none", &format!(",{starts},{hours},{mwh}"), 1)
}

fn folder_of_cases(name: &str) -> Folder {
    let folder = Folder::new(name);
    folder.file("c1.csv", C1);
    folder.file("free.csv", limited("none", "none", "none"));
    folder.file("mwh.csv", limited("none", "none", "10"));
    folder.file("empty.csv", limited("0", "1", "none"));
    // a loss of fractions of a cent: on, and may not go off
    let on = C1.replacen(",2,2,0,2,3000,30000,", ",9,2,1,1,3000,30001,", 1);
    folder.file(
        "loss.csv",
        on.replacen("2000\n9000\n8000\n1000\n7000\n10000\n", "1001\n", 1),
    );
    folder.file("bad.csv", C1.replacen("mot", "mob", 1));
    folder
}

/// Profit and adders by the listing, in quarter-cents: 400 to the dollar.
#[test]
fn dollars_with_what_is_used_and_left() {
    let folder = folder_of_cases("table");
    let cases = [
        "c1.csv",
        "free.csv",
        "mwh.csv",
        "empty.csv",
        "loss.csv",
        "bad.csv",
        "missing.csv",
    ];
    let table = printed(&folder, &[&["plan"][..], &cases].concat());
    let rows = [
        "c1.csv,0,1000.00,1000.00,800.00,none,1,1,1.25,0.75,22.5,none\n",
        "free.csv,0,1000.00,none,none,none,1,none,1.25,none,22.5,none\n",
        "mwh.csv,0,525.00,none,none,0.00,2,none,0.75,none,10,0\n",
        "empty.csv,0,0.00,empty,empty,none,0,0,0,1,0,none\n",
        "loss.csv,0,-49.9775,0.00,never,none,0,2,0.25,1.75,2.5,none\n",
        "bad.csv,2,,,,,,,,,,\n",
        "missing.csv,unread,,,,,,,,,,\n",
    ];
    assert_eq!(table, format!("{HEAD}{}", rows.concat()));
    let columns = |line: &str| line.split(',').count();
    assert!(table.lines().all(|line| columns(line) == columns(HEAD)));
}

/// The machine form, byte for byte as it was.
#[test]
fn quarter_cents() {
    let folder = folder_of_cases("raw");
    let cases = ["c1.csv", "mwh.csv", "bad.csv", "missing.csv"];
    let table = printed(&folder, &[&["plan", "--raw"][..], &cases].concat());
    let rows = "c1.csv,0,400000,400000,320000,none\n\
                mwh.csv,0,210000,none,none,0\n\
                bad.csv,2,0,none,none,none\n\
                missing.csv,unread,0,none,none,none\n";
    assert_eq!(
        table,
        format!("file,number,profit,starts,hours,mwh\n{rows}")
    );
}

/// Rows that can be put under each other.
#[test]
fn no_heading() {
    let folder = folder_of_cases("headless");
    for form in [&[][..], &["--raw"]] {
        let words =
            |more: &[&'static str]| [&["plan", "c1.csv", "mwh.csv"][..], form, more].concat();
        let table = printed(&folder, &words(&[]));
        let headless = printed(&folder, &words(&["--no-header"]));
        let (_, rows) = table.split_once('\n').expect("a heading");
        assert_eq!(headless, rows);
    }
    // and with one case and a folder
    let row = printed(&folder, &["--no-header", "--out", "out", "c1.csv"]);
    assert_eq!(
        row,
        "c1.csv,0,1000.00,1000.00,800.00,none,1,1,1.25,0.75,22.5,none\n"
    );
}

/// The listing has its form whatever the words are.
#[test]
fn the_listing_stays() {
    let folder = folder_of_cases("listing");
    let listing = printed(&folder, &["c1.csv"]);
    assert!(listing.ends_with("profit,400000\nstarts,400000\nhours,320000\nmwh,none\n"));
    assert_eq!(
        printed(&folder, &["c1.csv", "--raw", "--no-header"]),
        listing
    );
}

/// Nothing on standard error where all was answered; what went wrong is said.
#[test]
fn quiet() {
    let folder = folder_of_cases("quiet");
    for words in [
        &["c1.csv", "--quiet"][..],
        &["plan", "--quiet", "c1.csv", "mwh.csv"],
        &["explain", "--quiet", "c1.csv"],
        &["plan", "--quiet", "--cells", "168", "c1.csv"],
        &[
            "plan",
            "--quiet",
            "c1.csv",
            "--html",
            "page.html",
            "--svg",
            "plan.svg",
        ],
    ] {
        let answer = run(&folder, words);
        assert!(
            answer.status.success() && !answer.stdout.is_empty(),
            "{words:?}"
        );
        assert!(answer.stderr.is_empty(), "{words:?}");
    }
    let answer = run(&folder, &["plan", "--quiet", "c1.csv", "bad.csv"]);
    assert_eq!(answer.status.code(), Some(1));
    let said = String::from_utf8(answer.stderr).expect("text");
    assert!(
        said.starts_with("ralwinga: bad.csv: ") && said.lines().count() == 1,
        "{said}"
    );
}

#[test]
fn quiet_on_a_terminal() {
    let folder = folder_of_cases("quiet-terminal");
    let line = format!("'{}' --quiet c1.csv", env!("CARGO_BIN_EXE_ralwinga"));
    let mut script = std::process::Command::new("script");
    script.args(["-qec", &line, "/dev/null"]);
    let answer = script
        .current_dir(folder.path(""))
        .output()
        .expect("script");
    let shown = String::from_utf8(answer.stdout).expect("text");
    assert!(shown.starts_with("interval,mw"), "{shown}");
}
