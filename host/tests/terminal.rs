//! What is shown on a terminal while the work goes on, and what is not shown elsewhere. `script` lends the terminal.

mod support;

use std::path::PathBuf;
use std::process::Command;
use support::{month, ralwinga, Folder};

/// A month whose cells take some tenths of a second.
fn long_month() -> String {
    month().replacen(",5000,2,2,none", ",5000,30,200,none", 1)
}

/// What the command writes to a terminal.
fn on_a_terminal(words: &str, files: &[PathBuf]) -> String {
    let command = env!("CARGO_BIN_EXE_ralwinga");
    let files = files.iter().map(|file| format!("'{}'", file.display()));
    let files = files.collect::<Vec<_>>().join(" ");
    let line = format!("'{command}' plan {words} {files}");
    let answer = Command::new("script")
        .args(["-qec", &line, "/dev/null"])
        .output()
        .expect("script, of Debian's package bsdutils");
    assert!(answer.status.success());
    String::from_utf8(answer.stdout).expect("text")
}

#[test]
fn a_long_case() {
    let folder = Folder::new("terminal");
    let file = folder.file("month.csv", long_month());
    let shown = on_a_terminal("", std::slice::from_ref(&file));
    assert!(shown.contains("00:00:00 ["), "{shown}");
    assert!(shown.contains("%, about "), "{shown}");
    assert!(shown.contains("\nprofit,"), "{shown}");
    let answer = ralwinga([file]).output().expect("runs");
    let said = String::from_utf8(answer.stderr).expect("text");
    assert!(
        said.contains(" MiB of scratch: two layers, ") && said.lines().count() == 1,
        "{said}"
    );
}

/// A month whose two layers are worked out for about a second: it is not shown as done when each layer was so once.
#[test]
fn a_case_in_two_layers() {
    let folder = Folder::new("terminal-layers");
    let text = month().replacen(",5000,2,2,none", ",5000,60,200,none", 1);
    let file = folder.file("month.csv", text);
    let shown = on_a_terminal("--cells 400000", std::slice::from_ref(&file));
    assert!(shown.contains(": two layers, since "), "{shown}");
    assert!(shown.contains("%, about "), "{shown}");
    let shares: Vec<u32> = shown
        .split("%, about ")
        .filter_map(|before| before.rsplit("] ").next()?.parse().ok())
        .collect();
    assert!(shares.len() > 2 && shares[0] < 50, "{shares:?}");
    assert!(shown.contains("\nprofit,"), "{shown}");
}

#[test]
fn many_cases() {
    let folder = Folder::new("terminals");
    let files: Vec<PathBuf> = (0..3)
        .map(|i| folder.file(&format!("month{i}.csv"), long_month()))
        .collect();
    let shown = on_a_terminal("", &files);
    assert!(shown.contains("0 of 3 cases done"), "{shown}");
    // the bar is drawn now and then: a count that lasts a moment may not be seen
    let counted = |done: &str| shown.contains(&format!("{done} of 3 cases done"));
    assert!(counted("1") || counted("2"), "{shown}");
    let answer = ralwinga(["plan"]).args(&files).output().expect("runs");
    let said = String::from_utf8(answer.stderr).expect("text");
    assert!(
        said.starts_with("ralwinga: 3 cases, ") && said.lines().count() == 1,
        "{said}"
    );
}
