//! An input is never overwritten, and no two outputs are one file: by any path or link such words are bad arguments, and nothing is read or written.

mod support;

use std::fs;
use std::os::unix::fs::symlink;
use std::process::{Command, Output};
use support::{ralwinga, Folder, C1};

/// A folder with a case under several names.
fn folder_of_names(name: &str) -> Folder {
    let folder = Folder::new(name);
    folder.file("x.csv", C1);
    folder.file("sub/other.csv", C1);
    folder.file("old.html", "old");
    symlink("x.csv", folder.path("link.csv")).expect("linked");
    fs::hard_link(folder.path("x.csv"), folder.path("hard.csv")).expect("linked");
    symlink("sub", folder.path("folder-link")).expect("linked");
    symlink("new.html", folder.path("dangling.html")).expect("linked");
    folder
}

fn run(folder: &Folder, words: &[&str]) -> Output {
    let mut command = ralwinga(words);
    command.current_dir(folder.path(""));
    command.output().expect("runs")
}

/// Words with an output that is an input, and words with two outputs that are one file.
#[rustfmt::skip]
const OVER_INPUTS: [&[&str]; 15] = [
    &["x.csv", "--html", "x.csv"],
    &["x.csv", "--svg", "x.csv"],
    &["x.csv", "--svg", "./sub/../x.csv"],
    &["x.csv", "--html", "link.csv"],
    &["link.csv", "--html", "x.csv"],
    &["x.csv", "--html", "hard.csv"],
    &["hard.csv", "--svg", "link.csv"],
    &["explain", "x.csv", "--html", "x.csv"],
    &["curve", "x.csv", "--svg", "x.csv"],
    &["curve", "x.csv", "--svg", "hard.csv"],
    &["sub/other.csv", "--html", "folder-link/other.csv"],
    &["missing.csv", "--html", "./missing.csv"],
    &["plan", "a.csv", "a.listing.csv", "--out", "."],
    &["plan", "x.csv", "a.csv", "linked.csv", "--out", "."],
    &["plan", "--raw", "x.csv", "a.csv", "--out", "sub/.."],
];

#[rustfmt::skip]
const OVER_EACH_OTHER: [&[&str]; 8] = [
    &["x.csv", "--svg", "F", "--html", "F"],
    &["x.csv", "--svg", "F", "--html", "./F"],
    &["x.csv", "--svg", "sub/F", "--html", "folder-link/F"],
    &["x.csv", "--svg", "old.html", "--html", "old.html"],
    &["x.csv", "--svg", "new.html", "--html", "dangling.html"],
    &["explain", "x.csv", "--svg", "F", "--html", "sub/../F"],
    &["plan", "x.csv", "a/x.csv", "--out", "sub"],
    &["plan", "x.csv", "sub/other.csv", "--out", "meeting"],
];

#[test]
fn outputs_that_meet() {
    let folder = folder_of_names("meet");
    // listings that are links to cases, and to each other
    folder.file("a.csv", C1);
    folder.file("a/x.csv", C1);
    symlink("linked.csv", folder.path("a.listing.csv")).expect("linked");
    folder.file("linked.csv", C1);
    folder.file("meeting/x.listing.csv", "old");
    symlink("x.listing.csv", folder.path("meeting/other.listing.csv")).expect("linked");
    fs::remove_file(folder.path("a.listing.csv")).expect("removed");
    symlink("a.csv", folder.path("a.listing.csv")).expect("linked");
    for (words, said) in OVER_INPUTS
        .map(|words| (words, " is the input "))
        .into_iter()
        .chain(OVER_EACH_OTHER.map(|words| (words, "")))
    {
        let answer = run(&folder, words);
        let line = String::from_utf8_lossy(&answer.stderr).to_string();
        assert_eq!(answer.status.code(), Some(2), "{words:?}: {line}");
        assert!(answer.stdout.is_empty(), "{words:?}");
        assert_eq!(line.lines().count(), 1, "{line}");
        assert!(line.contains(said), "{words:?}: {line}");
        for case in ["x.csv", "sub/other.csv", "a.csv", "linked.csv", "a/x.csv"] {
            assert_eq!(folder.read(case), C1, "{words:?}");
        }
        assert_eq!(folder.read("old.html"), "old");
        assert_eq!(folder.read("meeting/x.listing.csv"), "old");
        for new in ["F", "new.html", "missing.csv", "sub/F", "sub/x.listing.csv"] {
            assert!(!folder.path(new).exists(), "{words:?}: {new}");
        }
    }
}

/// The shell's own files: standard input that is written to, and standard output that is an input or another output.
#[test]
fn files_of_the_shell() {
    let folder = folder_of_names("shell");
    let program = env!("CARGO_BIN_EXE_ralwinga");
    for (line, status) in [
        ("\"$0\" - --html x.csv < x.csv", 2),
        ("\"$0\" /dev/stdin --html hard.csv < x.csv", 2),
        ("\"$0\" x.csv >> x.csv", 2),
        ("\"$0\" explain link.csv >> x.csv", 2),
        ("\"$0\" x.csv --html old.html >> old.html", 2),
        ("\"$0\" x.csv --html page.html >> listing.csv", 0),
        (
            "\"$0\" x.csv --svg /dev/null --html /dev/null > /dev/null",
            0,
        ),
        ("\"$0\" x.csv --html /dev/stdout | grep -q DOCTYPE", 0),
    ] {
        let mut shell = Command::new("sh");
        shell
            .args(["-c", line, program])
            .current_dir(folder.path(""));
        let answer = shell.output().expect("a shell");
        assert_eq!(answer.status.code(), Some(status), "{line}");
        assert_eq!(folder.read("x.csv"), C1, "{line}");
        assert_eq!(folder.read("old.html"), "old");
    }
}

/// Names that differ in the case of letters are two files here, or one, as the file system has it.
#[test]
fn case_of_letters() {
    let folder = Folder::new("letters");
    folder.file("x.csv", C1);
    let words = ["x.csv", "--svg", "plan.OUT", "--html", "plan.out"];
    let folds = {
        folder.file("Probe", "");
        folder.path("pROBE").exists()
    };
    let answer = run(&folder, &words);
    if folds {
        assert_eq!(answer.status.code(), Some(2));
        assert!(!folder.path("plan.out").exists());
        assert_eq!(
            run(&folder, &["x.csv", "--html", "X.CSV"]).status.code(),
            Some(2)
        );
    } else {
        assert_eq!(answer.status.code(), Some(0));
        assert!(folder.read("plan.OUT").starts_with("<svg"));
        assert!(folder.read("plan.out").starts_with("<!DOCTYPE"));
    }
    let left = fs::read_dir(folder.path("")).expect("a folder");
    let names = left.map(|entry| entry.expect("an entry").file_name());
    assert!(!names
        .into_iter()
        .any(|name| name.to_string_lossy().starts_with('.')));
}

/// Ways to mount a file system that folds the case of letters, and to make a folder `folds` in it: tmpfs since Linux 6.13, FAT, or NTFS by Debian's
/// package ntfs-3g.
const FOLDING: [&str; 3] = [
    "mount -t tmpfs -o size=1m,casefold ralwinga \"$0\" && mkdir \"$0/folds\" && chattr +F \"$0/folds\"",
    "truncate -s 4M \"$1\" && mkfs.vfat \"$1\" && mount -o loop \"$1\" \"$0\" && mkdir \"$0/folds\"",
    "truncate -s 8M \"$1\" && mkntfs -F -Q -s 512 \"$1\" && lowntfs-3g -o ignore_case \"$1\" \"$0\" && mkdir \"$0/folds\"",
];

#[test]
fn a_file_system_that_folds() {
    let folder = Folder::new("folding");
    let (place, image) = (folder.path("disk"), folder.path("image"));
    fs::create_dir_all(&place).expect("made");
    let umount = || Command::new("umount").arg(&place).output();
    let mounted = FOLDING.into_iter().any(|line| {
        let mut shell = Command::new("sh");
        let answer = shell.args(["-c", line]).arg(&place).arg(&image).output();
        let mounted = answer.is_ok_and(|answer| answer.status.success());
        if !mounted {
            let _ = umount();
        }
        mounted
    });
    if !mounted {
        println!("skipped: no file system that folds the case of letters can be mounted here");
        return;
    }
    let inside = place.join("folds");
    for part in ["", "a", "b"] {
        fs::create_dir_all(inside.join(part)).expect("made");
        let name = if part == "b" { "X.csv" } else { "x.csv" };
        fs::write(inside.join(part).join(name), C1).expect("written");
    }
    let statuses = [
        &["x.csv", "--html", "X.CSV"][..],
        &["x.csv", "--svg", "plan.OUT", "--html", "plan.out"],
        &["plan", "a/x.csv", "b/X.csv", "--out", "new"],
        &["x.csv", "--svg", "plan.svg", "--html", "plan.html"],
    ]
    .map(|words| {
        let mut command = ralwinga(words);
        let answer = command.current_dir(&inside).output();
        answer.expect("runs").status.code()
    });
    let kept = fs::read(inside.join("x.csv"));
    let _ = umount();
    assert_eq!(statuses, [Some(2), Some(2), Some(2), Some(0)]);
    assert_eq!(kept.expect("a case"), C1.as_bytes());
}
