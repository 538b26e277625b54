//! Yesterday's answer does not stay: where a case is refused or cannot be read, its listing, page and drawing say so.

mod support;

use std::path::Path;
use std::process::Output;
use support::{ralwinga, Folder, C1};

fn refused() -> String {
    C1.replacen("mot", "mob", 1)
}

/// A case, good one day and not the next, with a page and a drawing.
fn pictured(folder: &Folder, subcommand: &str, case: &Path) -> Output {
    let mut command = ralwinga([subcommand.as_ref(), case.as_os_str()]);
    command.arg("--svg").arg(folder.path("plan.svg"));
    command.arg("--html").arg(folder.path("plan.html"));
    command.output().expect("runs")
}

#[test]
fn the_page_and_the_drawing() {
    for subcommand in ["plan", "explain"] {
        let folder = Folder::new(&format!("stale-{subcommand}"));
        let case = folder.file("case.csv", C1);
        assert!(pictured(&folder, subcommand, &case).status.success());
        let yesterday = ["plan.svg", "plan.html"].map(|name| folder.read(name));
        assert!(yesterday.iter().all(|text| text.contains("$1,000.00")));
        folder.file("case.csv", refused());
        let answer = pictured(&folder, subcommand, &case);
        assert_eq!(
            (answer.status.code(), &answer.stdout[..]),
            (Some(1), &b"refused,2\n"[..])
        );
        for text in ["plan.svg", "plan.html"].map(|name| folder.read(name)) {
            assert!(!text.contains("$1,000.00"), "{text}");
            assert!(
                text.contains("case.csv") && text.contains("Refused, 2: a name is unknown"),
                "{text}"
            );
            assert!(
                text.contains("line 1, column 17: 'mob' is unknown"),
                "{text}"
            );
        }
        std::fs::remove_file(&case).expect("removed");
        let answer = pictured(&folder, subcommand, &case);
        assert_eq!((answer.status.code(), answer.stdout.len()), (Some(1), 0));
        for text in ["plan.svg", "plan.html"].map(|name| folder.read(name)) {
            assert!(!text.contains("Refused"), "{text}");
            assert!(
                text.contains("Not read") && text.contains("No such file"),
                "{text}"
            );
        }
    }
}

#[test]
fn the_drawing_of_a_curve() {
    let folder = Folder::new("stale-curve");
    let inputs = folder.file(
        "unit.csv",
        "gas,om,gmc,adder\n550,280,50,2500\n\nlevel,rate\n70,14440\n150,11960\n",
    );
    let run = || {
        let mut command = ralwinga(["curve".as_ref(), inputs.as_os_str()]);
        command.arg("--svg").arg(folder.path("unit.svg"));
        command.output().expect("runs").status.code()
    };
    assert_eq!(run(), Some(0));
    assert!(folder.read("unit.svg").contains("Bid curve: 70 to 150 MW"));
    std::fs::remove_file(&inputs).expect("removed");
    assert_eq!(run(), Some(1));
    let svg = folder.read("unit.svg");
    assert!(
        !svg.contains("Bid curve") && svg.contains("Not read"),
        "{svg}"
    );
}

#[test]
fn listings() {
    let folder = Folder::new("stale-listings");
    let cases = ["a.csv", "b.csv", "c.csv"].map(|name| folder.file(name, C1));
    let run = || {
        let mut command = ralwinga(["plan", "--out"]);
        command.arg(folder.path("out")).args(&cases);
        command.output().expect("runs").status.code()
    };
    let read = || ["a", "b", "c"].map(|name| folder.read(&format!("out/{name}.listing.csv")));
    assert_eq!(run(), Some(0));
    let [listing, ..] = read();
    assert!(read().iter().all(|text| *text == listing));
    folder.file("b.csv", refused());
    std::fs::remove_file(&cases[2]).expect("removed");
    assert_eq!(run(), Some(1));
    assert_eq!(read(), [listing.as_str(), "refused,2\n", "unread\n"]);
}

/// A file name with marks and control characters goes into the notices as text.
#[test]
fn names_in_notices() {
    let folder = Folder::new("stale-names");
    let case = folder.file("a<b>&\u{7}.csv", refused());
    assert_eq!(pictured(&folder, "plan", &case).status.code(), Some(1));
    for text in ["plan.svg", "plan.html"].map(|name| folder.read(name)) {
        assert!(text.contains("a&lt;b&gt;&amp;\u{fffd}.csv"), "{text}");
    }
}
