//! Texts are read as a stream: in little memory however long they are, with the number that the whole text has; and memory that the system does not
//! give is an error with its size.

mod support;

use ralwinga::reader::{horizon, read_case, read_long_case};
use ralwinga::{Refusal, Window};
use std::fs;
use std::io::Write;
use std::path::Path;
use std::process::{Command, Output};
use support::{columns_of, dated, each_came_up, month, small_case, text_with};
use support::{limited, Folder, Random, Seen, C1};

const CASES: usize = 3000;

/// C1's lines up to the name of the prices.
fn head() -> String {
    C1.lines().take(4).collect::<Vec<_>>().join("\n") + "\n"
}

#[test]
fn the_horizon_is_the_librarys() {
    assert_eq!(horizon(), 2976);
    let text = |prices| head() + &"9000\n".repeat(prices);
    assert_eq!(
        read_case(text(2976).as_bytes()).map(|case| case.prices.len()),
        Ok(2976)
    );
    for (prices, said) in [
        (0, "line 5: no price is here; a case has 1 to 2,976 prices (refused, 5: "),
        (2977, "line 2981: 2,977 prices, and a case has at most 2,976: this is the first too many (refused, 5: "),
        (12_000, "line 2981: 12,000 prices, and a case has at most 2,976: this is the first too many (refused, 5: "),
    ] {
        let fault = read_case(text(prices).as_bytes()).expect_err("too many or none");
        assert_eq!(fault.refusal, Refusal::Horizon);
        assert!(fault.to_string().starts_with(said), "{fault}");
    }
}

/// The numbers of a case's causes in the order in which they are given.
const NUMBERS: [u64; 6] = [1, 2, 3, 4, 12, 5];

/// The columns of a unit from a date on, with these causes of `NUMBERS` in them.
fn columns_with(random: &mut Random, holds: &[bool; 6]) -> Vec<(&'static str, String)> {
    let [_, name, _, shape, date, _] = *holds;
    let (mut unit, _) = small_case(random);
    let (year, month, day, word) = (2024, 2, if date { 30 } else { 2 }, 5);
    unit.window = Some(Window {
        year,
        month,
        day,
        word,
    });
    if shape {
        (unit.pmin, unit.pmax) = (9, 8);
    }
    let mut columns = columns_of(&unit);
    if name {
        columns[random.below(17) as usize].0 = "mob";
    }
    columns
}

/// The lines of a month's prices or of more, with these causes in them, each anywhere.
fn prices_with(random: &mut Random, holds: &[bool; 6]) -> String {
    let [form, _, range, _, _, count] = *holds;
    let intervals = match count {
        true => random.from(&[2977, 3000, 9000]),
        false => random.from(&[2500, 2976]),
    };
    let mut prices = vec!["-1000"; intervals as usize];
    if range {
        prices[random.below(intervals) as usize] = "200001";
    }
    if form {
        prices[random.below(intervals) as usize] = "9.5";
    }
    prices.join("\n") + "\n"
}

/// Texts of a month and of more with some of the causes in them: the first in the order is given, wherever it stands.
#[test]
fn numbers_of_long_texts() {
    let mut random = Random::new(61);
    let mut seen: Seen = Default::default();
    for _ in 0..CASES {
        let holds: [bool; 6] = std::array::from_fn(|_| random.one_in(4));
        let columns = columns_with(&mut random, &holds);
        let head = text_with(&mut random, columns, &[]);
        let text = head + &prices_with(&mut random, &holds);
        assert!(text.len() > 12_288);
        let first = holds.iter().position(|holds| *holds);
        let expected = first.map_or(0, |first| NUMBERS[first]);
        let answer = read_case(text.as_bytes());
        let number = answer.as_ref().err().map_or(0, |f| f.refusal.number());
        assert_eq!(number, expected, "{holds:?}");
        assert_eq!(answer, read_long_case(text.as_bytes()));
        seen[expected as usize] += 1;
    }
    each_came_up(&seen, &[0, 1, 2, 3, 4, 5, 12]);
}

/// All that the command has for texts of 20 and of 200 MB.
const ENOUGH: u32 = 16_000;

fn refused(answer: &Output, number: u64, said: &str) {
    let line = String::from_utf8_lossy(&answer.stderr).to_string();
    assert_eq!(answer.status.code(), Some(1), "{line}");
    let printed = String::from_utf8_lossy(&answer.stdout).to_string();
    assert_eq!(printed, format!("refused,{number}\n"), "{line}");
    assert!(line.contains(said), "{line}");
}

#[test]
fn long_texts_in_little_memory() {
    let chunk = "9000\n".repeat(200_000);
    for (megabytes, said) in [(20, "4,000,000 prices, "), (200, "40,000,000 prices, ")] {
        let answer = limited("-", ENOUGH, |stdin| {
            let _ = stdin.write_all(head().as_bytes());
            for _ in 0..megabytes {
                let _ = stdin.write_all(chunk.as_bytes());
            }
        });
        refused(&answer, 5, said);
    }
    // a wrong line at the end is the first cause, and so is a price at the end that is out of its range
    for (last, number) in [("9.5\n", 1), ("200001\n", 3)] {
        let answer = limited("-", ENOUGH, |stdin| {
            let _ = stdin.write_all(head().as_bytes());
            for _ in 0..20 {
                let _ = stdin.write_all(chunk.as_bytes());
            }
            let _ = stdin.write_all(last.as_bytes());
        });
        refused(&answer, number, "line 4000005, column 1: ");
    }
}

/// Lines that never end, in a case and in the other texts.
#[test]
fn long_lines_in_little_memory() {
    let said = "the line is longer than 12288 bytes";
    let lines = |stdin: &mut dyn Write| {
        for _ in 0..20 {
            let _ = stdin.write_all(&[b'9'; 1 << 20]);
        }
    };
    for words in ["-", "costs -", "curve -"] {
        let answer = limited(words, ENOUGH, lines);
        refused(&answer, 1, &format!("line 1: {said}"));
        refused(
            &limited(&words.replace('-', "/dev/zero"), ENOUGH, |_| ()),
            1,
            said,
        );
    }
    let folder = Folder::new("long-lines");
    let case = folder.file("case.csv", C1);
    let words = format!("assess '{}' -", case.display());
    refused(&limited(&words, ENOUGH, lines), 1, said);
    let answer = limited("-", ENOUGH, |stdin| {
        let _ = stdin.write_all(head().as_bytes());
        lines(stdin);
    });
    refused(&answer, 1, &format!("line 5: {said}"));
    // a listing of more intervals than any case has
    let answer = limited(&words, ENOUGH, |stdin| {
        let _ = stdin.write_all(b"interval,mw\n");
        for interval in 1..=500_000 {
            let _ = stdin.write_all(format!("{interval},0\n").as_bytes());
        }
    });
    refused(
        &answer,
        7,
        "line 8: the listing has 500000 intervals, the case has 6 prices",
    );
}

/// From memory in which the command just starts to memory that is enough, in small steps: it never ends by a signal, and what it says has a size.
#[test]
fn memory_that_is_not_given() {
    let folder = Folder::new("no-memory");
    let case = folder.file("month.csv", month());
    let page = folder.path("page.html");
    let words = format!("'{}' --html '{}'", case.display(), page.display());
    let starts = |kib: &u32| limited("--version", *kib, |_| ()).status.success();
    let mut limits = (1000..20_000).step_by(50);
    let least = limits.find(starts).expect("it starts in 20 MB");
    let (mut told, mut answered) = (0, 0);
    for kib in (least..least + 6000).step_by(50) {
        let answer = limited(&words, kib, |_| ());
        let said = String::from_utf8_lossy(&answer.stderr).to_string();
        match answer.status.code() {
            Some(0) => answered += 1,
            Some(1) => {
                assert!(said.contains(" bytes of memory") || said.contains(" it fits with "));
                told += 1;
            }
            status => panic!("{kib} KiB: {status:?}: {said}"),
        }
    }
    println!("from {least} KiB on: {told} told, {answered} answered");
    assert!(told > 0 && answered > 0);
}

/// A control group of this process's own, which goes when the test ends; none where it may not make one.
struct Group(std::path::PathBuf);

impl Group {
    fn of(bytes: usize) -> Option<Group> {
        let groups = fs::read_to_string("/proc/self/cgroup").ok()?;
        let own = |line: &str| {
            let mut fields = line.splitn(3, ':').skip(1);
            let (controllers, path) = (fields.next()?, fields.next()?);
            let (root, limit) = match controllers {
                "memory" => ("/sys/fs/cgroup/memory", "memory.limit_in_bytes"),
                "" => ("/sys/fs/cgroup", "memory.max"),
                _ => return None,
            };
            let name = format!("ralwinga-{}", std::process::id());
            let folder = Path::new(root)
                .join(path.trim_start_matches('/'))
                .join(name);
            fs::create_dir(&folder).ok()?;
            let group = Group(folder);
            fs::write(group.0.join(limit), bytes.to_string()).ok()?;
            Some(group)
        };
        groups.lines().find_map(own)
    }
}

impl Drop for Group {
    fn drop(&mut self) {
        let _ = fs::remove_dir(&self.0);
    }
}

/// A group with 64 MiB holds no table of 145 MiB, whatever the machine has.
#[test]
fn memory_of_a_control_group() {
    let Some(group) = Group::of(64 << 20) else {
        println!("skipped: this process may not make a control group");
        return;
    };
    let folder = Folder::new("group");
    let text = C1.replacen("10,1,2,2,2,0,2,", "1,1,500,96,96,0,96,", 1);
    let text = text.replacen(",2,2,none", ",none,none,50000", 1);
    let case = folder.file(
        "wide.csv",
        text.replacen("10000\n", &"10000\n".repeat(100), 1),
    );
    let line = format!(
        "echo $$ > '{}/cgroup.procs' && exec \"$0\" \"$1\"",
        group.0.display()
    );
    let mut shell = Command::new("sh");
    shell.args(["-c", &line, env!("CARGO_BIN_EXE_ralwinga")]);
    let answer = shell.arg(&case).output().expect("a shell");
    refused(&answer, 8, "free memory holds ");
    let said = String::from_utf8_lossy(&answer.stderr).to_string();
    let (_, held) = said.split_once("free memory holds ").expect("how many");
    let held: usize = held
        .split(';')
        .next()
        .and_then(|n| n.parse().ok())
        .expect("cells");
    assert!(held <= (64 << 20) / 8, "{said}");
}

/// A date that does not exist, in a text of a month.
#[test]
fn a_long_text_with_a_date() {
    let text = dated(&month(), (2024, 2, 30), 1);
    let fault = read_case(text.as_bytes()).expect_err("no such day");
    assert_eq!(fault.refusal, Refusal::Date);
}
