//! `ralwinga assess` beside the library's call and beside the specification by enumeration, and on listings that are damaged.

mod support;

use ralwinga::reader::read_schedule;
use ralwinga::Refusal;
use support::{answer_on, any_case, any_schedule, damage_text, each_came_up, month, paper};
use support::{ralwinga, run_on, small_case, text_of, Folder, Random, Seen, C1};

const CASES: usize = 2_000;
const TEXTS: usize = 50_000;

fn line(answer: Result<i64, u64>) -> String {
    match answer {
        Ok(profit) => format!("profit,{profit}\n"),
        Err(number) => format!("refused,{number}\n"),
    }
}

/// What the command says of the listing on its standard input.
fn handed_in(folder: &Folder, case: &str, listing: &str) -> String {
    let case = folder.file("case.csv", case);
    let command = ralwinga(["assess".as_ref(), case.as_os_str(), "-".as_ref()]);
    let answer = run_on(command, listing.as_bytes());
    let said = String::from_utf8(answer.stdout).expect("text");
    let refused = said.starts_with("refused,");
    assert_eq!(answer.status.code(), Some(i32::from(refused)));
    assert_eq!(answer.stderr.is_empty(), !refused);
    said
}

#[test]
fn schedules_near_and_far() {
    let folder = Folder::new("assess");
    let mut random = Random::new(31);
    let mut seen: Seen = Default::default();
    for _ in 0..CASES {
        let case = any_case(&mut random);
        if !paper::writable(&case.unit, &case.prices) {
            continue;
        }
        let schedule: Vec<u64> = any_schedule(&mut random, &case.unit, case.prices.len());
        // a value of a text has at most ten digits
        let schedule: Vec<u64> = schedule.iter().map(|mw| *mw.min(&9_999_999_999)).collect();
        let expected = paper::assessed(&case.unit, &case.prices, &schedule);
        let library = ralwinga::assess(case.unit, &case.prices, &schedule);
        assert_eq!(library.map_err(|refusal| refusal.number()), expected);
        seen[expected.err().map_or(0, |n| n as usize)] += 1;
        let text = text_of(&mut random, &case.unit, &case.prices);
        let answer = handed_in(&folder, &text, &paper::table(&schedule));
        assert_eq!(answer, line(expected), "{text}\n{schedule:?}");
    }
    each_came_up(&seen, &[0, 3, 7, 10, 12]);
}

/// What `plan` prints is passed, with what follows the table and without, and earns what it says.
#[test]
fn what_is_planned_is_passed() {
    let folder = Folder::new("passed");
    let mut random = Random::new(32);
    let mut cases = vec![month()];
    for _ in 0..200 {
        let (unit, prices) = small_case(&mut random);
        cases.push(text_of(&mut random, &unit, &prices));
    }
    let mut passed = 0;
    for text in cases {
        let planned = String::from_utf8(answer_on(&["-"], text.as_bytes()).stdout).expect("text");
        let Some((table, values)) = planned.split_once("\n\n") else {
            continue;
        };
        let profit = values.lines().nth(1).expect("the profit").to_string() + "\n";
        assert_eq!(handed_in(&folder, &text, &planned), profit);
        assert_eq!(handed_in(&folder, &text, &format!("{table}\n")), profit);
        passed += 1;
    }
    assert!(passed > 100, "{passed} plans");
}

#[test]
fn worked_refusals() {
    let folder = Folder::new("worked");
    let c1 = |listing: &str| handed_in(&folder, C1, listing);
    let listing = paper::table(&[0, 20, 0, 0, 20, 20]);
    assert_eq!(c1(&listing), "refused,10\n");
    assert_eq!(c1(&paper::table(&[0, 20])), "refused,7\n");
    assert_eq!(c1("interval,mw\n"), "refused,7\n");
    assert_eq!(c1(&listing.replacen("mw", "MW", 1)), "refused,1\n");
    assert_eq!(c1(&listing.replacen("mw", "output", 1)), "refused,2\n");
    assert_eq!(c1(&listing.replacen("2,20", "3,20", 1)), "refused,3\n");
    assert_eq!(c1(&listing.replacen("2,20", "2,-20", 1)), "refused,10\n");
    assert_eq!(c1(&listing.replacen("2,20", "2,none", 1)), "refused,10\n");
    assert_eq!(c1("refused,9\n"), "refused,1\n");
    assert_eq!(c1(""), "refused,1\n");
    // of two causes the one that comes first
    let no_prices: String = C1.split_inclusive('\n').take(4).collect();
    assert_eq!(handed_in(&folder, &no_prices, &listing), "refused,5\n");
    assert_eq!(handed_in(&folder, &no_prices, ""), "refused,1\n");
    assert_eq!(handed_in(&folder, "", &listing), "refused,1\n");
}

/// The numbers of a table's rows, read once more in plain Rust; none where they are not of the form.
fn rows(text: &str) -> Option<(Vec<&str>, Vec<Vec<&str>>)> {
    let table = text.split_once("\n\n").map_or(text, |(table, _)| table);
    let table = match text.contains("\n\n") {
        true => table,
        false => table.strip_suffix('\n')?,
    };
    let is_name = |field: &&str| !field.is_empty() && field.bytes().all(|b| b.is_ascii_lowercase());
    let is_value = |field: &&str| {
        let digits = field.strip_prefix('-').unwrap_or(field);
        *field == "none"
            || (1..=10).contains(&digits.len())
                && digits.bytes().all(|b| b.is_ascii_digit())
                && (!digits.starts_with('0') || *field == "0")
    };
    let mut lines = table.split('\n');
    let names: Vec<&str> = lines.next()?.split(',').collect();
    let rows: Vec<Vec<&str>> = lines.map(|line| line.split(',').collect()).collect();
    let of_form = names.iter().all(is_name)
        && rows
            .iter()
            .all(|row| row.len() == names.len() && row.iter().all(is_value));
    of_form.then_some((names, rows))
}

/// The outputs of a listing, or the number, by the form above.
fn judged(text: &str) -> Result<Vec<String>, u64> {
    let (names, rows) = rows(text).ok_or(1u64)?;
    let mut sorted = names.clone();
    sorted.sort_unstable();
    if sorted != ["interval", "mw"] {
        return Err(2);
    }
    let (interval, mw) = if names[0] == "mw" { (1, 0) } else { (0, 1) };
    for (row, place) in rows.iter().zip(1..) {
        if row[interval] != i32::to_string(&place) {
            return Err(3);
        }
    }
    Ok(rows.iter().map(|row| row[mw].to_string()).collect())
}

#[test]
fn damaged_listings() {
    let mut random = Random::new(33);
    let mut seen: Seen = Default::default();
    for _ in 0..TEXTS {
        let schedule: Vec<u64> = (0..1 + random.below(4)).map(|_| random.below(30)).collect();
        let mut text = paper::table(&schedule).into_bytes();
        if random.one_in(2) {
            text.extend_from_slice(b"\nwhat,value\nprofit,5\nstarts,none\n");
        }
        for _ in 0..random.below(3) {
            if !text.is_empty() {
                damage_text(&mut random, &mut text);
            }
        }
        let Ok(text) = String::from_utf8(text) else {
            continue;
        };
        let expected = judged(&text);
        seen[expected.as_ref().err().map_or(0, |n| *n as usize)] += 1;
        let answer = read_schedule(text.as_bytes());
        match (&answer, &expected) {
            (Ok(handed_in), Ok(fields)) => {
                let beyond = 10_000_000_000u64;
                let read = fields.iter().map(|field| field.parse().unwrap_or(beyond));
                assert!(handed_in.outputs.iter().copied().eq(read), "{text}");
                assert_eq!(handed_in.count, fields.len());
            }
            (Err(fault), Err(number)) => {
                assert_eq!(fault.refusal.number(), *number, "{text}");
                assert!(fault.place.is_some());
            }
            _ => panic!("{answer:?}, {expected:?}: {text}"),
        }
    }
    each_came_up(&seen, &[0, 1, 2, 3]);
}

#[test]
fn the_order_of_causes() {
    assert!(Refusal::Form.precedes(Refusal::Horizon));
    assert!(!Refusal::NotKept.precedes(Refusal::Length));
    assert!(!Refusal::Name.precedes(Refusal::Name));
    assert_eq!(
        Refusal::ALL.map(Refusal::number),
        [1, 2, 3, 11, 4, 12, 5, 6, 7, 8, 9, 10]
    );
    assert!(Refusal::Shape.precedes(Refusal::Date) && Refusal::Date.precedes(Refusal::Horizon));
    assert!(Refusal::Levels.precedes(Refusal::Shape) && Refusal::Range.precedes(Refusal::Levels));
}
