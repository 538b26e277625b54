//! `ralwinga explain`: what it tells adds up to the profit, and agrees with the plan of the specification by enumeration or by recursion.

mod support;

use ralwinga::{cells, plan_into, Outcome, Unit};
use support::{
    answer_on, calendar, dated, long_case, month, paper, recursion, small_case, text_of,
};
use support::{Random, C1};

const SMALL_CASES: usize = 300;
const LONG_CASES: usize = 100;

/// Quarter-cents of an amount such as -$1,234.5675.
fn quarter_cents(amount: &str) -> i64 {
    let plain: String = amount.chars().filter(|c| !"$,".contains(*c)).collect();
    let (whole, decimals) = plain.split_once('.').expect("decimals");
    let sign = if whole.starts_with('-') { -1 } else { 1 };
    let whole: i64 = whole.trim_start_matches('-').parse().expect("digits");
    let parts: i64 = format!("{decimals:0<4}").parse().expect("digits");
    assert_eq!(parts % 25, 0, "{amount}");
    sign * (whole * 400 + parts / 25)
}

/// Quarters of a number such as 1,000.25.
fn quarters(number: &str) -> i64 {
    quarter_cents(&format!(
        "{}{}",
        number,
        if number.contains('.') { "" } else { ".0" }
    )) / 100
}

/// The quarters of a day that are over at a time.
fn quarters_of(time: &str) -> usize {
    let (hour, minute) = time.split_once(':').expect("a time");
    let minutes: usize = minute.parse().expect("minutes");
    hour.parse::<usize>().expect("an hour") * 4 + minutes / 15
}

/// What the beginnings of intervals are called by date and clock, the end of the last too.
fn called(unit: &Unit, intervals: usize) -> Option<Vec<String>> {
    let w = unit.window?;
    let shown = calendar::shown((w.year, w.month, w.day), intervals + 1);
    let name = |place: usize| {
        let calendar::Shown { date, hour } = shown[place];
        let (year, month, day) = date;
        let again = place >= 4 && shown[place - 4] == shown[place];
        format!(
            "{year}-{month:02}-{day:02} {hour:02}:{:02}{}",
            15 * (place % 4),
            if again { " again" } else { "" }
        )
    };
    Some((0..=intervals).map(name).collect())
}

/// The place of the quarter-hour that begins at the time that the words begin with, and how many words that takes.
fn place(words: &[&str], called: Option<&Vec<String>>) -> (usize, usize) {
    let Some(called) = called else {
        let day: usize = words[1].parse().expect("a day");
        return ((day - 1) * 96 + quarters_of(words[2]), 3);
    };
    let taken = if words[2] == "again" { 3 } else { 2 };
    let name = words[..taken].join(" ");
    let found = match name.strip_suffix(" 24:00") {
        None => called.iter().position(|other| *other == name),
        // behind the last of the day
        Some(date) => called
            .iter()
            .rposition(|other| other.starts_with(date))
            .map(|last| last + 1),
    };
    (found.unwrap_or_else(|| panic!("{name}")), taken)
}

/// A line of the first table without its number: when, what output, how long, how much, and the amounts.
struct Row {
    numbered: bool,
    from: usize,
    to: usize,
    mw: String,
    hours: i64,
    mwh: i64,
    amounts: Vec<i64>,
}

fn row(line: &str, called: Option<&Vec<String>>) -> Row {
    let words: Vec<&str> = line.split_whitespace().collect();
    let numbered = words[0].parse::<usize>().is_ok();
    let words = &words[usize::from(numbered)..];
    let (from, taken) = place(words, called);
    let words = &words[taken..];
    let (to, taken) = place(words, called);
    let words = &words[taken..];
    Row {
        numbered,
        from,
        to,
        mw: words[0].to_string(),
        hours: quarters(words[1]),
        mwh: quarters(words[2]),
        amounts: words[3..]
            .iter()
            .filter(|w| w.contains('$'))
            .map(|w| quarter_cents(w))
            .collect(),
    }
}

/// Runs of places that are on, from the first to behind the last.
fn spells(schedule: &[u64]) -> Vec<(usize, usize)> {
    let on = |place: usize| schedule.get(place).is_some_and(|mw| *mw > 0);
    let begins = (0..schedule.len()).filter(|p| on(*p) && (*p == 0 || !on(*p - 1)));
    begins
        .map(|from| (from, (from..).find(|p| !on(*p)).expect("an end")))
        .collect()
}

fn adder(outcome: Outcome) -> String {
    match outcome {
        Outcome::Gap(gap) => gap.to_string(),
        Outcome::None => "none: not limited".to_string(),
        Outcome::Empty => "empty: nine tenths of the limitation is 0".to_string(),
        Outcome::Never => "never: no schedule keeps one unit less".to_string(),
    }
}

/// A line of a run, or of a stretch of one, against the plan.
fn check_row(row: &Row, unit: &Unit, prices: &[i64], plan: &[u64]) {
    let outputs = &plan[row.from..row.to];
    let (low, high) = (outputs.iter().min(), outputs.iter().max());
    let mw = match (low, high) {
        (Some(low), Some(high)) if low == high => low.to_string(),
        (Some(low), Some(high)) => format!("{low}-{high}"),
        _ => panic!("a run without an interval"),
    };
    assert_eq!(row.mw, mw);
    assert_eq!(row.hours, outputs.len() as i64);
    assert_eq!(row.mwh, outputs.iter().sum::<u64>() as i64);
    // as if on before, so that no start is charged
    let was_on = Unit { was: 1, ..*unit };
    let earned = paper::profit(&was_on, &prices[row.from..row.to], outputs) as i64;
    let start = 4 * unit.suc as i64;
    match (row.numbered, row.from == 0 && unit.was == 1) {
        (false, _) => assert_eq!(row.amounts, [earned]),
        (true, true) => assert_eq!(row.amounts, [earned, earned]),
        (true, false) => assert_eq!(row.amounts, [earned, start, earned - start]),
    }
}

/// The lines of the runs against the plan, and the line for all against the sums of those and the profit.
fn check_runs(told: &[&str], unit: &Unit, prices: &[i64], plan: &[u64]) {
    let (all, lines) = told.split_last().expect("a line for all");
    let called = called(unit, prices.len());
    let rows: Vec<Row> = lines
        .iter()
        .map(|line| row(line, called.as_ref()))
        .collect();
    for row in &rows {
        check_row(row, unit, prices, plan);
    }
    let (runs, stretches): (Vec<&Row>, Vec<&Row>) = rows.iter().partition(|row| row.numbered);
    let places: Vec<(usize, usize)> = runs.iter().map(|run| (run.from, run.to)).collect();
    assert_eq!(places, spells(plan));
    let earned: i64 = runs.iter().map(|run| run.amounts[0]).sum();
    let in_all = runs.iter().filter_map(|run| run.amounts.last());
    // the stretches of runs whose output changes and the runs whose output does not are all that is on
    let level = runs.iter().filter(|run| !run.mw.contains('-'));
    let parts = level.chain(&stretches).map(|row| row.amounts[0]);
    assert_eq!(parts.sum::<i64>(), earned);
    let profit = paper::profit(unit, prices, plan) as i64;
    assert_eq!(in_all.sum::<i64>(), profit);
    let words: Vec<&str> = all.split_whitespace().collect();
    let totals: Vec<i64> = words[3..].iter().map(|word| quarter_cents(word)).collect();
    assert_eq!(totals, [earned, earned - profit, profit]);
    assert_eq!(words[0], "all");
}

/// The lines of the limitations against the plan.
fn check_usage(told: &[&str], unit: &Unit, plan: &[u64]) {
    let starts = spells(plan)
        .iter()
        .filter(|(from, _)| *from > 0 || unit.was == 0)
        .count() as u64;
    let used = [
        4 * starts,
        plan.iter().filter(|mw| **mw > 0).count() as u64,
        plan.iter().sum(),
    ];
    let limits = [unit.starts, unit.hours, unit.mwh];
    for ((line, used), limit) in told.iter().zip(used).zip(limits) {
        let words: Vec<&str> = line.split_whitespace().collect();
        assert_eq!(quarters(words[1]), used as i64, "{line}");
        match limit {
            None => assert_eq!(&words[2..], ["none"]),
            Some(limit) => {
                assert_eq!(quarters(words[2]), 4 * limit as i64);
                assert_eq!(quarters(words[3]), 4 * limit as i64 - used as i64);
            }
        }
    }
}

/// The lines of the adders against the outcomes by recursion.
fn check_adders(told: &[&str], unit: &Unit, prices: &[i64]) {
    let profit_of = |unit: Unit| recursion::best(&unit, prices).map(|(earned, _)| earned.into());
    let outcomes = paper::outcomes_by(unit, profit_of);
    let amounts = [outcomes.starts, outcomes.hours, outcomes.mwh].map(adder);
    let bids = [
        "start-up      start    ",
        "minimum load  hour     ",
        "energy        MWh      ",
    ];
    for ((line, bid), amount) in told.iter().zip(bids).zip(amounts) {
        let amount_told = line.strip_prefix(bid).unwrap_or_else(|| panic!("{line}"));
        match amount_told.contains('$') {
            true => assert_eq!(quarter_cents(amount_told).to_string(), amount),
            false => assert_eq!(amount_told, amount),
        }
    }
}

/// The date and the hours of the first lines against the window.
fn check_window(head: &[&str], unit: &Unit) {
    let Some(w) = unit.window else {
        assert_eq!(head.len(), 1);
        assert!(head[0].ends_with(" quarter-hours"), "{head:?}");
        return;
    };
    let date = format!(" from {}-{:02}-{:02}", w.year, w.month, w.day);
    assert!(head[0].ends_with(&date), "{head:?}");
    let said = head[1].strip_prefix("permitted in ").expect("the hours");
    let (count, times) = said.split_once(" of 24 clock hours").expect("a count");
    let stretches = times.strip_prefix(": ").map(|times| times.split(", "));
    let mut word = 0;
    for stretch in stretches.into_iter().flatten() {
        let (from, to) = stretch.split_once('-').expect("from and to");
        for hour in quarters_of(from) / 4..quarters_of(to) / 4 {
            word |= 1 << hour;
        }
    }
    assert_eq!(word, w.word, "{said}");
    assert_eq!(count.parse(), Ok(w.word.count_ones()), "{said}");
}

/// The library's profit and plan, from one call to the next.
fn by_the_library(unit: &Unit, prices: &[i64]) -> Option<(i64, Vec<u64>)> {
    let cells = cells(*unit, prices.len()).expect("a case in order");
    let (mut scratch, mut schedule) = (vec![0; cells.table], vec![0; prices.len()]);
    let (_, profit) = plan_into(*unit, prices, &mut scratch, &mut schedule).ok()?;
    Some((profit, schedule))
}

fn check(
    unit: &Unit,
    prices: &[i64],
    random: &mut Random,
    expected: Option<(i64, Vec<u64>)>,
) -> bool {
    let text = text_of(random, unit, prices);
    let answer = answer_on(&["explain", "-"], text.as_bytes());
    let said = String::from_utf8(answer.stdout).expect("text");
    let library = by_the_library(unit, prices);
    assert_eq!(library, expected);
    let Some((profit, plan)) = expected else {
        assert_eq!(
            (said.as_str(), answer.status.code()),
            ("refused,9\n", Some(1))
        );
        return false;
    };
    let paragraphs: Vec<Vec<&str>> = said
        .split("\n\n")
        .map(|part| part.lines().collect())
        .collect();
    let [head, runs, usage, adders] = paragraphs.as_slice() else {
        panic!("{said}");
    };
    let told = head[0].split_whitespace().nth(1).expect("the profit");
    assert_eq!(quarter_cents(told), profit, "{said}");
    check_window(head, unit);
    check_runs(&runs[1..], unit, prices, &plan);
    check_usage(&usage[1..], unit, &plan);
    check_adders(&adders[1..], unit, prices);
    true
}

#[test]
fn small_cases_by_enumeration() {
    let mut random = Random::new(51);
    let mut planned = 0;
    for _ in 0..SMALL_CASES {
        let (unit, prices) = small_case(&mut random);
        let best = paper::best(&unit, &prices).map(|(profit, plan)| (profit as i64, plan));
        planned += usize::from(check(&unit, &prices, &mut random, best));
    }
    assert!(planned > SMALL_CASES / 2, "{planned} plans");
}

#[test]
fn longer_cases_by_recursion() {
    let mut random = Random::new(52);
    let mut planned = 0;
    for _ in 0..LONG_CASES {
        let (unit, prices) = long_case(&mut random);
        let best = recursion::best(&unit, &prices);
        planned += usize::from(check(&unit, &prices, &mut random, best));
    }
    assert!(planned > LONG_CASES / 2, "{planned} plans");
}

/// A month's profit as the listing has it, and times on a day behind the first.
#[test]
fn a_month() {
    let answer = answer_on(&["explain", "-"], month().as_bytes());
    let said = String::from_utf8(answer.stdout).expect("text");
    assert!(
        said.starts_with("profit $2,750.00 over 2976 quarter-hours\n"),
        "{said}"
    );
    assert!(said.contains("day 31 22:00  day 31 24:00"), "{said}");
    let answer = answer_on(
        &["explain", "-"],
        C1.replacen("price", "prices", 1).as_bytes(),
    );
    assert_eq!(answer.stdout, b"refused,2\n");
}

/// The ends of a run by date and clock where clocks are changed, and at the end of a day and of the horizon.
#[test]
fn times_by_the_clock() {
    let free = C1.replacen(",5000,2,2,none", ",0,none,none,none", 1);
    let (head, _) = free.split_once("price\n").expect("prices");
    let text = |intervals: usize| format!("{head}price\n{}", "9000\n".repeat(intervals));
    for (date, word, intervals, told) in [
        (
            (2024, 3, 10),
            1 << 1,
            16,
            "2024-03-10 01:00  2024-03-10 03:00",
        ),
        (
            (2024, 3, 10),
            1 << 3,
            16,
            "2024-03-10 03:00  2024-03-10 04:00",
        ),
        (
            (2024, 11, 3),
            1 << 1,
            16,
            "2024-11-03 01:00  2024-11-03 02:00",
        ),
        (
            (2024, 11, 3),
            1 << 0,
            16,
            "2024-11-03 00:00  2024-11-03 01:00",
        ),
        (
            (2024, 11, 3),
            3,
            8,
            "2024-11-03 00:00  2024-11-03 01:00 again",
        ),
        (
            (2024, 2, 29),
            1 << 23,
            97,
            "2024-02-29 23:00  2024-02-29 24:00",
        ),
        (
            (2099, 12, 31),
            (1 << 23) + 1,
            100,
            "2099-12-31 23:00  2100-01-01 01:00",
        ),
        (
            (2099, 12, 31),
            1 << 5,
            2976,
            "2100-01-30 05:00  2100-01-30 06:00",
        ),
        ((2024, 2, 10), 1, 2976, "2024-03-12 00:00  2024-03-12 01:00"),
        (
            (2024, 10, 4),
            1 << 22,
            2976,
            "2024-11-03 22:00  2024-11-03 23:00",
        ),
        (
            (2024, 10, 3),
            1 << 22,
            2976,
            "2024-11-02 22:00  2024-11-02 23:00",
        ),
        (
            (2024, 10, 3),
            1 << 23,
            2976,
            "2024-11-02 23:00  2024-11-02 24:00",
        ),
    ] {
        let answer = answer_on(
            &["explain", "-"],
            dated(&text(intervals), date, word).as_bytes(),
        );
        let said = String::from_utf8(answer.stdout).expect("text");
        let runs = said.split("\n\n").nth(1).expect("the runs");
        let last = runs.lines().rev().nth(1).expect("the last run");
        assert!(last.contains(told), "{date:?}, {word}: {said}");
    }
}
