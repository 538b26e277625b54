//! Two layers of scratch: the worked cases of the request, what is left of the scratch, and the command where the long table does not fit or is slower.

mod support;

use ralwinga::reader::read_case;
use ralwinga::{cells, listing, plan_into, report_into, value};
use ralwinga::{Case, Cells, Outcome, Refusal, Report, Unit, Window};
use std::path::PathBuf;
use support::{answer_on, c1, month, paper, proved_program, ralwinga, run_on};
use support::{Folder, Lent, Random, C1};

const PLAN: [u64; 6] = [0, 20, 20, 10, 20, 20];

/// So many cells that are used and then some that are not, all with a number in them.
fn dirty(used: usize, beyond: usize) -> (Lent<i64>, Vec<i64>) {
    let lent = Lent::new(vec![-7; used + beyond], 77);
    (lent, [vec![0; used], vec![-7; beyond]].concat())
}

#[test]
fn the_sizes_of_c1() {
    let Case { unit, prices } = c1();
    let (needed, table) = (168, 588);
    assert_eq!(cells(unit, prices.len()), Ok(Cells { needed, table }));
    for (used, beyond) in [(168, 0), (168, 1), (168, 419), (588, 0), (588, 1)] {
        let (mut scratch, after) = dirty(used, beyond);
        let mut schedule = [9; 6];
        let answer = plan_into(unit, &prices, scratch.slice(), &mut schedule);
        assert_eq!((answer, schedule), (Ok((6, 400_000)), PLAN));
        scratch.holds(&after);

        let (mut scratch, after) = dirty(used, beyond);
        let mut schedule = [9; 6];
        let report = report_into(unit, &prices, scratch.slice(), &mut schedule).expect("a plan");
        assert_eq!((report.profit, schedule), (400_000, PLAN));
        assert_eq!(report.outcomes.starts, Outcome::Gap(400_000));
        assert_eq!(report.outcomes.hours, Outcome::Gap(320_000));
        scratch.holds(&after);

        let (mut scratch, after) = dirty(used, beyond);
        let answer = value(unit, &prices, scratch.slice());
        assert_eq!(answer, Ok(report.outcomes));
        scratch.holds(&after);
    }
}

#[test]
fn fewer_than_two_layers() {
    let Case { unit, prices } = c1();
    for length in [0, 1, 84, 167] {
        let (mut scratch, after) = dirty(0, length);
        let mut schedule = [9; 6];
        let answer = plan_into(unit, &prices, scratch.slice(), &mut schedule);
        assert_eq!(answer, Err(Refusal::Scratch));
        let answer = report_into(unit, &prices, scratch.slice(), &mut schedule);
        assert_eq!(answer, Err(Refusal::Scratch));
        let answer = value(unit, &prices, scratch.slice());
        assert_eq!(answer, Err(Refusal::Scratch));
        scratch.holds(&after);
        assert_eq!(schedule, [9; 6]);
    }
}

/// C7: on before, six intervals at least to stay on, and three hours.
#[test]
fn c7_in_two_layers() {
    let Case { unit, prices } = c1();
    let unit = Unit {
        was: 1,
        held: 1,
        mot: 6,
        hours: Some(3),
        ..unit
    };
    let (needed, table) = (336, 1176);
    assert_eq!(cells(unit, prices.len()), Ok(Cells { needed, table }));
    let (mut scratch, after) = dirty(336, 0);
    let outcomes = value(unit, &prices, scratch.slice()).expect("a plan");
    assert_eq!(outcomes.hours, Outcome::Never);
    scratch.holds(&after);
}

/// No schedule keeps a unit on that may not run an hour: the cells used are 0 all the same.
#[test]
fn no_schedule_in_two_layers() {
    let Case { unit, prices } = c1();
    let unit = Unit {
        was: 1,
        held: 1,
        hours: Some(0),
        ..unit
    };
    let Cells { needed, table } = cells(unit, prices.len()).expect("a case in order");
    for (used, beyond) in [(needed, 0), (needed, table - needed - 1), (table, 3)] {
        let (mut scratch, after) = dirty(used, beyond);
        let mut schedule = [9; 6];
        let answer = report_into(unit, &prices, scratch.slice(), &mut schedule);
        assert_eq!(answer, Err(Refusal::NoSchedule));
        assert_eq!(schedule, [9; 6]);
        scratch.holds(&after);
    }
}

/// The long table of one price is two layers.
#[test]
fn one_price() {
    let unit = c1().unit;
    let sizes = cells(unit, 1).expect("a case in order");
    assert_eq!(sizes.needed, sizes.table);
    let (mut scratch, after) = dirty(sizes.needed, 4);
    let mut schedule = [9];
    let answer = report_into(unit, &[9000], scratch.slice(), &mut schedule);
    let (expected, plan) = paper::reported(&unit, &[9000]).expect("a plan");
    assert_eq!((answer, schedule.to_vec()), (Ok(expected), plan));
    scratch.holds(&after);
    let (mut scratch, _) = dirty(0, sizes.needed - 1);
    let answer = report_into(unit, &[9000], scratch.slice(), &mut schedule);
    assert_eq!(answer, Err(Refusal::Scratch));
}

/// Four quarter-hours of sixteen alike: the last ones, since the plan is the earliest in the order of lists.
#[test]
fn sixteen_prices() {
    let unit = Unit {
        suc: 0,
        starts: None,
        hours: Some(1),
        ..c1().unit
    };
    let prices = [9000; 16];
    let (needed, table) = (40, 340);
    assert_eq!(cells(unit, prices.len()), Ok(Cells { needed, table }));
    let plan = [vec![0; 12], vec![20; 4]].concat();
    for (used, beyond) in [(40, 0), (40, 299), (340, 0)] {
        let (mut scratch, after) = dirty(used, beyond);
        let mut schedule = vec![9; 16];
        let answer = plan_into(unit, &prices, scratch.slice(), &mut schedule);
        assert_eq!((answer, &schedule), (Ok((16, 480_000)), &plan));
        scratch.holds(&after);
    }
}

/// A day whose long table is over the program's 4,000 cells is planned in two layers of them.
#[test]
fn a_day_in_the_program() {
    let (head, _) = C1.split_once("price\n").expect("prices");
    let head = head.replacen(",2,2,none", ",4,12,none", 1);
    let prices: String = (0..96)
        .map(|t| if t % 48 < 20 { "1000\n" } else { "9000\n" })
        .collect();
    let text = format!("{head}price\n{prices}");
    let expected = answer_on(&["-"], text.as_bytes());
    let said = String::from_utf8_lossy(&expected.stderr).to_string();
    assert!(said.starts_with("ralwinga: 95060 cells, "), "{said}");
    let answer = answer_on(&["--cells", "4000", "-"], text.as_bytes());
    let said = String::from_utf8_lossy(&answer.stderr).to_string();
    assert!(said.starts_with("ralwinga: 1960 cells, 15.3 KiB of scratch: two layers, "));
    assert_eq!(answer.stdout, expected.stdout);
    let program = run_on(proved_program(), text.as_bytes());
    assert_eq!(program.stdout, expected.stdout);
}

/// The report and the plan of a case from so many cells, which are 0 afterwards, and some more, which are as they were.
fn reported(unit: Unit, prices: &[i64], used: usize, beyond: usize) -> (Report, Vec<u64>) {
    let (mut scratch, after) = dirty(used, beyond);
    let mut schedule = Lent::new(vec![9; prices.len()], 88);
    let report = report_into(unit, prices, scratch.slice(), schedule.slice()).expect("a plan");
    scratch.holds(&after);
    let plan = schedule.slice().to_vec();
    schedule.holds(&plan);
    let (mut scratch, after) = dirty(used, beyond);
    assert_eq!(value(unit, prices, scratch.slice()), Ok(report.outcomes));
    scratch.holds(&after);
    (report, plan)
}

/// Months under each limitation: two layers, with cells past them or none, answer as the long table does.
#[test]
fn months_in_both_sizes() {
    let mut random = Random::new(17);
    for (starts, hours, mwh) in [
        (Some(30), None, None),
        (None, Some(200), None),
        (None, None, Some(1000)),
        (Some(5), Some(40), None),
    ] {
        let unit = Unit {
            starts,
            hours,
            mwh,
            ..c1().unit
        };
        let prices: Vec<i64> = (0..2976).map(|_| random.between(-1000, 9000)).collect();
        let Cells { needed, table } = cells(unit, prices.len()).expect("a case in order");
        let expected = reported(unit, &prices, table, 5);
        assert!(expected.0.profit > 0);
        for beyond in [0, 5, table - needed - 1] {
            assert_eq!(reported(unit, &prices, needed, beyond), expected);
        }
    }
}

/// A case of some days at most, whose prices often tie, with any limitations and permitted hours; its long table has at most 500,000 cells.
fn some_case(random: &mut Random) -> Option<(Unit, Vec<i64>, Cells)> {
    let pmin = 1 + random.below(4);
    let window = Window {
        year: 2024,
        month: random.from(&[3, 11]),
        day: 1 + random.below(9),
        word: random.below(1 << 24),
    };
    let unit = Unit {
        block: 1 + random.below(6),
        pmin,
        pmax: pmin + random.from(&[0, 1, 6, 40]),
        mot: 1 + random.below(7),
        mdt: 1 + random.below(7),
        was: random.below(2),
        held: 1 + random.below(12),
        suc: 100 * random.below(90),
        starts: random.limit(12),
        hours: random.limit(20),
        mwh: random.limit(300),
        window: random.one_in(4).then_some(window),
        ..c1().unit
    };
    let steps = random.from(&[500, 1, 3000]);
    let prices: Vec<i64> = (0..2 + random.below(250))
        .map(|_| steps * random.between(-2000 / steps, 9000 / steps))
        .collect();
    let cells = cells(unit, prices.len()).ok()?;
    (cells.table <= 500_000).then_some((unit, prices, cells))
}

/// Any case: two layers answer as the long table does, a refusal too.
#[test]
fn cases_in_both_sizes() {
    let mut random = Random::new(5);
    let (mut planned, mut refused) = (0, 0);
    while planned < 3000 {
        let Some((unit, prices, Cells { needed, table })) = some_case(&mut random) else {
            continue;
        };
        let beyond = random.below((table - needed) as u64) as usize;
        let mut plan = vec![0; prices.len()];
        if report_into(unit, &prices, &mut vec![1; table], &mut plan).is_err() {
            refused += 1;
            let answer = report_into(unit, &prices, &mut vec![1; needed], &mut plan);
            assert_eq!(answer.map_err(|refusal| refusal.number()), Err(9));
            continue;
        }
        planned += 1;
        let expected = reported(unit, &prices, table, 5);
        assert_eq!(reported(unit, &prices, needed, beyond), expected);
    }
    assert!(refused > 0);
}

/// A month with 200 hours is planned in two layers of 4 × 801 cells, whether its long table fits or not.
#[test]
fn a_month_that_is_faster_in_two_layers() {
    let text = month().replacen(",2,2,none", ",none,200,none", 1);
    let Case { unit, prices } = read_case(text.as_bytes()).expect("a case in order");
    let (report, plan) = reported(unit, &prices, 9_538_308, 0);
    let expected = listing(&unit, &plan, report.profit, report.outcomes);
    for (words, why) in [
        (
            &["-"][..],
            "which are faster than the long table of 9538308 cells",
        ),
        (
            &["--cells", "9538308", "-"],
            "which are faster than the long table of 9538308 cells",
        ),
        (
            &["--cells", "9538307", "-"],
            "since the long table of 9538308 cells does not fit",
        ),
        (
            &["--cells", "6408", "-"],
            "since the long table of 9538308 cells does not fit",
        ),
    ] {
        let answer = answer_on(words, text.as_bytes());
        assert_eq!(answer.stdout, expected, "{words:?}");
        let said = String::from_utf8_lossy(&answer.stderr).to_string();
        let two_layers = "ralwinga: 6408 cells, 50.1 KiB of scratch: two layers";
        assert_eq!(said, format!("{two_layers}, {why}\n"), "{words:?}");
    }
}

/// A month with two hours, whose long table is faster where it fits: two layers of 9 × 3 × 4 cells.
#[test]
fn a_month_in_two_layers() {
    let text = month();
    let expected = answer_on(&["-"], text.as_bytes());
    let said = String::from_utf8_lossy(&expected.stderr).to_string();
    assert_eq!(said, "ralwinga: 321516 cells, 2.5 MiB of scratch\n");
    let answer = answer_on(&["--cells", "216", "-"], text.as_bytes());
    assert_eq!(answer.stdout, expected.stdout);
    let said = String::from_utf8_lossy(&answer.stderr).to_string();
    assert!(said.contains(" two layers, since the long table of 321516 cells"));
    let answer = answer_on(&["--cells", "215", "-"], text.as_bytes());
    assert_eq!(answer.stdout, b"refused,8\n");
}

/// Of many cases each goes the faster way that fits.
#[test]
fn many_cases() {
    let folder = Folder::new("layers");
    let small = C1.replacen(",2,2,none", ",2,none,none", 1);
    let files: [PathBuf; 3] = [
        folder.file("a.csv", C1),
        folder.file("small.csv", small),
        folder.file("c.csv", C1),
    ];
    let run = |words: &[&str]| {
        let answer = ralwinga(words).args(&files).output().expect("runs");
        let said = String::from_utf8(answer.stderr).expect("text");
        (answer.stdout, said)
    };
    let (table, said) = run(&["plan", "--jobs", "1"]);
    assert!(said.ends_with("588 cells, 4.6 KiB of scratch\n"), "{said}");
    let (same, said) = run(&["plan", "--jobs", "1", "--cells", "587"]);
    assert_eq!(same, table);
    assert_eq!(
        said,
        "ralwinga: 3 cases, 1 at a time, at most 168 cells, 1.3 KiB of scratch: 2 in two layers, since their long tables do not fit\n"
    );
    let (refused, said) = run(&["plan", "--jobs", "1", "--cells", "167"]);
    let refused = String::from_utf8(refused).expect("text");
    assert_eq!(refused.matches(",8,,,,,,,,,,\n").count(), 2);
    assert_eq!(said.matches(": the case needs 168 cells, ").count(), 2);
}

/// Of months some go by two layers since these are faster, and some since the long table does not fit.
#[test]
fn many_months() {
    let folder = Folder::new("layers-of-months");
    let with_hours = |hours: &str| {
        let limited = format!(",none,{hours},none");
        let text = month().replacen(",2,2,none", &limited, 1);
        folder.file(&format!("{hours}.csv"), text)
    };
    // long tables of 107,172, 1,917,188 and 9,538,308 cells
    let files = ["2", "40", "200"].map(with_hours);
    let run = |words: &[&str]| {
        let words = [&["plan", "--jobs", "1"], words].concat();
        let answer = ralwinga(words).args(&files).output().expect("runs");
        let said = String::from_utf8(answer.stderr).expect("text");
        let (_, layers) = said.split_once(" of scratch").expect("a size");
        (answer.stdout, layers.to_string())
    };
    let (table, said) = run(&[]);
    assert_eq!(
        said,
        ": 2 in two layers, which are faster than their long tables\n"
    );
    for (most, why) in [
        ("2000000", ": 1 in two layers, since its long table does not fit, and 1 in two layers, which are faster than its long table\n"),
        ("1917187", ": 2 in two layers, since their long tables do not fit\n"),
        ("6408", ": 3 in two layers, since their long tables do not fit\n"),
    ] {
        let (same, said) = run(&["--cells", most]);
        assert_eq!((same == table, said.as_str()), (true, why), "{most}");
    }
}

/// One thread's cells are handed out once: from sixteen cases on the long tables are faster.
#[test]
fn many_months_to_a_thread() {
    let folder = Folder::new("layers-of-many-months");
    let text = month().replacen(",2,2,none", ",none,40,none", 1);
    let files: Vec<_> = (0..16)
        .map(|case| folder.file(&format!("{case}.csv"), text.clone()))
        .collect();
    let run = |jobs: &str, cases: usize| {
        let mut command = ralwinga(vec!["plan", "--jobs", jobs]);
        let answer = command.args(&files[..cases]).output().expect("runs");
        let said = String::from_utf8(answer.stderr).expect("text");
        let rows = String::from_utf8(answer.stdout).expect("text");
        let first = rows.lines().nth(1).expect("a row").to_string();
        (first, said)
    };
    let (row, said) = run("1", 16);
    assert!(said.starts_with("ralwinga: 16 cases, 1 at a time, at most 1917188 cells"));
    assert!(!said.contains("two layers"), "{said}");
    for (jobs, cases) in [("1", 15), ("2", 16)] {
        let (same, said) = run(jobs, cases);
        assert_eq!(same, row);
        let layered = format!(": {cases} in two layers, which are faster than their long tables\n");
        assert!(said.ends_with(&layered), "{said}");
    }
}
