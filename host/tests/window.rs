//! Permitted hours: the worked cases of the request, plans across both changes of time beside the recursion, and the word in the listing.

mod support;

use ralwinga::{assess, cells, listing, plan_into, refusal_line, report_into, write_listing};
use ralwinga::{Case, Outcome, Outcomes, Refusal, Report, Unit, Window};
use support::calendar::{changes, days_after, Date};
use support::{answer_on, c1, dated, paper, proved_program, ralwinga, recursion, run_on};
use support::{Folder, Lent, Random, C1, FULL};

fn within(unit: Unit, (year, month, day): Date, word: u64) -> Unit {
    let window = Some(Window {
        year,
        month,
        day,
        word,
    });
    Unit { window, ..unit }
}

/// The report and the plan by the library, or the number.
fn reported(unit: Unit, prices: &[i64]) -> Result<(Report, Vec<u64>), u64> {
    let answer = cells(unit, prices.len()).and_then(|cells| {
        let (mut scratch, mut schedule) = (vec![0; cells.table], vec![0; prices.len()]);
        let report = report_into(unit, prices, &mut scratch, &mut schedule)?;
        Ok((report, schedule))
    });
    answer.map_err(|refusal| refusal.number())
}

fn printed(words: &[&str], text: &str) -> String {
    String::from_utf8(answer_on(words, text.as_bytes()).stdout).expect("text")
}

const DATE: Date = (2024, 2, 3);

/// C1's unit and prices where the first hour alone is permitted: what is printed by the command, and by the proved program.
#[test]
fn the_first_hour_alone() {
    let text = dated(C1, DATE, 1);
    let expected = "interval,mw\n1,0\n2,20\n3,20\n4,0\n5,0\n6,0\n\n\
                    what,value\nprofit,200000\nstarts,200000\nhours,200000\nmwh,none\nwindow,1\n";
    assert_eq!(printed(&["-"], &text), expected);
    let program = run_on(proved_program(), text.as_bytes());
    assert_eq!(String::from_utf8_lossy(&program.stdout), expected);
    let Case { unit, prices } = c1();
    let (report, plan) = reported(within(unit, DATE, 1), &prices).expect("a plan");
    assert_eq!((report.profit, plan), (200_000, vec![0, 20, 20, 0, 0, 0]));
    let outcomes = Outcomes {
        starts: Outcome::Gap(200_000),
        hours: Outcome::Gap(200_000),
        mwh: Outcome::None,
    };
    assert_eq!(report.outcomes, outcomes);
}

/// On before, an interval on at least to come, and the first hour not permitted.
#[test]
fn no_schedule_keeps_it() {
    let text = dated(C1, DATE, 2).replacen(",0,2,3000", ",1,1,3000", 1);
    assert_eq!(printed(&["-"], &text), "refused,9\n");
    let Case { unit, prices } = c1();
    let on_before = Unit {
        was: 1,
        held: 1,
        ..unit
    };
    assert_eq!(reported(within(on_before, DATE, 2), &prices), Err(9));
    assert!(reported(within(on_before, DATE, 3), &prices).is_ok());
    assert!(reported(on_before, &prices).is_ok());
}

/// The plan that C1 has without a window, handed in.
#[test]
fn a_schedule_that_runs_where_it_may_not() {
    let Case { unit, prices } = c1();
    let plan = [0, 20, 20, 10, 20, 20];
    assert_eq!(assess(unit, &prices, &plan), Ok(400_000));
    let in_window = |word| assess(within(unit, DATE, word), &prices, &plan);
    assert_eq!(in_window(1), Err(Refusal::NotKept));
    assert_eq!(in_window(2), Err(Refusal::NotKept));
    assert_eq!(in_window(3), Ok(400_000));
    let folder = Folder::new("not-permitted");
    let case = folder.file("case.csv", dated(C1, DATE, 1));
    let command = ralwinga(["assess".as_ref(), case.as_os_str(), "-".as_ref()]);
    let answer = run_on(command, paper::table(&plan).as_bytes());
    assert_eq!(answer.stdout, b"refused,10\n");
}

#[test]
fn no_hour_at_all() {
    let expected = "interval,mw\n1,0\n2,0\n3,0\n4,0\n5,0\n6,0\n\n\
                    what,value\nprofit,0\nstarts,0\nhours,0\nmwh,none\nwindow,0\n";
    assert_eq!(printed(&["-"], &dated(C1, DATE, 0)), expected);
}

/// Every hour permitted is as if there were no window, but for the line that says so.
#[test]
fn every_hour() {
    let without = printed(&["-"], C1);
    let with = printed(&["-"], &dated(C1, DATE, FULL));
    assert_eq!(with, format!("{without}window,24\n"));
}

/// The intervals in which a plan is on, counted from 1.
fn on(plan: &[u64]) -> Vec<usize> {
    let on = |(interval, mw): (usize, &u64)| (*mw > 0).then_some(interval);
    (1..).zip(plan).filter_map(on).collect()
}

#[test]
fn where_clocks_are_changed() {
    let free = Unit {
        suc: 0,
        starts: None,
        hours: None,
        ..c1().unit
    };
    let on_at = |date, bit: u64| {
        let (_, plan) = reported(within(free, date, 1 << bit), &[9000; 16]).expect("a plan");
        on(&plan)
    };
    let none: Vec<usize> = Vec::new();
    let march = (2024, 3, 10);
    assert_eq!(on_at(march, 1), [5, 6, 7, 8]);
    assert_eq!(on_at(march, 2), none);
    assert_eq!(on_at(march, 3), [9, 10, 11, 12]);
    assert_eq!(on_at(march, 4), [13, 14, 15, 16]);
    let november = (2024, 11, 3);
    assert_eq!(on_at(november, 1), [5, 6, 7, 8, 9, 10, 11, 12]);
    assert_eq!(on_at(november, 2), [13, 14, 15, 16]);
    assert_eq!(on_at(november, 3), none);
    let between = (2024, 7, 4);
    assert_eq!(on_at(between, 2), [9, 10, 11, 12]);
}

/// A date that does not exist, beside each cause that comes before it and after it.
#[test]
fn a_date_that_does_not_exist() {
    let no_date = dated(C1, (2024, 2, 30), 1);
    let prices = "2000\n9000\n8000\n1000\n7000\n10000\n";
    let without_prices = |text: &str| text.replacen(prices, "", 1);
    assert_eq!(printed(&["-"], &no_date), "refused,12\n");
    assert_eq!(printed(&["-"], &without_prices(&no_date)), "refused,12\n");
    let shape = no_date.replacen("\n10,1,2,", "\n10,3,2,", 1);
    assert_eq!(printed(&["-"], &shape), "refused,4\n");
    assert_eq!(printed(&["-"], &without_prices(&shape)), "refused,4\n");
    let range = no_date.replacen(",30,1\n", ",30,16777216\n", 1);
    assert_eq!(printed(&["-"], &range), "refused,3\n");
    let there = dated(C1, (2024, 2, 29), 1);
    assert_eq!(printed(&["-"], &without_prices(&there)), "refused,5\n");
    let not_there = dated(C1, (2023, 2, 29), 1);
    assert_eq!(printed(&["-"], &not_there), "refused,12\n");
    // 12 leaves the slices as they were
    let Case { unit, prices } = c1();
    let unit = within(unit, (2024, 2, 30), 1);
    let (cells, entries) = (vec![7; 600], vec![9; 6]);
    let (mut scratch, mut schedule) =
        (Lent::new(cells.clone(), 77), Lent::new(entries.clone(), 88));
    let answer = plan_into(unit, &prices, scratch.slice(), schedule.slice());
    assert_eq!(answer, Err(Refusal::Date));
    scratch.holds(&cells);
    schedule.holds(&entries);
    let answer = report_into(unit, &prices, scratch.slice(), schedule.slice());
    assert_eq!(answer, Err(Refusal::Date));
    scratch.holds(&cells);
    schedule.holds(&entries);
    assert_eq!(assess(unit, &prices, &[0; 6]), Err(Refusal::Date));
    assert_eq!(refusal_line(Refusal::Date), b"refused,12\n");
}

/// Where the day stands is told.
#[test]
fn the_place_of_a_date() {
    let answer = answer_on(&["-"], dated(C1, (2023, 2, 29), 1).as_bytes());
    let said = String::from_utf8(answer.stderr).expect("text");
    assert!(
        said.contains("line 2, column 48: there is no day '29' in month '2' of '2023' (refused, 12: the date does not exist)"),
        "{said}"
    );
}

/// A unit of few outputs, limited in starts or not.
fn any_unit(random: &mut Random) -> Unit {
    Unit {
        block: 10,
        pmin: 1,
        pmax: 1 + random.below(3),
        mot: 1 + random.below(8),
        mdt: 1 + random.below(8),
        was: random.below(2),
        held: 1 + random.below(9),
        vec: 3000,
        mlc: 30_000,
        suc: random.from(&[0, 5000]),
        starts: random.limit(6),
        hours: None,
        mwh: None,
        window: None,
    }
}

/// The report and the plan by the recursion, or 9.
fn by_recursion(unit: &Unit, prices: &[i64]) -> Result<(Report, Vec<u64>), u64> {
    let (profit, plan) = recursion::best(unit, prices).ok_or(9u64)?;
    let profit_of = |unit| recursion::best(&unit, prices).map(|(earned, _)| earned.into());
    let report = Report {
        count: plan.len(),
        profit,
        outcomes: paper::outcomes_by(unit, profit_of),
    };
    Ok((report, plan))
}

/// Words for any hour, for those about the changes, for days and nights, and for every other hour.
const WORDS: [u64; 10] = [
    FULL,
    1 << 0,
    1 << 1,
    1 << 2,
    1 << 3,
    0b1110,
    FULL - 0b1110,
    0x3f_ff00,
    0xc0_00ff,
    0x55_5555,
];

/// Three days about each change of time, by the recursion.
#[test]
fn plans_across_the_changes() {
    let mut random = Random::new(71);
    let (mut planned, mut refused, mut crossing) = (0, 0, 0);
    for year in [2007, 2015, 2024, 2026, 2032, 2099] {
        for change in changes(year) {
            for (word, before) in WORDS
                .into_iter()
                .flat_map(|word| [0, 1, 2, 3].map(|b| (word, b)))
            {
                let date = days_after(change, -before);
                let unit = within(any_unit(&mut random), date, word);
                let prices: Vec<i64> = (0..300).map(|_| random.between(-1000, 9000)).collect();
                let expected = by_recursion(&unit, &prices);
                assert_eq!(reported(unit, &prices), expected, "{unit:?}");
                planned += usize::from(expected.is_ok());
                refused += usize::from(expected.is_err());
                // it would earn otherwise were the clock not changed
                let unchanged = within(unit, (2024, 7, 4), word);
                crossing += usize::from(expected != by_recursion(&unchanged, &prices));
            }
        }
    }
    assert!(refused > 20 && planned > refused, "{planned}, {refused}");
    assert!(crossing > planned / 4, "{crossing} of {planned}");
}

/// The line of the word behind the outcomes for every number of hours, and words that are none.
#[test]
fn the_word_in_the_listing() {
    let outcomes = Outcomes {
        starts: Outcome::None,
        hours: Outcome::Empty,
        mwh: Outcome::Gap(-5),
    };
    let schedule = [0, 20];
    let without =
        "interval,mw\n1,0\n2,20\n\nwhat,value\nprofit,7\nstarts,none\nhours,empty\nmwh,-5\n";
    let mut random = Random::new(72);
    let words = (0..24).map(|hours| (1 << hours) - 1).chain([FULL]);
    let words: Vec<u64> = words
        .chain((0..1000).map(|_| random.below(1 << 24)))
        .collect();
    for word in words {
        let unit = within(c1().unit, DATE, word);
        let hours = (0..24).filter(|hour| word >> hour & 1 == 1).count();
        let expected = format!("{without}window,{hours}\n");
        let told = listing(&unit, &schedule, 7, outcomes);
        assert_eq!(String::from_utf8_lossy(&told), expected);
        // a buffer that is just long enough, and one that is not
        let mut out = Lent::new(vec![b'#'; expected.len()], b'!');
        let bytes = write_listing(&schedule, 7, outcomes, Some(word), out.slice());
        assert_eq!(bytes, Ok(expected.len()));
        out.holds(expected.as_bytes());
        let short = vec![b'#'; expected.len() - 1];
        let mut out = Lent::new(short.clone(), b'!');
        let bytes = write_listing(&schedule, 7, outcomes, Some(word), out.slice());
        assert_eq!(bytes, Err(Refusal::Length));
        out.holds(&short);
    }
    assert_eq!(
        listing(&c1().unit, &schedule, 7, outcomes),
        without.as_bytes()
    );
    for word in [FULL + 1, FULL + 2, 1 << 32, 1 << 63, u64::MAX - 1, u64::MAX] {
        for length in [0, 5, 200] {
            let lent = vec![b'#'; length];
            let mut out = Lent::new(lent.clone(), b'!');
            let bytes = write_listing(&schedule, 7, outcomes, Some(word), out.slice());
            assert_eq!(bytes, Err(Refusal::Range));
            out.holds(&lent);
        }
    }
}
