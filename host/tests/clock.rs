//! The clock hour of every date beside the calendar of the tests, and that one beside dates known from almanacs.

mod support;

use ralwinga::{clock_hour, clock_hours};
use support::calendar::{changes, days_after, exists, shown, Date};

const MOST_INTERVALS: u64 = 2976;

/// Every date from 2007 to 2099.
fn every_date() -> impl Iterator<Item = Date> {
    let last = (2099, 12, 31);
    std::iter::successors(Some((2007, 1, 1)), move |date| {
        (*date != last).then(|| days_after(*date, 1))
    })
}

/// What stands past a slice that is lent.
const CANARY: u64 = 99;

/// All intervals of so many from a date on, in one call; the last of them and one drawn by the date asked for alone as well.
fn agrees(date: Date, intervals: u64) {
    let (year, month, day) = date;
    let expected = shown(date, intervals as usize);
    let mut hours = vec![CANARY; intervals as usize + 1];
    let lent = &mut hours[..intervals as usize];
    assert_eq!(clock_hours(year, month, day, lent), Ok(intervals as usize));
    assert!(expected.iter().map(|s| &s.hour).eq(lent.iter()), "{date:?}");
    assert_eq!(hours[intervals as usize], CANARY);
    for interval in [
        intervals,
        1 + (year * 7 + month * 31 + day * 97) % intervals,
    ] {
        let hour = clock_hour(year, month, day, interval);
        let shown = expected[interval as usize - 1].hour;
        assert_eq!(hour, Ok(shown), "{date:?}, interval {interval}");
    }
}

#[test]
fn known_dates() {
    for (year, march, november) in [
        (2007, 11, 4),
        (2024, 10, 3),
        (2025, 9, 2),
        (2026, 8, 1),
        (2032, 14, 7),
        (2099, 8, 1),
    ] {
        assert_eq!(changes(year), [(year, 3, march), (year, 11, november)]);
    }
    for date in [(2024, 2, 29), (2096, 2, 29), (2099, 12, 31)] {
        assert!(exists(date), "{date:?}");
    }
    for date in [(2023, 2, 29), (2024, 2, 30), (2024, 4, 31), (2024, 13, 1)] {
        assert!(!exists(date), "{date:?}");
    }
    assert_eq!(days_after((2099, 12, 31), 1), (2100, 1, 1));
    assert_eq!(days_after((2024, 2, 28), 2), (2024, 3, 1));
    assert_eq!(every_date().count(), 93 * 365 + 23);
}

#[test]
fn known_hours() {
    for (date, hours) in [
        ((2024, 3, 10), [0, 1, 3, 4, 5]),
        ((2024, 11, 3), [0, 1, 1, 2, 3]),
        ((2024, 3, 3), [0, 1, 2, 3, 4]),
        ((2024, 11, 10), [0, 1, 2, 3, 4]),
        ((2024, 7, 4), [0, 1, 2, 3, 4]),
    ] {
        let (year, month, day) = date;
        let quarters = || hours.iter().flat_map(|hour| [*hour; 4]);
        assert!(shown(date, 20).iter().map(|s| s.hour).eq(quarters()));
        for (hour, interval) in quarters().zip(1..) {
            assert_eq!(clock_hour(year, month, day, interval), Ok(hour));
        }
    }
    let of_two_days = |date| shown(date, 192);
    assert_eq!(of_two_days((2024, 3, 10))[91].date, (2024, 3, 10));
    assert_eq!(of_two_days((2024, 3, 10))[92].date, (2024, 3, 11));
    assert_eq!(of_two_days((2024, 11, 3))[99].date, (2024, 11, 3));
    assert_eq!(of_two_days((2024, 11, 3))[100].date, (2024, 11, 4));
}

/// One interval after the other, on the days on which time changes.
#[test]
fn interval_by_interval() {
    for date in (2007..=2099).flat_map(changes) {
        let (year, month, day) = date;
        for (shown, interval) in shown(date, 104).iter().zip(1..) {
            let hour = clock_hour(year, month, day, interval);
            assert_eq!(hour, Ok(shown.hour), "{date:?}, interval {interval}");
        }
    }
}

#[test]
fn three_days_from_every_date() {
    every_date().for_each(|date| agrees(date, 288));
}

/// Into January of 2100 too.
#[test]
fn a_month_across_every_new_year() {
    for year in 2007..=2099 {
        (1..=31).for_each(|day| agrees((year, 12, day), MOST_INTERVALS));
    }
}

/// A horizon comes to a change of time on any of its days, or to none.
#[test]
fn a_month_from_every_date_of_some_years() {
    let years = [2007, 2015, 2024, 2032, 2099];
    every_date()
        .filter(|(year, _, _)| years.contains(year))
        .for_each(|date| agrees(date, MOST_INTERVALS));
}

/// 3 or 12 of a date and an interval, or none.
fn refused(date: Date, interval: u64) -> Option<u64> {
    let (year, month, day) = date;
    let in_range = (2007..=2099).contains(&year)
        && (1..=12).contains(&month)
        && (1..=31).contains(&day)
        && (1..=MOST_INTERVALS).contains(&interval);
    match in_range {
        false => Some(3),
        true => (!exists(date)).then_some(12),
    }
}

#[test]
fn what_is_refused() {
    let mut seen = [0; 13];
    let mut judged = |date: Date, interval: u64| {
        let (year, month, day) = date;
        let answer = clock_hour(year, month, day, interval);
        let number = answer.err().map(|refusal| refusal.number());
        let expected = refused(date, interval);
        assert_eq!(number, expected, "{date:?}, interval {interval}");
        if interval <= MOST_INTERVALS + 1 {
            let mut hours = vec![CANARY; interval as usize];
            let number = clock_hours(year, month, day, &mut hours).err();
            assert_eq!(number.map(|refusal| refusal.number()), expected, "{date:?}");
            let untouched = hours.iter().all(|hour| *hour == CANARY);
            assert!(untouched == expected.is_some() || interval == 0, "{date:?}");
        }
        seen[expected.unwrap_or(0) as usize] += 1;
    };
    for year in 2006..=2100 {
        for month in 0..=13 {
            for day in 0..=32 {
                judged((year, month, day), 1);
            }
        }
    }
    let far = [0, 1 << 32, 1 << 63, u64::MAX - 1, u64::MAX];
    for figure in far {
        judged((figure, 1, 1), 1);
        judged((2024, figure, 1), 1);
        judged((2024, 1, figure), 1);
        judged((2024, 1, 1), figure);
        judged((2024, 2, 30), figure);
        judged((figure, 2, 30), 1);
    }
    for interval in [1, 2, MOST_INTERVALS - 1, MOST_INTERVALS, MOST_INTERVALS + 1] {
        judged((2024, 2, 29), interval);
        judged((2024, 2, 30), interval);
        judged((2099, 12, 31), interval);
    }
    support::each_came_up(&seen, &[0, 3, 12]);
}
