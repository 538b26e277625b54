//! Dates and clock hours once more in plain Rust, by the hours that pass: standard time counts them without a gap, and the clock is an hour ahead of
//! it from one change to the other. It shares no code with the library or the host.

use std::ops::Range;

pub type Date = (u64, u64, u64);

/// A day of the year 2007 to 2100 that an interval is in, and the hour that the clock shows.
#[derive(Clone, Copy, Debug, PartialEq, Eq)]
pub struct Shown {
    pub date: Date,
    pub hour: u64,
}

/// Days since 1 March of the year 0, on which a leap day is the last of its year.
fn day_number((year, month, day): Date) -> i64 {
    let (year, month, day) = (year as i64, month as i64, day as i64);
    let years = if month < 3 { year - 1 } else { year };
    let months = (month + 9) % 12;
    365 * years + years / 4 - years / 100 + years / 400 + (153 * months + 2) / 5 + day - 1
}

fn date_of(number: i64) -> Date {
    let mut years = number / 365;
    while day_number((years as u64, 3, 1)) > number {
        years -= 1;
    }
    let day_of_year = number - day_number((years as u64, 3, 1));
    let months = (5 * day_of_year + 2) / 153;
    let day = day_of_year - (153 * months + 2) / 5 + 1;
    let month = (months + 2) % 12 + 1;
    let year = if month < 3 { years + 1 } else { years };
    (year as u64, month as u64, day as u64)
}

/// A date that does not exist has the number of one that does.
pub fn exists(date: Date) -> bool {
    let (_, month, day) = date;
    (1..=12).contains(&month) && (1..=31).contains(&day) && date_of(day_number(date)) == date
}

pub fn days_after(date: Date, days: i64) -> Date {
    date_of(day_number(date) + days)
}

/// The number of the nth Sunday of a month. Day 4 of the count, 5 March of the year 0, was one.
fn sunday(year: u64, month: u64, nth: i64) -> i64 {
    let first = day_number((year, month, 1));
    first + (4 - first).rem_euclid(7) + 7 * (nth - 1)
}

/// The days on which clocks go forward and back.
pub fn changes(year: u64) -> [Date; 2] {
    [date_of(sunday(year, 3, 2)), date_of(sunday(year, 11, 1))]
}

/// From 2:00 on the second Sunday of March to 2:00 by the clock, which is 1:00 of standard time, on the first of November.
fn daylight_hours(year: u64) -> Range<i64> {
    24 * sunday(year, 3, 2) + 2..24 * sunday(year, 11, 1) + 1
}

/// The hours that the clock shows when so many hours of standard time are over, counted through from the first day.
fn clock(standard: i64) -> i64 {
    let (year, _, _) = date_of(standard.div_euclid(24));
    standard + i64::from(daylight_hours(year).contains(&standard))
}

/// What the clock shows in each of so many intervals from midnight of a date on.
pub fn shown(date: Date, intervals: usize) -> Vec<Shown> {
    let midnight = 24 * day_number(date);
    let opening = [midnight - 1, midnight]
        .into_iter()
        .find(|standard| clock(*standard) == midnight)
        .expect("no clock is changed at midnight");
    let hours = (0..intervals.div_ceil(4) as i64).map(|passed| {
        let hour = clock(opening + passed);
        Shown {
            date: date_of(hour.div_euclid(24)),
            hour: hour.rem_euclid(24) as u64,
        }
    });
    let quarters = hours.flat_map(|shown| [shown; 4]);
    quarters.take(intervals).collect()
}
