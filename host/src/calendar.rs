//! When intervals begin and end. Clock hours, and which dates there are, are the library's to say; the dates of the days that follow each other
//! are put together here.

use crate::amounts::{beginning, ending, time_of_day, PER_HOUR};
use crate::{clock_hour, clock_hours, Unit, Window};
use std::fmt;
use std::ops::Range;

/// The last year of the library's dates.
const LAST_YEAR: u64 = 2099;
const HOURS: u64 = 24;

#[derive(Clone, Copy, Debug, PartialEq, Eq)]
pub struct Date {
    pub year: u64,
    pub month: u64,
    pub day: u64,
}

impl fmt::Display for Date {
    fn fmt(&self, f: &mut fmt::Formatter) -> fmt::Result {
        write!(f, "{}-{:02}-{:02}", self.year, self.month, self.day)
    }
}

impl Date {
    fn of(window: &Window) -> Date {
        let Window {
            year, month, day, ..
        } = *window;
        Date { year, month, day }
    }

    /// The day behind this one. A horizon ends in January of 2100 at the latest, which has the days of every January.
    fn next(self) -> Date {
        let Date { year, month, day } = self;
        let exists = |day| clock_hour(year.min(LAST_YEAR), month, day, 1).is_ok();
        match (exists(day + 1), month) {
            (true, _) => Date {
                day: day + 1,
                ..self
            },
            (false, 12) => Date {
                year: year + 1,
                month: 1,
                day: 1,
            },
            (false, _) => Date {
                year,
                month: month + 1,
                day: 1,
            },
        }
    }
}

/// When an interval begins by the clock.
#[derive(Clone, Copy, Debug, PartialEq, Eq)]
pub struct Moment {
    pub date: Date,
    pub hour: u64,
    /// Quarters of the hour that are over.
    pub quarter: usize,
    /// The clock shows this hour for the second time.
    pub again: bool,
}

impl Moment {
    pub fn begins_hour(&self) -> bool {
        self.quarter == 0
    }

    pub fn begins_day(&self) -> bool {
        self.hour == 0 && self.begins_hour()
    }

    pub fn time(&self) -> String {
        let time = time_of_day(self.hour as usize * PER_HOUR + self.quarter);
        let again = if self.again { " again" } else { "" };
        format!("{time}{again}")
    }
}

impl fmt::Display for Moment {
    fn fmt(&self, f: &mut fmt::Formatter) -> fmt::Result {
        write!(f, "{} {}", self.date, self.time())
    }
}

/// The intervals of a case that has a date.
#[derive(Clone, Debug, PartialEq, Eq)]
pub struct Dated {
    pub window: Window,
    /// One to each interval, and behind them the one at which the last ends.
    moments: Vec<Moment>,
}

impl Dated {
    fn new(window: Window, intervals: usize) -> Dated {
        let hours = hours_of(&window, intervals);
        let mut moments: Vec<Moment> = Vec::with_capacity(intervals + 1);
        for place in 0..=intervals {
            let moment = moment(&window, place, hours.get(place), moments.last());
            moments.push(moment);
        }
        Dated { window, moments }
    }

    pub fn date(&self) -> Date {
        Date::of(&self.window)
    }

    /// One to each interval.
    pub fn moments(&self) -> &[Moment] {
        &self.moments[..self.moments.len() - 1]
    }

    fn ending(&self, place: usize) -> String {
        match self.moments[place + 1] {
            next if next.begins_day() => format!("{} 24:00", self.moments[place].date),
            next => next.to_string(),
        }
    }

    /// Intervals in a row whose hours are not permitted.
    pub fn shut(&self) -> Vec<Range<usize>> {
        let mut shut: Vec<Range<usize>> = Vec::new();
        for (place, moment) in self.moments().iter().enumerate() {
            if self.window.allows(moment.hour) {
                continue;
            }
            match shut.last_mut() {
                Some(stretch) if stretch.end == place => stretch.end = place + 1,
                _ => shut.push(place..place + 1),
            }
        }
        shut
    }

    /// How many hours of the clock are permitted, and which.
    pub fn permitted(&self) -> String {
        let allowed: Vec<u64> = (0..HOURS).filter(|h| self.window.allows(*h)).collect();
        let stretches = allowed.chunk_by(|hour, next| hour + 1 == *next);
        let times: Vec<String> = stretches
            .map(|hours| {
                let (first, end) = (hours[0], hours[hours.len() - 1] + 1);
                format!("{first:02}:00-{end:02}:00")
            })
            .collect();
        let counted = format!("permitted in {} of {HOURS} clock hours", allowed.len());
        match times.is_empty() {
            true => counted,
            false => format!("{counted}: {}", times.join(", ")),
        }
    }
}

/// The clock hours of so many intervals, and of the one behind them where the library goes that far.
fn hours_of(window: &Window, intervals: usize) -> Vec<u64> {
    let Date { year, month, day } = Date::of(window);
    let mut hours = vec![0; intervals + 1];
    if clock_hours(year, month, day, &mut hours).is_err() {
        hours.pop();
        clock_hours(year, month, day, &mut hours)
            .expect("a case with a plan has a date that exists and a horizon in range");
    }
    hours
}

/// The moment at which the interval at a place begins, counted from 0, by its clock hour and the moment before it.
fn moment(window: &Window, place: usize, hour: Option<&u64>, before: Option<&Moment>) -> Moment {
    let quarter = place % PER_HOUR;
    let Some(before) = before else {
        return Moment {
            date: Date::of(window),
            hour: hour.copied().unwrap_or(0),
            quarter,
            again: false,
        };
    };
    // behind the longest horizon no clock is changed: it ends about midnight
    let hour = hour
        .copied()
        .unwrap_or((before.hour + u64::from(quarter == 0)) % HOURS);
    let again = match quarter {
        0 => hour == before.hour,
        _ => before.again,
    };
    let date = match (hour, quarter) {
        (0, 0) => before.date.next(),
        _ => before.date,
    };
    Moment {
        date,
        hour,
        quarter,
        again,
    }
}

/// How the intervals of a case stand in time.
#[derive(Clone, Debug, PartialEq, Eq)]
pub enum Calendar {
    /// Days of 24 hours, counted from 1.
    Days,
    /// By date and clock.
    Dates(Dated),
}

impl Calendar {
    /// Of a case that has a plan.
    pub fn of(unit: &Unit, intervals: usize) -> Calendar {
        match unit.window {
            Some(window) => Calendar::Dates(Dated::new(window, intervals)),
            None => Calendar::Days,
        }
    }

    pub fn dated(&self) -> Option<&Dated> {
        match self {
            Calendar::Dates(dated) => Some(dated),
            Calendar::Days => None,
        }
    }

    /// When the interval at this place, counted from 0, begins.
    pub fn beginning(&self, place: usize) -> String {
        match self {
            Calendar::Dates(dated) => dated.moments[place].to_string(),
            Calendar::Days => beginning(place),
        }
    }

    /// When it ends: the last of a day at 24:00 of that day.
    pub fn ending(&self, place: usize) -> String {
        match self {
            Calendar::Dates(dated) => dated.ending(place),
            Calendar::Days => ending(place),
        }
    }
}
