//! Drawings for a person to look at: prices and output over the intervals here, where a run tells its times and earnings where the pointer is on it,
//! and the hours that are not permitted are shaded; a bid curve in `curve`.

pub mod curve;

use crate::amounts::{dollars, quarters, time_of_day, PER_DAY, PER_HOUR};
use crate::calendar::{Calendar, Dated};
use crate::explanation::Explanation;
use crate::markup::escaped;
use crate::runs::Run;
use std::fmt::Write;

const WIDTH: f64 = 1400.0;
const LEFT: f64 = 80.0;
const RIGHT: f64 = 30.0;
const PRICE_TOP: f64 = 60.0;
const PRICE_HEIGHT: f64 = 240.0;
const OUTPUT_TOP: f64 = 350.0;
const OUTPUT_HEIGHT: f64 = 140.0;
const BOTTOM: f64 = OUTPUT_TOP + OUTPUT_HEIGHT;
const HEIGHT: f64 = 540.0;
const TIP_WIDTH: f64 = 380.0;
const TIP_HEIGHT: f64 = 66.0;

/// So that a run's tip shows where the pointer or the keyboard is on the run.
const STYLE: &str = "<style>.run rect.reach{fill:#e08a2e;fill-opacity:0}\
.run:hover rect.reach,.run:focus rect.reach{fill-opacity:0.15}\
.run .tip{visibility:hidden;pointer-events:none}\
.run:hover .tip,.run:focus .tip{visibility:visible}</style>";

/// A panel: values from `low` at the bottom to `high` at the top.
struct Panel {
    top: f64,
    height: f64,
    low: f64,
    high: f64,
}

impl Panel {
    fn y(&self, value: f64) -> f64 {
        self.top + self.height * (self.high - value) / (self.high - self.low)
    }

    fn of_prices(prices: &[i64]) -> Panel {
        let low = prices.iter().copied().min().unwrap_or(0).min(0);
        let high = prices.iter().copied().max().unwrap_or(0).max(low + 100);
        Panel {
            top: PRICE_TOP,
            height: PRICE_HEIGHT,
            low: in_dollars(low),
            high: in_dollars(high),
        }
    }

    fn of_outputs(schedule: &[u64]) -> Panel {
        let most = schedule.iter().copied().max().unwrap_or(0).max(1);
        Panel {
            top: OUTPUT_TOP,
            height: OUTPUT_HEIGHT,
            low: 0.0,
            high: most as f64,
        }
    }
}

fn in_dollars(cents: i64) -> f64 {
    cents as f64 / 100.0
}

/// Where intervals stand across the drawing.
struct Across {
    intervals: usize,
}

impl Across {
    fn x(&self, place: usize) -> f64 {
        LEFT + (WIDTH - LEFT - RIGHT) * place as f64 / self.intervals.max(1) as f64
    }

    /// The corners of a line that stays level through each interval.
    fn steps(&self, levels: impl Iterator<Item = f64>) -> String {
        let mut line = String::new();
        for (i, y) in levels.enumerate() {
            let _ = write!(line, "{:.1},{y:.1} {:.1},{y:.1} ", self.x(i), self.x(i + 1));
        }
        line.trim_end().to_string()
    }
}

/// Prices above, output in MW below, a line where each day begins (or some hours of a day), and the runs.
pub fn draw(prices: &[i64], schedule: &[u64], told: &Explanation) -> String {
    let across = Across {
        intervals: prices.len(),
    };
    let (price_panel, output_panel) = (Panel::of_prices(prices), Panel::of_outputs(schedule));
    let mut out = String::new();
    heading(&mut out, told);
    if let Some(dated) = told.calendar.dated() {
        shade(&mut out, &across, told, dated);
    }
    times(&mut out, &across, &told.calendar);
    axis(&mut out, &price_panel, "$/MWh");
    axis(&mut out, &output_panel, "MW");
    let line = across.steps(prices.iter().map(|p| price_panel.y(in_dollars(*p))));
    let _ = writeln!(
        out,
        r##"<path d="M{line}" fill="none" stroke="#1f5fa8" stroke-width="1"/>"##
    );
    let base = output_panel.y(0.0);
    let line = across.steps(schedule.iter().map(|mw| output_panel.y(*mw as f64)));
    let _ = writeln!(
        out,
        r##"<path d="M{LEFT:.1},{base:.1} L{line} L{:.1},{base:.1} Z" fill="#e08a2e" fill-opacity="0.75" stroke="#a85f14" stroke-width="0.6"/>"##,
        across.x(schedule.len())
    );
    for (run, number) in told.runs.iter().zip(1..) {
        reach(&mut out, &across, &told.calendar, run, number);
    }
    out.push_str("</svg>\n");
    out
}

fn heading(out: &mut String, told: &Explanation) {
    let [_, hours, mwh] = told.usages;
    let from = told.calendar.dated().map(|d| format!(" from {}", d.date()));
    let said = format!(
        "Plan of {} quarter-hours{}: profit {}, {} run-hours, {} MWh",
        told.intervals,
        from.unwrap_or_default(),
        dollars(told.profit),
        quarters(hours.used),
        quarters(mwh.used),
    );
    open(out, &said);
    let _ = writeln!(out, "{STYLE}");
}

/// A white sheet with a line above.
fn open(out: &mut String, said: &str) {
    let _ = writeln!(
        out,
        r##"<svg xmlns="http://www.w3.org/2000/svg" width="{WIDTH}" height="{HEIGHT}" viewBox="0 0 {WIDTH} {HEIGHT}" font-family="sans-serif" font-size="12">
<rect width="{WIDTH}" height="{HEIGHT}" fill="white"/>
<text x="{LEFT}" y="28" font-size="17">{said}</text>"##
    );
}

/// The letters of a line of a notice.
const NOTICE_LETTERS: usize = 150;

/// The drawing of what has none: a sheet with what it is of, why there is none, and the line with the place or what would help.
pub fn notice(title: &str, why: &str, said: &str) -> String {
    let mut out = String::new();
    open(&mut out, &escaped(title));
    let lines = wrapped(why).into_iter().chain(wrapped(said));
    for (line, row) in lines.zip(1u8..) {
        let (y, line) = (PRICE_TOP + 24.0 * f64::from(row), escaped(&line));
        let _ = writeln!(
            out,
            r##"<text class="notice" x="{LEFT}" y="{y:.1}" font-size="15" fill="#a01515">{line}</text>"##
        );
    }
    out.push_str("</svg>\n");
    out
}

/// A text in lines that go on the sheet, broken between words.
fn wrapped(text: &str) -> Vec<String> {
    let mut lines = vec![String::new()];
    for word in text.split(' ') {
        let line = lines.last_mut().expect("one is there");
        if !line.is_empty() && line.chars().count() + word.chars().count() >= NOTICE_LETTERS {
            lines.push(word.to_string());
        } else {
            if !line.is_empty() {
                line.push(' ');
            }
            line.push_str(word);
        }
    }
    lines
}

/// The least width at which a run can be pointed at.
const LEAST_REACH: f64 = 4.0;

/// The stretch of the drawing that is a run's, and its tip.
fn reach(out: &mut String, across: &Across, calendar: &Calendar, run: &Run, number: usize) {
    let (from, to) = (across.x(run.first()), across.x(run.last() + 1));
    let (middle, width) = ((from + to) / 2.0, (to - from).max(LEAST_REACH));
    let x = (middle - TIP_WIDTH / 2.0).clamp(LEFT, WIDTH - RIGHT - TIP_WIDTH);
    let _ = writeln!(
        out,
        r##"<g class="run" tabindex="0"><rect class="reach" x="{:.1}" y="{PRICE_TOP}" width="{width:.1}" height="{:.1}"/>
<g class="tip"><rect x="{x:.1}" y="{PRICE_TOP}" width="{TIP_WIDTH}" height="{TIP_HEIGHT}" rx="4" fill="white" stroke="#a85f14"/>"##,
        middle - width / 2.0,
        BOTTOM - PRICE_TOP
    );
    for (said, row) in tip_lines(calendar, run, number).iter().zip(1u8..) {
        let (x, y) = (x + 10.0, PRICE_TOP + 19.0 * f64::from(row));
        let _ = writeln!(out, r##"<text x="{x:.1}" y="{y:.1}">{said}</text>"##);
    }
    out.push_str("</g></g>\n");
}

/// What a run's tip says.
fn tip_lines(calendar: &Calendar, run: &Run, number: usize) -> [String; 3] {
    let start = match run.start {
        Some(cost) => format!("start {}", dollars(cost)),
        None => "on before".to_string(),
    };
    [
        format!(
            "run {number}: {} to {}",
            calendar.beginning(run.first()),
            calendar.ending(run.last())
        ),
        format!(
            "{} MW, {} hours, {} MWh",
            run.mw(),
            quarters(run.length()),
            quarters(run.output())
        ),
        format!(
            "earns {}, {start}, in all {}",
            dollars(run.earned()),
            dollars(run.earned() - run.start_cost())
        ),
    ]
}

/// The steps between marks, in quarter-hours: hours of a day, then days.
const STEPS: [usize; 8] = [4, 8, 12, 24, 48, PER_DAY, 2 * PER_DAY, 4 * PER_DAY];
const MOST_MARKS: usize = 16;

/// A line where each day begins, or each few hours of a short case, with the time or the day.
fn times(out: &mut String, across: &Across, calendar: &Calendar) {
    let fits = |step: &usize| across.intervals.div_ceil(*step) <= MOST_MARKS;
    let step = STEPS.into_iter().find(fits).unwrap_or(8 * PER_DAY);
    let (marks, size) = match calendar {
        Calendar::Days => (counted_marks(across.intervals, step), ""),
        Calendar::Dates(dated) => (dated_marks(across, dated, step), DATE_SIZE),
    };
    for Mark { place, said } in marks {
        let at = across.x(place);
        upright(out, at);
        if let Some(said) = said {
            let _ = writeln!(
                out,
                r##"<text x="{:.1}" y="{}"{size} fill="#444444">{said}</text>"##,
                at + 3.0,
                BOTTOM + 18.0,
            );
        }
    }
}

/// A line at the beginning of an interval, and what stands under it.
struct Mark {
    place: usize,
    said: Option<String>,
}

/// The marks of days that are counted.
fn counted_marks(intervals: usize, step: usize) -> Vec<Mark> {
    let said = |place: usize| match place % PER_DAY {
        0 => format!("day {}", place / PER_DAY + 1),
        quarters => time_of_day(quarters),
    };
    (0..intervals)
        .step_by(step.min(PER_DAY))
        .map(|place| Mark {
            place,
            said: (place % step == 0).then(|| said(place)),
        })
        .collect()
}

/// Dates are wider than counted days; what they take, their distance from the line included.
const DATE_SIZE: &str = " font-size=\"11\"";
const DATE_WIDTH: f64 = 67.0;

/// The marks by the clock, on which a day can be an hour shorter or longer than 24. Nothing is said where it would run off the sheet, or into the date
/// before it, as 03:00 would two hours behind the midnight of a day without hour 2.
fn dated_marks(across: &Across, dated: &Dated, step: usize) -> Vec<Mark> {
    let (hours, days) = (
        (step.min(PER_DAY) / PER_HOUR) as u64,
        step.div_ceil(PER_DAY),
    );
    let mut day = 0;
    let mut date_ends = 0.0;
    let mut marks = Vec::new();
    for (place, moment) in dated.moments().iter().enumerate() {
        day += usize::from(moment.begins_day());
        if !moment.begins_hour() || !moment.hour.is_multiple_of(hours) {
            continue;
        }
        let said = match moment.begins_day() {
            true => ((day - 1) % days == 0).then(|| moment.date.to_string()),
            false => Some(moment.time()),
        };
        let (from, to) = (across.x(place), across.x(place) + DATE_WIDTH);
        let said = said.filter(|_| date_ends <= from && to <= WIDTH);
        if moment.begins_day() && said.is_some() {
            date_ends = to;
        }
        marks.push(Mark { place, said });
    }
    marks
}

/// A shade over the intervals in which the unit may not run, and a line that says when it may.
fn shade(out: &mut String, across: &Across, told: &Explanation, dated: &Dated) {
    let _ = writeln!(
        out,
        r##"<text class="window" x="{LEFT}" y="{:.1}" fill="#444444">{}; shaded where not</text>"##,
        PRICE_TOP - 14.0,
        dated.permitted()
    );
    for stretch in dated.shut() {
        let (from, to) = (across.x(stretch.start), across.x(stretch.end));
        let _ = writeln!(
            out,
            r##"<rect class="shut" x="{from:.1}" y="{PRICE_TOP}" width="{:.1}" height="{:.1}" fill="#888888" fill-opacity="0.2"><title>not permitted: {} to {}</title></rect>"##,
            to - from,
            BOTTOM - PRICE_TOP,
            told.calendar.beginning(stretch.start),
            told.calendar.ending(stretch.end - 1),
        );
    }
}

/// A pale line from top to bottom.
fn upright(out: &mut String, at: f64) {
    let _ = writeln!(
        out,
        r##"<line x1="{at:.1}" y1="{PRICE_TOP}" x2="{at:.1}" y2="{BOTTOM}" stroke="#dddddd"/>"##
    );
}

/// About so many values stand beside a panel.
const LEVELS: f64 = 5.0;

/// The round numbers from the bottom of a panel to its top.
fn levels(panel: &Panel) -> impl Iterator<Item = f64> {
    let least = (panel.high - panel.low) / LEVELS;
    let power = 10f64.powf(least.log10().floor());
    let step = [1.0, 2.0, 5.0, 10.0]
        .map(|round| round * power)
        .into_iter()
        .find(|step| *step >= least)
        .unwrap_or(least);
    let (first, last) = ((panel.low / step).ceil(), (panel.high / step).floor());
    // to the cent: 3 times 0.2 is not quite 0.6
    (first as i64..=last as i64).map(move |level| (level as f64 * step * 100.0).round() / 100.0)
}

/// Round values at the left of a panel with lines across, and its unit.
fn axis(out: &mut String, panel: &Panel, unit: &str) {
    let (left, right) = (LEFT - 8.0, WIDTH - RIGHT);
    for value in levels(panel) {
        let y = panel.y(value);
        let _ = writeln!(
            out,
            r##"<line x1="{LEFT}" y1="{y:.1}" x2="{right}" y2="{y:.1}" stroke="#cccccc"/>
<text x="{left:.1}" y="{:.1}" text-anchor="end">{value}</text>"##,
            y + 4.0
        );
    }
    let _ = writeln!(
        out,
        r##"<text x="{left:.1}" y="{:.1}" text-anchor="end" fill="#444444">{unit}</text>"##,
        panel.top - 14.0
    );
}
