//! A drawing of a bid curve: a staircase, MW across and the price up.

use super::{axis, in_dollars, open, upright, Panel};
use super::{BOTTOM, LEFT, PRICE_TOP, RIGHT, WIDTH};
use crate::amounts::dollars;
use crate::Segment;
use std::fmt::Write;

/// Where levels stand across the drawing: the curve's first at the left, its last at the right.
struct Across {
    first: u64,
    last: u64,
}

impl Across {
    fn of(segments: &[Segment]) -> Across {
        let first = segments.first().map_or(0, |segment| segment.from);
        let last = segments.last().map_or(0, |segment| segment.to);
        Across { first, last }
    }

    fn x(&self, level: u64) -> f64 {
        let span = self.last.saturating_sub(self.first).max(1);
        LEFT + (WIDTH - LEFT - RIGHT) * level.saturating_sub(self.first) as f64 / span as f64
    }
}

/// The least that a panel reaches over and under the prices, in cents.
const LEAST_MARGIN: i64 = 50;

/// From under the lowest price to over the highest. 0 need not be there: the steps of a dear unit would be too small to see.
fn panel_of(segments: &[Segment]) -> Panel {
    let prices = || segments.iter().map(|segment| segment.price);
    let (low, high) = (prices().min().unwrap_or(0), prices().max().unwrap_or(0));
    let margin = ((high - low) / 10).max(LEAST_MARGIN);
    Panel {
        top: PRICE_TOP,
        height: BOTTOM - PRICE_TOP,
        low: in_dollars(low - margin),
        high: in_dollars(high + margin),
    }
}

/// The staircase, a mark where each segment begins and ends, and what each segment costs where the pointer is on it.
pub fn draw(segments: &[Segment]) -> String {
    let (across, panel) = (Across::of(segments), panel_of(segments));
    let mut out = String::new();
    open(&mut out, &heading(segments));
    axis(&mut out, &panel, "$/MWh");
    marks(&mut out, &across, segments);
    staircase(&mut out, &across, &panel, segments);
    for segment in segments {
        reach(&mut out, &across, segment);
    }
    out.push_str("</svg>\n");
    out
}

fn price(segment: &Segment) -> String {
    dollars(4 * segment.price)
}

fn heading(segments: &[Segment]) -> String {
    match segments {
        [] => "Bid curve without a segment".to_string(),
        [one] => format!(
            "Bid curve: {} to {} MW at {} per MWh",
            one.from,
            one.to,
            price(one)
        ),
        [first, .., last] => format!(
            "Bid curve of {} segments: {} to {} MW at {} to {} per MWh",
            segments.len(),
            first.from,
            last.to,
            price(first),
            price(last)
        ),
    }
}

/// The least distance between two levels that are both written.
const LEAST_ROOM: f64 = 36.0;

/// A line at each level where a segment begins or ends, with its MW where there is room, and the unit.
fn marks(out: &mut String, across: &Across, segments: &[Segment]) {
    let begins = segments.first().map(|segment| segment.from);
    let ends = segments.iter().map(|segment| segment.to);
    let end = across.x(across.last);
    let mut free = LEFT;
    for level in begins.into_iter().chain(ends) {
        let at = across.x(level);
        upright(out, at);
        // the last level is written in any case
        if level == across.last || (free..=end - LEAST_ROOM).contains(&at) {
            under(out, at, 18.0, &level.to_string());
            free = at + LEAST_ROOM;
        }
    }
    under(out, (LEFT + end) / 2.0, 36.0, "MW");
}

/// Words so far under the panel, their middle at `x`.
fn under(out: &mut String, x: f64, depth: f64, said: &str) {
    let y = BOTTOM + depth;
    let _ = writeln!(
        out,
        r##"<text x="{x:.1}" y="{y}" text-anchor="middle" fill="#444444">{said}</text>"##
    );
}

/// A line that stays level through each segment.
fn staircase(out: &mut String, across: &Across, panel: &Panel, segments: &[Segment]) {
    let step = |segment: &Segment| {
        let (from, to) = (across.x(segment.from), across.x(segment.to));
        let y = panel.y(in_dollars(segment.price));
        format!("{from:.1},{y:.1} {to:.1},{y:.1}")
    };
    let corners: Vec<String> = segments.iter().map(step).collect();
    let _ = writeln!(
        out,
        r##"<polyline points="{}" fill="none" stroke="#1f5fa8" stroke-width="2"/>"##,
        corners.join(" ")
    );
}

/// The stretch of the drawing that is a segment's, which tells its levels and its price.
fn reach(out: &mut String, across: &Across, segment: &Segment) {
    let (from, to) = (across.x(segment.from), across.x(segment.to));
    let _ = writeln!(
        out,
        r##"<rect class="segment" x="{from:.1}" y="{PRICE_TOP}" width="{:.1}" height="{:.1}" fill-opacity="0"><title>{} to {} MW: {} per MWh</title></rect>"##,
        to - from,
        BOTTOM - PRICE_TOP,
        segment.from,
        segment.to,
        price(segment)
    );
}
