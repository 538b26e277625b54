//! The best plan by a plain recursion with a memory, from the front and by what was used so far: for cases too long to try every list.

use super::paper;
use ralwinga::Unit;
use std::collections::HashMap;

/// Where a schedule stands after some intervals, and what it used.
#[derive(Clone, Copy, PartialEq, Eq, Hash)]
struct Place {
    interval: usize,
    on: bool,
    /// Intervals spent in that state, counted as far as the minimum times ask.
    spell: u64,
    starts: u64,
    on_intervals: u64,
    output: u64,
}

struct Search<'a> {
    unit: &'a Unit,
    prices: &'a [i64],
    /// Whether the unit may run, interval by interval.
    permitted: Vec<bool>,
    known: HashMap<Place, Option<i64>>,
}

impl Search<'_> {
    /// The place that an output leads to and what it brings, where it is allowed.
    fn step(&self, place: Place, output: u64) -> Option<(Place, i64)> {
        let u = self.unit;
        let on = output > 0;
        if on && !self.permitted[place.interval] {
            return None;
        }
        let turned = on != place.on;
        if turned && place.spell < if place.on { u.mot } else { u.mdt } {
            return None;
        }
        let started = turned && on;
        // where a limitation is not there, what was used of it does not tell two places apart
        let used = |limit: Option<u64>, before: u64, more: u64| limit.map_or(0, |_| before + more);
        let next = Place {
            interval: place.interval + 1,
            on,
            spell: if turned { 1 } else { place.spell + 1 }.min(u.mot.max(u.mdt)),
            starts: used(u.starts, place.starts, started as u64),
            on_intervals: used(u.hours, place.on_intervals, on as u64),
            output: used(u.mwh, place.output, output),
        };
        let within = u.starts.is_none_or(|most| next.starts <= most)
            && u.hours.is_none_or(|most| next.on_intervals <= 4 * most)
            && u.mwh.is_none_or(|most| next.output <= 4 * most);
        let earned = match on {
            true => {
                let above = output as i64 - (u.pmin * u.block) as i64;
                self.prices[place.interval] * output as i64 - u.vec as i64 * above - u.mlc as i64
            }
            false => 0,
        };
        let paid = if started { 4 * u.suc as i64 } else { 0 };
        within.then_some((next, earned - paid))
    }

    fn outputs(&self) -> impl Iterator<Item = u64> {
        let u = *self.unit;
        std::iter::once(0).chain((u.pmin..=u.pmax).map(move |k| k * u.block))
    }

    /// The best profit from a place on.
    fn best(&mut self, place: Place) -> Option<i64> {
        if place.interval == self.prices.len() {
            return Some(0);
        }
        if let Some(known) = self.known.get(&place) {
            return *known;
        }
        let mut best = None;
        for output in self.outputs() {
            best = best.max(self.reach(place, output));
        }
        self.known.insert(place, best);
        best
    }

    /// What an output and the best after it bring.
    fn reach(&mut self, place: Place, output: u64) -> Option<i64> {
        let (next, brings) = self.step(place, output)?;
        Some(self.best(next)? + brings)
    }
}

/// The best profit and the earliest schedule that earns it.
pub fn best(unit: &Unit, prices: &[i64]) -> Option<(i64, Vec<u64>)> {
    let mut search = Search {
        unit,
        prices,
        permitted: paper::permitted(unit, prices.len()),
        known: HashMap::new(),
    };
    let mut place = Place {
        interval: 0,
        on: unit.was == 1,
        spell: unit.held.min(unit.mot.max(unit.mdt)),
        starts: 0,
        on_intervals: 0,
        output: 0,
    };
    let profit = search.best(place)?;
    let mut plan = Vec::new();
    while place.interval < prices.len() {
        let best = search.best(place);
        let output = search
            .outputs()
            .find(|output| search.reach(place, *output) == best)
            .expect("an output reaches the best");
        plan.push(output);
        place = search.step(place, output).expect("it was allowed").0;
    }
    Some((profit, plan))
}
