//! The library's algorithm in plain Rust, the baseline: one table of what is left, layers from the last to the first, the plan read off from
//! the front, outcomes from the first layer, the cells cleared. It checks nothing.

use ralwinga::{clock_hour, Outcome, Outcomes, Report, Unit};

/// Where there is no schedule, and what no profit reaches.
const INFEASIBLE: i64 = -(1 << 62);
const NO_PROFIT: i64 = -(1 << 61);

struct Figures {
    unit: Unit,
    mot: usize,
    states: usize,
    pmin: usize,
    pmax: usize,
    per_start: usize,
    per_on: usize,
    starts: usize,
    ons: usize,
    blocks: usize,
    row: usize,
    span: usize,
    part: usize,
    width: usize,
}

/// A state and what is left of each limitation.
#[derive(Clone, Copy)]
struct Cell {
    state: usize,
    starts: usize,
    ons: usize,
    blocks: usize,
}

fn figures_of(unit: Unit, n: usize) -> Figures {
    let left = |limit: Option<u64>, most: usize| limit.map_or(0, |x| (x as usize).min(most));
    let starts = left(unit.starts, n);
    let ons = left(unit.hours.map(|h| 4 * h), n);
    let blocks = left(unit.mwh.map(|m| 4 * m / unit.block), n * unit.pmax as usize);
    let states = (unit.mot + unit.mdt) as usize;
    let row = blocks + 1;
    let span = (ons + 1) * row;
    let part = (starts + 1) * span;
    Figures {
        unit,
        mot: unit.mot as usize,
        states,
        pmin: unit.pmin as usize,
        pmax: unit.pmax as usize,
        per_start: unit.starts.is_some() as usize,
        per_on: unit.hours.is_some() as usize,
        starts,
        ons,
        blocks,
        row,
        span,
        part,
        width: states * part,
    }
}

impl Figures {
    fn index(&self, c: Cell) -> usize {
        c.state * self.part + c.starts * self.span + c.ons * self.row + c.blocks
    }

    fn opening(&self) -> Cell {
        let held = self.unit.held as usize;
        let mdt = self.unit.mdt as usize;
        let state = match self.unit.was {
            1 => held.min(self.mot) - 1,
            _ => self.mot + held.min(mdt) - 1,
        };
        Cell {
            state,
            starts: self.starts,
            ons: self.ons,
            blocks: self.blocks,
        }
    }

    /// Past the last state where the step is not allowed.
    fn after_off(&self, s: usize) -> usize {
        match s {
            s if s + 1 == self.mot => self.mot,
            s if s < self.mot => self.states,
            s => (s + 1).min(self.states - 1),
        }
    }

    fn after_on(&self, s: usize) -> usize {
        match s {
            s if s < self.mot => (s + 1).min(self.mot - 1),
            s if s + 1 == self.states => 0,
            _ => self.states,
        }
    }

    fn start_takes(&self, s: usize) -> usize {
        if s < self.mot {
            0
        } else {
            self.per_start
        }
    }

    /// What an interval on with k blocks brings from state s.
    fn net(&self, price: i64, s: usize, k: usize) -> i64 {
        let u = &self.unit;
        let output = k as i64 * u.block as i64;
        let above = output - (u.pmin * u.block) as i64;
        let pays = if s < self.mot { 0 } else { 4 * u.suc as i64 };
        price * output - u.vec as i64 * above - u.mlc as i64 - pays
    }
}

fn raise(to: &mut [i64], from: &[i64], gain: i64) {
    for (cell, behind) in to.iter_mut().zip(from) {
        *cell = (*cell).max(behind + gain);
    }
}

/// The best over the outputs by a sliding-window maximum: sources in chunks of as many as there are outputs, each passed forward and backward.
fn raise_row(f: &Figures, to: &mut [i64], from: &[i64], price: i64, s: usize) {
    if f.row <= f.pmin {
        return;
    }
    let slope = (price - f.unit.vec as i64) * f.unit.block as i64;
    let (low, high) = (f.net(price, s, f.pmin), f.net(price, s, f.pmax));
    let window = f.pmax - f.pmin + 1;
    let sources = f.row - f.pmin;
    let mut at = 0;
    while at < sources {
        let end = (at + window).min(sources);
        let chunk = &from[at..end];
        let mut best = chunk[0] - slope;
        for (cell, behind) in to[at + f.pmin..].iter_mut().zip(chunk) {
            best = (*behind).max(best + slope);
            *cell = (*cell).max(best + low);
        }
        if at + f.pmax < f.row {
            let written = chunk.len().min(f.row - f.pmax - at);
            let mut best = chunk[chunk.len() - 1] + slope;
            for behind in chunk[written..].iter().rev() {
                best = (*behind).max(best - slope);
            }
            let cells = to[at + f.pmax..at + f.pmax + written].iter_mut();
            for (cell, behind) in cells.zip(&chunk[..written]).rev() {
                best = (*behind).max(best - slope);
                *cell = (*cell).max(best + high);
            }
        }
        at = end;
    }
}

fn raise_span(f: &Figures, to: &mut [i64], from: &[i64], price: i64, s: usize) {
    let skipped = f.per_on * f.row;
    if f.unit.mwh.is_none() {
        let end = f.net(price, s, f.pmin).max(f.net(price, s, f.pmax));
        raise(&mut to[skipped..], from, end);
        return;
    }
    for (to, from) in to[skipped..]
        .chunks_exact_mut(f.row)
        .zip(from.chunks_exact(f.row))
    {
        raise_row(f, to, from, price, s);
    }
}

/// Whether the unit may run in the interval at a place.
fn opens(unit: &Unit, place: usize) -> bool {
    unit.window.is_none_or(|w| {
        clock_hour(w.year, w.month, w.day, place as u64 + 1).is_ok_and(|hour| w.allows(hour))
    })
}

fn fill_layer(f: &Figures, layer: &mut [i64], behind: &[i64], price: i64, opens: bool) {
    for (s, to) in layer.chunks_exact_mut(f.part).enumerate() {
        let off = f.after_off(s);
        if off < f.states {
            to.copy_from_slice(&behind[off * f.part..(off + 1) * f.part]);
        } else {
            to.fill(INFEASIBLE);
        }
        let on = f.after_on(s);
        if opens && on < f.states {
            let from = &behind[on * f.part..(on + 1) * f.part];
            let skipped = f.start_takes(s) * f.span;
            for (to, from) in to[skipped..]
                .chunks_exact_mut(f.span)
                .zip(from.chunks_exact(f.span))
            {
                raise_span(f, to, from, price, s);
            }
        }
    }
}

fn fill(f: &Figures, scratch: &mut [i64], prices: &[i64]) {
    let n = prices.len();
    scratch[n * f.width..(n + 1) * f.width].fill(0);
    for t in (0..n).rev() {
        let (layer, behind) = scratch[t * f.width..].split_at_mut(f.width);
        let behind = &behind[..f.width];
        fill_layer(f, layer, behind, prices[t], opens(&f.unit, t));
    }
}

/// The first output that reaches the best, interval by interval.
fn read_off(f: &Figures, cells: &[i64], prices: &[i64], schedule: &mut [u64]) {
    let mut at = f.opening();
    for (t, &price) in prices.iter().enumerate() {
        let layer = &cells[t * f.width..];
        let behind = &layer[f.width..];
        let best = layer[f.index(at)];
        let off = f.after_off(at.state);
        let off_cell = Cell { state: off, ..at };
        if off < f.states && behind[f.index(off_cell)] == best {
            schedule[t] = 0;
            at = off_cell;
            continue;
        }
        let after = |k: usize| Cell {
            state: f.after_on(at.state),
            starts: at.starts - f.start_takes(at.state),
            ons: at.ons - f.per_on,
            blocks: if f.unit.mwh.is_some() {
                at.blocks - k
            } else {
                0
            },
        };
        let k = (f.pmin..=f.pmax)
            .find(|&k| behind[f.index(after(k))] + f.net(price, at.state, k) == best)
            .expect("an output reaches the best");
        schedule[t] = k as u64 * f.unit.block;
        at = after(k);
    }
}

fn outcome(limit: Option<u64>, best_at: impl Fn(u64) -> i64) -> Outcome {
    let Some(whole) = limit else {
        return Outcome::None;
    };
    let figure = 9 * whole / 10;
    if figure == 0 {
        return Outcome::Empty;
    }
    let lower = best_at(figure - 1);
    if lower < NO_PROFIT {
        return Outcome::Never;
    }
    Outcome::Gap(best_at(figure) - lower)
}

fn outcomes(f: &Figures, cells: &[i64], n: usize) -> Outcomes {
    let open = f.opening();
    let at = |c: Cell| cells[f.index(c)];
    Outcomes {
        starts: outcome(f.unit.starts, |k| {
            at(Cell {
                starts: (k as usize).min(n),
                ..open
            })
        }),
        hours: outcome(f.unit.hours, |k| {
            at(Cell {
                ons: (4 * k as usize).min(n),
                ..open
            })
        }),
        mwh: outcome(f.unit.mwh, |k| {
            at(Cell {
                blocks: ((4 * k / f.unit.block) as usize).min(n * f.pmax),
                ..open
            })
        }),
    }
}

/// The report of a case that has a schedule, over a scratch of the cells that it needs.
pub fn report_into(
    unit: Unit,
    prices: &[i64],
    scratch: &mut [i64],
    schedule: &mut [u64],
) -> Report {
    let n = prices.len();
    let f = figures_of(unit, n);
    fill(&f, scratch, prices);
    let profit = scratch[f.index(f.opening())];
    read_off(&f, scratch, prices, schedule);
    let outcomes = outcomes(&f, scratch, n);
    scratch[..(n + 1) * f.width].fill(0);
    Report {
        count: n,
        profit,
        outcomes,
    }
}
