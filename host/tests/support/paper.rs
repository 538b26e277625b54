//! The specification once more in plain Rust, by enumeration: every list of outputs is tried. It shares no code with the library or the wrapper
//! but the types.

use super::calendar;
use ralwinga::{Cells, CostFigures, CostInputs, Outcome, Outcomes, Report, Unit, Window};
use std::cmp::Ordering;

type Refused = u64;

fn in_range(limit: Option<u64>, most: u64) -> bool {
    limit.is_none_or(|figure| figure <= most)
}

fn date_of(w: &Window) -> calendar::Date {
    (w.year, w.month, w.day)
}

fn window_in_range(w: &Window) -> bool {
    (2007..=2099).contains(&w.year)
        && (1..=12).contains(&w.month)
        && (1..=31).contains(&w.day)
        && w.word < 1 << 24
}

/// 3, 4, 12 or 5 of a record and its prices.
pub fn judge_case(u: &Unit, prices: &[i64]) -> Result<(), Refused> {
    let ranges = (1..=500).contains(&u.block)
        && (1..=500).contains(&u.pmin)
        && (1..=500).contains(&u.pmax)
        && (1..=96).contains(&u.mot)
        && (1..=96).contains(&u.mdt)
        && u.was <= 1
        && (1..=9999).contains(&u.held)
        && u.vec <= 2_000_000
        && u.mlc <= 1_000_000_000
        && u.suc <= 4_000_000_000
        && in_range(u.starts, 2976)
        && in_range(u.hours, 744)
        && in_range(u.mwh, 372_000)
        && u.window.is_none_or(|w| window_in_range(&w));
    if !ranges || prices.iter().any(|p| !(-200_000..=200_000).contains(p)) {
        return Err(3);
    }
    if u.pmin > u.pmax || u.pmax * u.block > 500 {
        return Err(4);
    }
    if u.window.is_some_and(|w| !calendar::exists(date_of(&w))) {
        return Err(12);
    }
    if prices.is_empty() || prices.len() > 2976 {
        return Err(5);
    }
    Ok(())
}

fn is_output(u: &Unit, mw: u64) -> bool {
    mw == 0 || mw.is_multiple_of(u.block) && (u.pmin * u.block..=u.pmax * u.block).contains(&mw)
}

/// Whether the unit may run in each of so many intervals.
pub fn permitted(u: &Unit, intervals: usize) -> Vec<bool> {
    let Some(w) = u.window else {
        return vec![true; intervals];
    };
    let hours = calendar::shown(date_of(&w), intervals).into_iter();
    hours.map(|shown| w.word & 1 << shown.hour != 0).collect()
}

/// The spells of a schedule, the one before interval 1 first: on or off, and its length.
fn spells(u: &Unit, schedule: &[u64]) -> Vec<(bool, u64)> {
    let mut spells = vec![(u.was == 1, u.held)];
    for mw in schedule {
        let on = *mw > 0;
        match spells.last_mut() {
            Some((state, length)) if *state == on => *length += 1,
            _ => spells.push((on, 1)),
        }
    }
    spells
}

pub fn keeps(u: &Unit, schedule: &[u64]) -> bool {
    keeps_where(u, &permitted(u, schedule.len()), schedule)
}

fn keeps_where(u: &Unit, permitted: &[bool], schedule: &[u64]) -> bool {
    let spells = spells(u, schedule);
    let starts = spells[1..].iter().filter(|(on, _)| *on).count() as u64;
    let ended = &spells[..spells.len() - 1];
    let on_intervals = schedule.iter().filter(|mw| **mw > 0).count() as u64;
    schedule.iter().all(|mw| is_output(u, *mw))
        && schedule
            .iter()
            .zip(permitted)
            .all(|(mw, permitted)| *permitted || *mw == 0)
        && ended
            .iter()
            .all(|(on, length)| *length >= if *on { u.mot } else { u.mdt })
        && u.starts.is_none_or(|most| starts <= most)
        && u.hours.is_none_or(|most| on_intervals <= 4 * most)
        && u.mwh.is_none_or(|most| {
            schedule.iter().map(|mw| u128::from(*mw)).sum::<u128>() <= 4 * u128::from(most)
        })
}

pub fn profit(u: &Unit, prices: &[i64], schedule: &[u64]) -> i128 {
    let mut was_on = u.was == 1;
    let mut total = 0;
    for (price, mw) in prices.iter().zip(schedule) {
        if *mw > 0 {
            let above = i128::from(*mw) - i128::from(u.pmin * u.block);
            total += i128::from(*price) * i128::from(*mw)
                - i128::from(u.vec) * above
                - i128::from(u.mlc);
            if !was_on {
                total -= 4 * i128::from(u.suc);
            }
        }
        was_on = *mw > 0;
    }
    total
}

/// Tries every list in the paper's order; the first of the best stays.
pub fn best(u: &Unit, prices: &[i64]) -> Option<(i128, Vec<u64>)> {
    let mut found = None;
    let permitted = permitted(u, prices.len());
    each_list(u, prices.len(), &mut Vec::new(), &mut |list| {
        if keeps_where(u, &permitted, list) {
            let earned = profit(u, prices, list);
            if found.as_ref().is_none_or(|(most, _)| earned > *most) {
                found = Some((earned, list.to_vec()));
            }
        }
    });
    found
}

/// Every list of so many outputs that goes on from this one.
fn each_list(u: &Unit, length: usize, list: &mut Vec<u64>, tried: &mut impl FnMut(&[u64])) {
    if list.len() == length {
        return tried(list);
    }
    for output in std::iter::once(0).chain((u.pmin..=u.pmax).map(|k| k * u.block)) {
        list.push(output);
        each_list(u, length, list, tried);
        list.pop();
    }
}

fn outcome(limit: Option<u64>, best_at: impl Fn(u64) -> Option<i128>) -> Outcome {
    let Some(whole) = limit else {
        return Outcome::None;
    };
    match 9 * whole / 10 {
        0 => Outcome::Empty,
        figure => match best_at(figure - 1) {
            None => Outcome::Never,
            Some(lower) => {
                let first = best_at(figure).expect("what keeps less keeps more");
                Outcome::Gap((first - lower) as i64)
            }
        },
    }
}

/// The three outcomes by enumeration.
pub fn outcomes(u: &Unit, prices: &[i64]) -> Outcomes {
    outcomes_by(u, |unit| best(&unit, prices).map(|(earned, _)| earned))
}

/// The three outcomes, by whatever finds a case's best profit.
pub fn outcomes_by(u: &Unit, earned: impl Fn(Unit) -> Option<i128>) -> Outcomes {
    let with_starts = |k| Unit {
        starts: Some(k),
        ..*u
    };
    let with_hours = |k| Unit {
        hours: Some(k),
        ..*u
    };
    let with_mwh = |k| Unit { mwh: Some(k), ..*u };
    Outcomes {
        starts: outcome(u.starts, |k| earned(with_starts(k))),
        hours: outcome(u.hours, |k| earned(with_hours(k))),
        mwh: outcome(u.mwh, |k| earned(with_mwh(k))),
    }
}

/// The number of a case that is refused, or its best plan with profit and outcomes.
pub fn reported(u: &Unit, prices: &[i64]) -> Result<(Report, Vec<u64>), Refused> {
    judge_case(u, prices)?;
    let (profit, plan) = best(u, prices).ok_or(9u64)?;
    let report = Report {
        count: plan.len(),
        profit: profit as i64,
        outcomes: outcomes(u, prices),
    };
    Ok((report, plan))
}

/// Whether the figures can be written in a text, where a value has at most ten digits.
pub fn writable(u: &Unit, prices: &[i64]) -> bool {
    let limits = [u.starts, u.hours, u.mwh].into_iter().flatten();
    let others = [
        u.block, u.pmin, u.pmax, u.mot, u.mdt, u.was, u.held, u.vec, u.mlc, u.suc,
    ];
    let window = u.window.map(|w| [w.year, w.month, w.day, w.word]);
    let all = limits.chain(others).chain(window.into_iter().flatten());
    all.chain(prices.iter().map(|price| price.unsigned_abs()))
        .all(|figure| figure <= 9_999_999_999)
}

/// The same of the text of a case, planned with at most so many cells.
pub fn answer_to_text(
    u: &Unit,
    prices: &[i64],
    most: usize,
) -> Result<(Report, Vec<u64>), Refused> {
    if !writable(u, prices) {
        return Err(1);
    }
    judge_case(u, prices)?;
    used(u, prices.len(), most)?;
    reported(u, prices)
}

/// The number or the profit of a schedule handed in.
pub fn assessed(u: &Unit, prices: &[i64], schedule: &[u64]) -> Result<i64, Refused> {
    judge_case(u, prices)?;
    if schedule.len() != prices.len() {
        return Err(7);
    }
    if !keeps(u, schedule) {
        return Err(10);
    }
    Ok(profit(u, prices, schedule) as i64)
}

fn word(outcome: Outcome) -> String {
    match outcome {
        Outcome::None => "none".to_string(),
        Outcome::Empty => "empty".to_string(),
        Outcome::Never => "never".to_string(),
        Outcome::Gap(gap) => gap.to_string(),
    }
}

/// The profit and the three outcomes as they are printed.
pub fn figures_printed(report: &Report) -> [String; 4] {
    let Outcomes { starts, hours, mwh } = report.outcomes;
    [
        report.profit.to_string(),
        word(starts),
        word(hours),
        word(mwh),
    ]
}

/// The table of a schedule.
pub fn table(schedule: &[u64]) -> String {
    let rows = schedule.iter().zip(1..);
    let lines = rows.map(|(mw, interval)| format!("{interval},{mw}\n"));
    format!("interval,mw\n{}", lines.collect::<String>())
}

/// What is printed for a case of a unit.
pub fn printed(u: &Unit, answer: &Result<(Report, Vec<u64>), Refused>) -> String {
    match answer {
        Err(number) => format!("refused,{number}\n"),
        Ok((report, plan)) => {
            let [profit, starts, hours, mwh] = figures_printed(report);
            let table = table(plan);
            let allowed = |w: Window| (0..24).filter(|hour| w.word & 1 << hour != 0).count();
            let window = u.window.map(|w| format!("window,{}\n", allowed(w)));
            format!(
                "{table}\nwhat,value\nprofit,{profit}\nstarts,{starts}\nhours,{hours}\nmwh,{mwh}\n{}",
                window.unwrap_or_default()
            )
        }
    }
}

/// The cells of two layers and of a layer to each interval and one more.
pub fn cells(u: &Unit, n: usize) -> Cells {
    let layer = layer(u, n as u64);
    Cells {
        needed: 2 * layer,
        table: (n + 1) * layer,
    }
}

/// The cells that are used of so many lent, or 8.
pub fn used(u: &Unit, n: usize, lent: usize) -> Result<usize, Refused> {
    let Cells { needed, table } = cells(u, n);
    match lent {
        _ if lent >= table => Ok(table),
        _ if lent >= needed => Ok(needed),
        _ => Err(8),
    }
}

fn layer(u: &Unit, n: u64) -> usize {
    let count = |limit: Option<u64>, most: u64| limit.map_or(0, |figure| figure.min(most));
    let a = count(u.starts, n);
    let b = count(u.hours.map(|h| 4 * h), n);
    let c = count(u.mwh.map(|m| 4 * m / u.block), n * u.pmax);
    ((u.mot + u.mdt) * (a + 1) * (b + 1) * (c + 1)) as usize
}

/// What is over the line and what is under it.
pub type Ratio = (i128, i128);

/// A fraction rounded to a whole number, a half to the even neighbour.
fn rounded((over, under): Ratio) -> u64 {
    let (below, rest) = (over.div_euclid(under), over.rem_euclid(under));
    let up = match (2 * rest).cmp(&under) {
        Ordering::Less => 0,
        Ordering::Equal => below % 2,
        Ordering::Greater => 1,
    };
    (below + up) as u64
}

/// vec, suc and mlc.
pub fn figures(k: &CostInputs, mws: &[u64], heats: &[u64]) -> Result<CostFigures, Refused> {
    judge_inputs(k, mws, heats)?;
    let [vec, suc, mlc] = cost_fractions(k, mws, heats).map(rounded);
    Ok(CostFigures { vec, suc, mlc })
}

fn judge_inputs(k: &CostInputs, mws: &[u64], heats: &[u64]) -> Result<(), Refused> {
    let prices = [k.gas, k.transport, k.allowance, k.om, k.gmc];
    let ranges = [k.block, k.pmin, k.pmax]
        .iter()
        .all(|x| (1..=500).contains(x))
        && prices.iter().all(|x| *x <= 10_000)
        && k.rate <= 1_000_000
        && (1..=50_000).contains(&k.min_heat)
        && k.fuel <= 100_000
        && k.aux <= 1000
        && k.minutes <= 1440
        && k.start_adder <= 10_000_000
        && k.load_adder <= 10_000_000
        && mws.len() <= 10
        && heats.len() <= 10
        && mws.iter().all(|x| (1..=500).contains(x))
        && heats.iter().all(|x| (1..=50_000).contains(x));
    if !ranges {
        return Err(3);
    }
    if k.pmin > k.pmax || k.pmax * k.block > 500 {
        return Err(4);
    }
    let total: u64 = mws.iter().sum();
    if total != (k.pmax - k.pmin) * k.block {
        return Err(6);
    }
    if mws.len() != heats.len() {
        return Err(7);
    }
    Ok(())
}

/// vec, suc and mlc before they are rounded.
pub fn cost_fractions(k: &CostInputs, mws: &[u64], heats: &[u64]) -> [Ratio; 3] {
    let int = |x: u64| i128::from(x);
    let (gas, transport, om, gmc) = (int(k.gas), int(k.transport), int(k.om), int(k.gmc));
    let (allowance, rate) = (int(k.allowance), int(k.rate));
    let scale = 10_000_000;
    let pmin_mw = int(k.pmin * k.block);
    // (1), over 1000 x 10^7 x total
    let weighted: i128 = mws
        .iter()
        .zip(heats)
        .map(|(mw, heat)| int(*mw) * int(*heat))
        .sum();
    let vec = match int(mws.iter().sum()) {
        0 => (0, 1),
        total => (
            weighted * ((gas + transport) * scale + allowance * rate) + om * 1000 * scale * total,
            1000 * scale * total,
        ),
    };
    // (2), over 120 x 10^7
    let (fuel, aux, minutes) = (int(k.fuel), int(k.aux), int(k.minutes));
    let whole = fuel * (gas + transport) + aux * 10 * gas + int(k.start_adder);
    let suc = (
        whole * 120 * scale + fuel * allowance * rate * 120 + pmin_mw * minutes * gmc * scale,
        120 * scale,
    );
    // (3), over 1000 x 10^7
    let heat = int(k.min_heat);
    let mlc = (
        heat * pmin_mw * (gas + transport) * scale
            + allowance * rate * heat * pmin_mw
            + (om * pmin_mw + int(k.load_adder) + gmc * pmin_mw) * 1000 * scale,
        1000 * scale,
    );
    [vec, suc, mlc]
}
