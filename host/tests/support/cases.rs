//! Cases: worked, random, damaged; and schedules for them.

use super::{calendar, Random};
use ralwinga::{Case, Unit, Window};

/// The first worked case of the specification.
pub const C1: &str = "block,pmin,pmax,mot,mdt,was,held,vec,mlc,suc,starts,hours,mwh\n\
                      10,1,2,2,2,0,2,3000,30000,5000,2,2,none\n\
                      \n\
                      price\n2000\n9000\n8000\n1000\n7000\n10000\n";

/// The word of every hour.
pub const FULL: u64 = (1 << 24) - 1;

/// C1's unit and prices as numbers.
pub fn c1() -> Case {
    let unit = Unit {
        block: 10,
        pmin: 1,
        pmax: 2,
        mot: 2,
        mdt: 2,
        was: 0,
        held: 2,
        vec: 3000,
        mlc: 30_000,
        suc: 5000,
        starts: Some(2),
        hours: Some(2),
        mwh: None,
        window: None,
    };
    let prices = vec![2000, 9000, 8000, 1000, 7000, 10_000];
    Case { unit, prices }
}

/// A text of C1's unit from a date on, with a word.
pub fn dated(text: &str, (year, month, day): calendar::Date, word: u64) -> String {
    let mut lines = text.split_inclusive('\n');
    let [names, values] = [(); 2].map(|()| lines.next().expect("a line").trim_end());
    let rest: String = lines.collect();
    format!("{names},year,month,day,window\n{values},{year},{month},{day},{word}\n{rest}")
}

/// A date: any, about the changes of time, at the end of February or of a year.
pub fn any_date(random: &mut Random) -> calendar::Date {
    let year = 2007 + random.below(93);
    let near = |date, random: &mut Random| calendar::days_after(date, random.between(-2, 1));
    match random.below(6) {
        0 => near(calendar::changes(year)[0], random),
        1 => near(calendar::changes(year)[1], random),
        2 => (year, 2, 28),
        3 => (random.from(&[2008, 2024, 2096]), 2, 29),
        4 => (year, 12, 31),
        _ => (year, 1 + random.below(12), 1 + random.below(28)),
    }
}

/// Hours of the clock: all, none, those that a short case comes to, or any.
fn any_word(random: &mut Random) -> u64 {
    match random.below(6) {
        0 => FULL,
        1 => random.from(&[0, 1, 2, 3, 4, 8]),
        2 => FULL - (1 << random.below(4)),
        3 => 1 << random.below(24) | 1 << random.below(6) | 1,
        _ => random.below(1 << 24),
    }
}

/// None in half of the cases.
pub fn any_window(random: &mut Random) -> Option<Window> {
    if random.one_in(2) {
        return None;
    }
    let (year, month, day) = any_date(random);
    let word = any_word(random);
    Some(Window {
        year,
        month,
        day,
        word,
    })
}

/// C1's unit over a month, which is longer than the proved reader takes: cheap nights, dear days.
pub fn month() -> String {
    let mut text = C1.lines().take(4).collect::<Vec<_>>().join("\n") + "\n";
    for t in 0..2976 {
        text.push_str(if t % 96 < 40 { "1000\n" } else { "10000\n" });
    }
    text
}

/// A small case in order: at most 5 intervals and 3 outputs besides 0.
pub fn small_case(random: &mut Random) -> (Unit, Vec<i64>) {
    let n = 1 + random.below(5);
    let pmin = 1 + random.below(3);
    let block = random.from(&[1, 3, 10, 50]);
    let unit = Unit {
        block,
        pmin,
        pmax: pmin + random.below(3),
        mot: 1 + random.below(4),
        mdt: 1 + random.below(4),
        was: random.below(2),
        held: 1 + random.below(4),
        vec: random.from(&[0, 1000, 3000]),
        mlc: random.from(&[0, 500, 30_000]),
        suc: random.from(&[0, 100, 5000]),
        starts: random.limit(3),
        hours: random.limit(2),
        mwh: random.limit(n * block),
        window: any_window(random),
    };
    let prices = match random.below(3) {
        // few levels, so that schedules tie
        0 => (0..n)
            .map(|_| random.from(&[0, 1000, 3000, 5000]))
            .collect(),
        1 => (0..n).map(|_| random.between(-3000, 9000)).collect(),
        _ => (0..n).map(|_| random.between(2000, 4000)).collect(),
    };
    (unit, prices)
}

/// A longer case in order, of up to 24 intervals and 20 outputs, with at most two limitations.
pub fn long_case(random: &mut Random) -> (Unit, Vec<i64>) {
    let n = 6 + random.below(19);
    let pmin = 1 + random.below(6);
    let block = random.from(&[1, 2, 5]);
    let mut unit = Unit {
        block,
        pmin,
        pmax: pmin + random.below(20),
        mot: 1 + random.below(6),
        mdt: 1 + random.below(6),
        was: random.below(2),
        held: 1 + random.below(6),
        vec: random.from(&[1000, 3000]),
        mlc: random.from(&[500, 30_000]),
        suc: random.from(&[0, 5000, 50_000]),
        starts: Some(random.below(5)),
        hours: Some(random.below(n / 4 + 1)),
        mwh: Some(random.below(n * block * 4)),
        window: any_window(random),
    };
    match random.below(3) {
        0 => unit.starts = None,
        1 => unit.hours = None,
        _ => unit.mwh = None,
    }
    let prices = (0..n).map(|_| random.between(-2000, 9000)).collect();
    (unit, prices)
}

/// One field or one price out of its range, or of a number of prices that is.
pub fn damage(random: &mut Random, unit: &mut Unit, prices: &mut Vec<i64>) {
    match random.below(26) {
        0 => unit.block = random.from(&[0, 501, u64::MAX]),
        1 => unit.pmin = random.from(&[0, 501, u64::MAX]),
        2 => unit.pmax = random.from(&[0, 501, u64::MAX]),
        3 => unit.mot = random.from(&[0, 97, u64::MAX]),
        4 => unit.mdt = random.from(&[0, 97, u64::MAX]),
        5 => unit.was = random.from(&[2, u64::MAX]),
        6 => unit.held = random.from(&[0, 10_000, u64::MAX]),
        7 => unit.vec = random.from(&[2_000_001, u64::MAX]),
        8 => unit.mlc = random.from(&[1_000_000_001, u64::MAX]),
        9 => unit.suc = random.from(&[4_000_000_001, u64::MAX]),
        10 => unit.starts = Some(random.from(&[2977, u64::MAX - 1, u64::MAX])),
        11 => unit.hours = Some(random.from(&[745, u64::MAX - 1, u64::MAX])),
        12 => unit.mwh = Some(random.from(&[372_001, u64::MAX - 1, u64::MAX])),
        13 | 14 if !prices.is_empty() => {
            let at = random.below(prices.len() as u64) as usize;
            prices[at] = random.from(&[200_001, -200_001, i64::MAX, i64::MIN]);
        }
        15 => std::mem::swap(&mut unit.pmin, &mut unit.pmax),
        16 => unit.pmax = 500 / unit.block + 1,
        17 => prices.clear(),
        18 => prices.resize(2977, 0),
        19..=23 => damage_window(random, unit),
        // two causes
        24 => {
            damage_window(random, unit);
            damage(random, unit, prices);
        }
        _ => {
            unit.pmin = 500;
            prices.clear();
        }
    }
}

/// A figure of the window out of its range, or `none` by itself, or a date that does not exist.
fn damage_window(random: &mut Random, unit: &mut Unit) {
    let (year, month, day) = any_date(random);
    let mut w = unit.window.unwrap_or(Window {
        year,
        month,
        day,
        word: FULL,
    });
    match random.below(9) {
        0 => w.year = random.from(&[0, 2006, 2100, u64::MAX - 1, u64::MAX]),
        1 => w.month = random.from(&[0, 13, u64::MAX - 1, u64::MAX]),
        2 => w.day = random.from(&[0, 32, u64::MAX - 1, u64::MAX]),
        3 => w.word = random.from(&[1 << 24, FULL + 2, u64::MAX - 1, u64::MAX]),
        4 => (w.month, w.day) = (2, 30),
        5 => (w.year, w.month, w.day) = (random.from(&[2007, 2023, 2098]), 2, 29),
        _ => (w.month, w.day) = (random.from(&[2, 4, 6, 9, 11]), 31),
    }
    unit.window = Some(w);
}

/// A small case, one in four of them damaged.
pub fn any_case(random: &mut Random) -> Case {
    let (mut unit, mut prices) = small_case(random);
    if random.one_in(4) {
        damage(random, &mut unit, &mut prices);
    }
    Case { unit, prices }
}

/// A schedule near what the unit can do, or anything.
pub fn any_schedule(random: &mut Random, u: &Unit, n: usize) -> Vec<u64> {
    let n = match random.below(12) {
        0 => n + 1,
        1 => n.saturating_sub(1),
        _ => n,
    };
    let anything = random.one_in(6);
    let off = random.below(3);
    (0..n)
        .map(|_| match (anything, random.below(3) < off) {
            (true, _) => random.from(&[0, 1, 7, 10, 20, 500, u64::MAX]),
            (false, true) => 0,
            (false, false) => u.block.wrapping_mul(u.pmin.wrapping_add(random.below(3))),
        })
        .collect()
}
