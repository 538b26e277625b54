//! Months on the library and on the same algorithm in plain Rust, alternating in one run over the same scratch. Prints ns per cell, the ratio of
//! the two, and the floor: each cell written, read and cleared once. Some cases come once more with permitted hours, all of them and half. Two layers
//! beside the long table come last.

mod layers;
mod plain;

use ralwinga::{cells, plan_into, report_into, Unit, Window};
use std::hint::black_box;
use std::time::Instant;

const INTERVALS: usize = 2976;
/// Small cases get more rounds than these, for so many seconds.
const ROUNDS: usize = 5;
const SECONDS: f64 = 3.0;

/// A month of prices: a daily wave with noise, below vec at night and above it by day, some negative.
fn month() -> Vec<i64> {
    let mut seed: u64 = 20_071_231;
    (0..INTERVALS)
        .map(|t| {
            seed = seed
                .wrapping_mul(6364136223846793005)
                .wrapping_add(1442695040888963407);
            let noise = (seed >> 33) as i64 % 3001 - 1500;
            let hour = (t / 4) % 24;
            let wave = if (7..22).contains(&hour) { 2200 } else { -1800 };
            3000 + wave + noise
        })
        .collect()
}

/// 50 MW: block 5, pmin 4, pmax 10; an hour on and an hour off at least.
fn unit() -> Unit {
    Unit {
        block: 5,
        pmin: 4,
        pmax: 10,
        mot: 4,
        mdt: 4,
        was: 0,
        held: 4,
        vec: 3000,
        mlc: 20_000,
        suc: 50_000,
        starts: None,
        hours: None,
        mwh: None,
        window: None,
    }
}

const EVERY_HOUR: u64 = (1 << 24) - 1;
/// From 7 to 19.
const TWELVE_HOURS: u64 = (1 << 19) - (1 << 7);

/// The unit with permitted hours, over a month in which clocks are changed.
fn permitted(unit: Unit, word: u64) -> Unit {
    let window = Some(Window {
        year: 2024,
        month: 3,
        day: 1,
        word,
    });
    Unit { window, ..unit }
}

/// The unit of a month with what limits it.
struct Limited {
    hours: Unit,
    both: Unit,
    mwh: Unit,
    /// 4,001 rungs of MWh left, as the 50 MW unit has at 5,000 MWh, in blocks of 1 MW: 101 outputs.
    narrow: Unit,
}

fn limited_units() -> Limited {
    let u = unit();
    let hours = Some(200);
    Limited {
        hours: Unit { hours, ..u },
        both: Unit {
            starts: Some(30),
            hours,
            ..u
        },
        mwh: Unit {
            mwh: Some(5000),
            ..u
        },
        narrow: Unit {
            block: 1,
            pmax: 104,
            mwh: Some(1000),
            ..u
        },
    }
}

fn cases() -> Vec<(&'static str, Unit)> {
    let u = unit();
    let Limited {
        hours,
        both,
        mwh,
        narrow,
    } = limited_units();
    // 500 outputs on: reading the plan off is the larger part
    let wide = Unit {
        block: 1,
        pmin: 1,
        pmax: 500,
        ..u
    };
    vec![
        ("nothing limited, 7 outputs", u),
        ("nothing limited, 500 outputs", wide),
        (
            "starts 30",
            Unit {
                starts: Some(30),
                ..u
            },
        ),
        ("hours 200", hours),
        ("hours 200, every hour", permitted(hours, EVERY_HOUR)),
        ("hours 200, 12 hours", permitted(hours, TWELVE_HOURS)),
        ("starts 30, hours 200", both),
        ("mwh 5000, 7 outputs", mwh),
        ("mwh 5000, every hour", permitted(mwh, EVERY_HOUR)),
        ("mwh 5000, 12 hours", permitted(mwh, TWELVE_HOURS)),
        ("mwh 1000, 31 outputs", Unit { pmax: 34, ..narrow }),
        ("mwh 1000, 101 outputs", narrow),
    ]
}

fn timed<T>(work: impl FnOnce() -> T) -> (f64, T) {
    let began = Instant::now();
    let answer = work();
    (began.elapsed().as_secs_f64(), answer)
}

/// Each cell written, read and cleared once.
fn floor(scratch: &mut [i64]) -> f64 {
    timed(|| {
        scratch.fill(1);
        let sum: i64 = black_box(&*scratch).iter().sum();
        black_box(sum);
        scratch.fill(0);
        black_box(&*scratch);
    })
    .0
}

struct Times {
    library: f64,
    plain: f64,
    plan: f64,
    floor: f64,
}

/// The least of several rounds, the contestants taking turns.
fn measure(unit: Unit, prices: &[i64], scratch: &mut [i64]) -> Times {
    let mut least = Times {
        library: f64::MAX,
        plain: f64::MAX,
        plan: f64::MAX,
        floor: f64::MAX,
    };
    let mut ours = vec![0; prices.len()];
    let mut theirs = vec![0; prices.len()];
    let began = Instant::now();
    let mut rounds = 0;
    while rounds < ROUNDS || began.elapsed().as_secs_f64() < SECONDS {
        rounds += 1;
        let (library, answer) = timed(|| report_into(unit, prices, scratch, &mut ours));
        let (plain, expected) = timed(|| plain::report_into(unit, prices, scratch, &mut theirs));
        let (plan, planned) = timed(|| plan_into(unit, prices, scratch, &mut ours));
        assert_eq!(answer, Ok(expected));
        assert_eq!(planned, Ok((expected.count, expected.profit)));
        assert_eq!(ours, theirs);
        least.library = least.library.min(library);
        least.plain = least.plain.min(plain);
        least.plan = least.plan.min(plan);
        least.floor = least.floor.min(floor(scratch));
    }
    least
}

fn is_wanted(wanted: &Option<String>, name: &str) -> bool {
    wanted.as_ref().is_none_or(|word| name.contains(word))
}

fn main() {
    // cargo hands on `--bench`; any other word picks the cases that have it in their name
    let wanted = std::env::args().skip(1).find(|word| !word.starts_with('-'));
    let prices = month();
    println!("{INTERVALS} intervals, least of {ROUNDS} rounds or more; ns per cell");
    println!(
        "{:<30}{:>13}{:>9}{:>9}{:>9}{:>9}{:>9}{:>12}",
        "case", "cells", "library", "plain", "ratio", "plan", "floor", "report/plan"
    );
    for (name, unit) in cases() {
        if !is_wanted(&wanted, name) {
            continue;
        }
        let cells = cells(unit, prices.len()).expect("a case in order").table;
        // touched, so that no page is new to a contestant
        let mut scratch = vec![1i64; cells];
        let times = measure(unit, &prices, &mut scratch);
        let each = |seconds: f64| seconds * 1e9 / cells as f64;
        println!(
            "{:<30}{:>13}{:>9.2}{:>9.2}{:>9.2}{:>9.2}{:>9.2}{:>12.2}",
            name,
            cells,
            each(times.library),
            each(times.plain),
            times.library / times.plain,
            each(times.plan),
            each(times.floor),
            times.library / times.plan,
        );
    }
    layers::run(&wanted, &prices);
}
