//! Two layers beside the long table, alternating over the same scratch: plans and values of months. Prints milliseconds and the ratio of the two.

use crate::{is_wanted, limited_units, timed, unit, Limited, ROUNDS, SECONDS};
use ralwinga::{cells, plan_into, value, Cells, Unit};
use std::fmt::Debug;
use std::time::Instant;

fn limited() -> Vec<(&'static str, Unit)> {
    let Limited {
        hours,
        both,
        mwh,
        narrow,
    } = limited_units();
    vec![
        ("hours 200", hours),
        ("mwh 5000, 7 outputs", mwh),
        ("mwh 1000, 101 outputs", narrow),
        ("starts 30, hours 200", both),
    ]
}

/// Months of so few cells that the steps of the halving count for more than they do.
fn small() -> Vec<(&'static str, Unit)> {
    let u = unit();
    let starts = Some(30);
    vec![("starts 30", Unit { starts, ..u }), ("nothing limited", u)]
}

/// The least seconds of a call in two layers and in the long table, which answer alike.
fn measured<T: PartialEq + Debug>(sizes: Cells, call: impl Fn(&mut [i64]) -> T) -> (f64, f64) {
    // touched, so that no page is new to a contestant
    let mut scratch = vec![1i64; sizes.table];
    let (mut layers, mut table) = (f64::MAX, f64::MAX);
    let began = Instant::now();
    let mut rounds = 0;
    while rounds < ROUNDS || began.elapsed().as_secs_f64() < SECONDS {
        rounds += 1;
        let (in_layers, answer) = timed(|| call(&mut scratch[..sizes.needed]));
        let (in_table, expected) = timed(|| call(&mut scratch));
        assert_eq!(answer, expected);
        layers = layers.min(in_layers);
        table = table.min(in_table);
    }
    (layers, table)
}

fn row(name: &str, sizes: Cells, (layers, table): (f64, f64)) {
    println!(
        "{:<38}{:>12}{:>13}{:>12.3}{:>12.3}{:>9.2}",
        name,
        sizes.needed,
        sizes.table,
        1e3 * layers,
        1e3 * table,
        layers / table
    );
}

fn plans(wanted: &Option<String>, prices: &[i64], units: Vec<(&'static str, Unit)>) {
    for (name, unit) in units {
        let name = format!("plan a month, {name}");
        if is_wanted(wanted, &name) {
            let sizes = cells(unit, prices.len()).expect("a case in order");
            let plan = |scratch: &mut [i64]| {
                let mut schedule = vec![0; prices.len()];
                let answer = plan_into(unit, prices, scratch, &mut schedule);
                (answer.expect("a plan"), schedule)
            };
            row(&name, sizes, measured(sizes, plan));
        }
    }
}

fn values(wanted: &Option<String>, prices: &[i64], units: Vec<(&'static str, Unit)>) {
    for (name, unit) in units {
        let name = format!("value a month, {name}");
        if is_wanted(wanted, &name) {
            let sizes = cells(unit, prices.len()).expect("a case in order");
            let value = |scratch: &mut [i64]| value(unit, prices, scratch).expect("a plan");
            row(&name, sizes, measured(sizes, value));
        }
    }
}

pub fn run(wanted: &Option<String>, prices: &[i64]) {
    println!("\ntwo layers beside the long table, least of {ROUNDS} rounds or more; ms");
    println!(
        "{:<38}{:>12}{:>13}{:>12}{:>12}{:>9}",
        "case", "two layers", "long table", "layers", "table", "ratio"
    );
    plans(wanted, prices, limited());
    plans(wanted, prices, small());
    values(wanted, prices, limited());
}
