//! The cost figures beside exact fractions of 128 bits.

mod support;

use ralwinga::{figures, CostFigures, CostInputs};
use support::inputs::{any_inputs, Inputs, UNIT};
use support::{each_came_up, paper, Random, Seen};

const CASES: usize = 50_000;

#[test]
fn worked_cases() {
    let of = |inputs: CostInputs| figures(inputs, &[80], &[9790]).expect("in order");
    assert_eq!(of(UNIT).vec, 5664);
    let c11 = CostInputs {
        gmc: 50,
        allowance: 1300,
        rate: 531_148,
        ..UNIT
    };
    assert_eq!((of(c11).vec, of(c11).mlc), (6340, 648_835));
    let of_one_mw = CostInputs {
        block: 1,
        pmin: 1,
        pmax: 81,
        ..c11
    };
    assert_eq!(of(of_one_mw).mlc, 9269);
    let c12 = CostInputs {
        fuel: 100,
        aux: 2,
        minutes: 30,
        gmc: 50,
        om: 0,
        ..UNIT
    };
    assert_eq!(of(c12).suc, 66_875);
}

/// 500 blocks of 1 MW have no segment beside them.
#[test]
fn tops_of_all_ranges() {
    let tops = CostInputs {
        block: 1,
        pmin: 500,
        pmax: 500,
        gas: 10_000,
        transport: 10_000,
        allowance: 10_000,
        om: 10_000,
        gmc: 10_000,
        rate: 1_000_000,
        min_heat: 50_000,
        fuel: 100_000,
        aux: 1000,
        minutes: 1440,
        start_adder: 10_000_000,
        load_adder: 10_000_000,
    };
    let dearest = CostFigures {
        vec: 0,
        suc: 2_270_000_000,
        mlc: 545_000_000,
    };
    assert_eq!(figures(tops, &[], &[]), Ok(dearest));
}

/// 1 MW without segments: a start is half the grid charge, an hour the charge and half the gas price.
#[test]
fn halves_go_to_the_even_neighbour() {
    for (gas, gmc, suc, mlc) in [
        (63, 21, 10, 52),
        (65, 21, 10, 54),
        (61, 23, 12, 54),
        (1, 0, 0, 0),
        (3, 0, 0, 2),
        (5, 0, 0, 2),
    ] {
        let inputs = CostInputs {
            block: 1,
            pmin: 1,
            pmax: 1,
            gas,
            om: 0,
            gmc,
            min_heat: 500,
            minutes: 60,
            ..UNIT
        };
        let expected = CostFigures { vec: 0, suc, mlc };
        assert_eq!(figures(inputs, &[], &[]), Ok(expected), "{gas} {gmc}");
    }
    // 5665.5
    let dearer = CostInputs { om: 281, ..UNIT };
    let answer = figures(dearer, &[80], &[9790]);
    assert_eq!(answer.map(|figures| figures.vec), Ok(5666));
}

/// Of vec, suc and mlc, the halves that go down and those that go up.
type Halves = [[usize; 2]; 3];

fn count_halves(halves: &mut Halves, given: &Inputs) {
    let fractions = paper::cost_fractions(&given.inputs, &given.mws, &given.heats);
    for (counts, (over, under)) in halves.iter_mut().zip(fractions) {
        if 2 * (over % under) == under {
            counts[(over / under % 2) as usize] += 1;
        }
    }
}

#[test]
fn random_cases() {
    let mut random = Random::new(4);
    let mut seen: Seen = Default::default();
    let mut halves = Halves::default();
    for _ in 0..CASES {
        let given = any_inputs(&mut random);
        let Inputs { inputs, mws, heats } = &given;
        let expected: Result<CostFigures, u64> = paper::figures(inputs, mws, heats);
        seen[expected.err().map_or(0, |n| n as usize)] += 1;
        let answer = figures(*inputs, mws, heats).map_err(|refusal| refusal.number());
        assert_eq!(answer, expected);
        if expected.is_ok() {
            count_halves(&mut halves, &given);
        }
    }
    each_came_up(&seen, &[0, 3, 4, 6, 7]);
    println!("{halves:?}");
    assert!(
        halves.iter().flatten().all(|times| *times > 10),
        "{halves:?}"
    );
}
