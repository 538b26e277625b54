//! Random cost inputs, in order and damaged, and their text.

use super::{shuffled_table, Random};
use ralwinga::CostInputs;

pub struct Inputs {
    pub inputs: CostInputs,
    pub mws: Vec<u64>,
    pub heats: Vec<u64>,
}

/// The unit of C10 to C12: block 10, pmin 7, pmax 15.
pub const UNIT: CostInputs = CostInputs {
    block: 10,
    pmin: 7,
    pmax: 15,
    gas: 550,
    transport: 0,
    allowance: 0,
    om: 280,
    gmc: 0,
    rate: 0,
    min_heat: 14_440,
    fuel: 0,
    aux: 0,
    minutes: 0,
    start_adder: 0,
    load_adder: 0,
};

/// Inputs of any numbers or of round ones, one in three damaged.
pub fn any_inputs(random: &mut Random) -> Inputs {
    let mut inputs = match random.below(2) {
        0 => random_inputs(random),
        _ => round_inputs(random),
    };
    if random.one_in(3) {
        damage(random, &mut inputs);
    }
    inputs
}

/// The text of inputs, their names in a random sequence. There is a segment for each MW that has a heat rate.
pub fn text_of_inputs(random: &mut Random, given: &Inputs) -> String {
    let k = &given.inputs;
    let columns = [
        ("block", k.block),
        ("pmin", k.pmin),
        ("pmax", k.pmax),
        ("gas", k.gas),
        ("transport", k.transport),
        ("allowance", k.allowance),
        ("om", k.om),
        ("gmc", k.gmc),
        ("rate", k.rate),
        ("minheat", k.min_heat),
        ("fuel", k.fuel),
        ("aux", k.aux),
        ("minutes", k.minutes),
        ("startadder", k.start_adder),
        ("loadadder", k.load_adder),
    ];
    let columns = columns.map(|(name, value)| (name, value.to_string()));
    let mut text = shuffled_table(random, columns.to_vec()) + "\nmw,heat\n";
    for (mw, heat) in given.mws.iter().zip(&given.heats) {
        text.push_str(&format!("{mw},{heat}\n"));
    }
    text
}

fn random_inputs(random: &mut Random) -> Inputs {
    let pmin = 1 + random.below(4);
    let inputs = CostInputs {
        block: 1 + random.below(60),
        pmin,
        pmax: pmin + random.below(5),
        gas: random.below(10_001),
        transport: random.below(10_001),
        allowance: random.below(10_001),
        om: random.below(10_001),
        gmc: random.below(10_001),
        rate: random.below(1_000_001),
        min_heat: 1 + random.below(50_000),
        fuel: random.below(100_001),
        aux: random.below(1001),
        minutes: random.below(1441),
        start_adder: random.below(10_000_001),
        load_adder: random.below(10_000_001),
    };
    let mut left = (inputs.pmax - inputs.pmin) * inputs.block;
    let mut mws = Vec::new();
    while left > 0 && mws.len() < 9 {
        let mw = 1 + random.below(left);
        mws.push(mw);
        left -= mw;
    }
    if left > 0 {
        mws.push(left);
    }
    let heats = mws.iter().map(|_| 1 + random.below(50_000)).collect();
    Inputs { inputs, mws, heats }
}

/// Round numbers, whose figures often stand at a half.
fn round_inputs(random: &mut Random) -> Inputs {
    let Inputs { inputs, mws, .. } = random_inputs(random);
    let heats = mws.iter().map(|_| 10 * (1 + random.below(2000))).collect();
    let rounded = CostInputs {
        gas: 50 * random.below(20),
        transport: 0,
        allowance: 100 * random.below(101),
        rate: random.from(&[0, 100_000, 500_000]),
        min_heat: 10 * (1 + random.below(2000)),
        minutes: 15 * random.below(9),
        ..inputs
    };
    Inputs {
        inputs: rounded,
        mws,
        heats,
    }
}

fn damage(random: &mut Random, damaged: &mut Inputs) {
    let Inputs {
        inputs: k,
        mws,
        heats,
    } = damaged;
    match random.below(13) {
        0 => k.block = random.from(&[0, 501, u64::MAX]),
        1 => k.gas = random.from(&[10_001, u64::MAX]),
        2 => k.rate = random.from(&[1_000_001, u64::MAX]),
        3 => k.min_heat = random.from(&[0, 50_001, u64::MAX]),
        4 => k.fuel = random.from(&[100_001, u64::MAX]),
        5 => k.load_adder = random.from(&[10_000_001, u64::MAX]),
        6 => k.pmin = k.pmax + 1,
        7 => mws.push(random.from(&[0, 1, 501, u64::MAX])),
        8 => heats.push(random.from(&[0, 1, 50_001, u64::MAX])),
        9 => mws.extend([1; 11]),
        10 => heats.extend([1; 11]),
        11 => {
            mws.extend([1; 11]);
            heats.extend([1; 11]);
        }
        _ => {
            mws.push(1);
            heats.push(1);
        }
    }
}
