//! Random inputs and points of bid curves, in order and damaged, and their text.

use super::{shuffled_table, Random};
use ralwinga::CurveInputs;

#[derive(Clone, Debug)]
pub struct Points {
    pub inputs: CurveInputs,
    pub levels: Vec<u64>,
    pub rates: Vec<u64>,
}

/// The worked example: two segments of 8214 and 8252 cents.
pub const WORKED: &str = "gas,om,gmc,adder\n\
                          550,280,50,2500\n\
                          \n\
                          level,rate\n70,14440\n150,11960\n300,10909\n";

/// Points of any numbers or of round ones, one in three damaged, up to three times over so that causes meet.
pub fn any_points(random: &mut Random) -> Points {
    let mut points = match random.below(3) {
        0 => random_points(random),
        1 => round_points(random),
        _ => close_points(random),
    };
    if random.one_in(3) {
        for _ in 0..1 + random.below(3) {
            damage(random, &mut points);
        }
    }
    points
}

/// The text of points, names and columns in a random sequence. There is a point for each level that has a rate.
pub fn text_of_points(random: &mut Random, given: &Points) -> String {
    let k = &given.inputs;
    let columns = [
        ("gas", k.gas),
        ("om", k.om),
        ("gmc", k.gmc),
        ("adder", k.adder),
    ];
    let columns = columns.map(|(name, value)| (name, value.to_string()));
    let rate_first = random.one_in(2);
    let head = if rate_first {
        "rate,level"
    } else {
        "level,rate"
    };
    let mut text = format!("{}\n{head}\n", shuffled_table(random, columns.to_vec()));
    for (level, rate) in given.levels.iter().zip(&given.rates) {
        let (one, other) = if rate_first {
            (rate, level)
        } else {
            (level, rate)
        };
        text.push_str(&format!("{one},{other}\n"));
    }
    text
}

/// 2 to 11 levels that rise, each at most `most` over the one before.
fn rising(random: &mut Random, most: u64) -> Vec<u64> {
    let mut levels = vec![1 + random.below(100)];
    for i in 0..1 + random.below(10) as usize {
        levels.push(levels[i] + 1 + random.below(most));
    }
    levels
}

fn random_points(random: &mut Random) -> Points {
    let levels = rising(random, 40);
    let inputs = CurveInputs {
        gas: random.below(10_001),
        om: random.below(10_001),
        gmc: random.below(10_001),
        adder: random.below(1_000_001),
    };
    let rates = levels.iter().map(|_| 1 + random.below(50_000)).collect();
    Points {
        inputs,
        levels,
        rates,
    }
}

/// Round numbers, whose prices often stand at a half, below 0 too.
fn round_points(random: &mut Random) -> Points {
    let levels = rising(random, 3);
    let inputs = CurveInputs {
        gas: 100 * random.below(11),
        om: random.below(3),
        gmc: 0,
        adder: random.from(&[0, 0, 10, 100]),
    };
    let rates = levels.iter().map(|_| 1 + random.below(60)).collect();
    Points {
        inputs,
        levels,
        rates,
    }
}

/// Rates close to each other and cheap gas, so that neighbours have equal prices.
fn close_points(random: &mut Random) -> Points {
    let levels = rising(random, 40);
    let inputs = CurveInputs {
        gas: random.below(20),
        om: 280,
        gmc: 50,
        adder: random.below(3000),
    };
    let rates = levels.iter().map(|_| 9_900 + random.below(200)).collect();
    Points {
        inputs,
        levels,
        rates,
    }
}

fn damage(random: &mut Random, damaged: &mut Points) {
    let Points {
        inputs: k,
        levels,
        rates,
    } = damaged;
    match random.below(14) {
        0 => k.gas = random.from(&[10_001, u64::MAX]),
        1 => k.om = random.from(&[10_001, u64::MAX]),
        2 => k.gmc = random.from(&[10_001, u64::MAX]),
        3 => k.adder = random.from(&[1_000_001, u64::MAX]),
        4 => put(random, levels, &[0, 501, u64::MAX]),
        5 => put(random, rates, &[0, 50_001, u64::MAX]),
        // a level that may stand among the others already, or out of their sequence
        6 => put(random, levels, &[1, 30, 60, 90, 200, 500]),
        7 => levels.extend(levels.last().copied()),
        8 => levels.reverse(),
        9 => levels.truncate(random.below(3) as usize),
        10 => rates.truncate(random.below(3) as usize),
        11 => rates.extend([9_000; 3]),
        12 => levels.extend([501; 2]),
        _ => {
            levels.extend([500; 10]);
            rates.extend([9_000; 10]);
        }
    }
}

/// One of these figures for one entry of a list.
fn put(random: &mut Random, list: &mut [u64], figures: &[u64]) {
    if !list.is_empty() {
        let at = random.below(list.len() as u64) as usize;
        list[at] = random.from(figures);
    }
}
