//! The bid curve once more in plain Rust, in exact fractions of 128 bits. It shares no code with the library or the wrapper but the types.

use ralwinga::{CurveInputs, Segment};
use std::ops::{Add, Div, Mul, Sub};

/// A fraction, what is under the line above 0.
#[derive(Clone, Copy)]
pub struct Fraction {
    pub over: i128,
    pub under: i128,
}

pub fn whole(number: u64) -> Fraction {
    let over = number.into();
    Fraction { over, under: 1 }
}

impl Add for Fraction {
    type Output = Fraction;
    fn add(self, other: Fraction) -> Fraction {
        let over = self.over * other.under + other.over * self.under;
        let under = self.under * other.under;
        Fraction { over, under }
    }
}

impl Sub for Fraction {
    type Output = Fraction;
    fn sub(self, other: Fraction) -> Fraction {
        let over = -other.over;
        self + Fraction { over, ..other }
    }
}

impl Mul for Fraction {
    type Output = Fraction;
    fn mul(self, other: Fraction) -> Fraction {
        let over = self.over * other.over;
        let under = self.under * other.under;
        Fraction { over, under }
    }
}

impl Div for Fraction {
    type Output = Fraction;
    fn div(self, other: Fraction) -> Fraction {
        assert!(other.over > 0, "divided by what is above 0 alone");
        let over = self.over * other.under;
        let under = self.under * other.over;
        Fraction { over, under }
    }
}

impl Fraction {
    /// The greatest whole number that is not above it.
    fn floor(self) -> i128 {
        let truncated = self.over / self.under;
        let cut_off = self.over % self.under;
        // towards zero is up below zero
        truncated - i128::from(cut_off < 0)
    }

    /// Half way between two whole numbers.
    pub fn is_a_half(self) -> bool {
        let twice = self + self;
        twice.over % twice.under == 0 && self.over % self.under != 0
    }

    pub fn is_negative(self) -> bool {
        self.over < 0
    }

    pub fn is_below(self, whole: i64) -> bool {
        self.over < i128::from(whole) * self.under
    }

    /// The nearest whole number, the even one of two that are as near.
    pub fn rounded(self) -> i64 {
        let below = self.floor();
        let distance = |whole: i128| (whole * self.under - self.over).abs();
        let nearest = [below, below + 1]
            .into_iter()
            .min_by_key(|whole| (distance(*whole), whole.rem_euclid(2)))
            .expect("two of them");
        nearest.try_into().expect("prices are small")
    }
}

/// The change in level x rate over the change in level, from one point to the next.
pub fn incremental(levels: &[u64], rates: &[u64]) -> Vec<Fraction> {
    let heats: Vec<Fraction> = levels
        .iter()
        .zip(rates)
        .map(|(level, rate)| whole(*level) * whole(*rate))
        .collect();
    (1..heats.len())
        .map(|i| (heats[i] - heats[i - 1]) / (whole(levels[i]) - whole(levels[i - 1])))
        .collect()
}

/// The price of each segment before it is rounded.
pub fn prices(k: &CurveInputs, levels: &[u64], rates: &[u64]) -> Vec<Fraction> {
    let price =
        |rate| rate * whole(k.gas) / whole(1000) + whole(k.om) + whole(k.gmc) + whole(k.adder);
    incremental(levels, rates).into_iter().map(price).collect()
}

/// 3, 11 or 7 of inputs, points and the lengths of the lists that are lent.
fn judge(k: &CurveInputs, levels: &[u64], rates: &[u64], lent: [usize; 3]) -> Result<(), u64> {
    let ranges = [k.gas, k.om, k.gmc].iter().all(|x| *x <= 10_000)
        && k.adder <= 1_000_000
        && (2..=11).contains(&levels.len())
        && (2..=11).contains(&rates.len())
        && levels.iter().all(|x| (1..=500).contains(x))
        && rates.iter().all(|x| (1..=50_000).contains(x));
    if !ranges {
        return Err(3);
    }
    if (1..levels.len()).any(|i| levels[i] <= levels[i - 1]) {
        return Err(11);
    }
    if levels.len() != rates.len() || lent.iter().any(|entries| *entries < levels.len() - 1) {
        return Err(7);
    }
    Ok(())
}

/// Each price, or where it is under the one before, that one as already raised.
fn raised(prices: impl Iterator<Item = i64>) -> Vec<i64> {
    let mut raised: Vec<i64> = Vec::new();
    for price in prices {
        raised.push(match raised.last() {
            Some(before) if price < *before => *before,
            _ => price,
        });
    }
    raised
}

/// Neighbours of equal price as one segment.
fn merged(segments: &[Segment]) -> Vec<Segment> {
    segments
        .chunk_by(|one, next| one.price == next.price)
        .map(|equal| Segment {
            to: equal[equal.len() - 1].to,
            ..equal[0]
        })
        .collect()
}

/// The number, or the final segments.
pub fn curve(
    k: &CurveInputs,
    levels: &[u64],
    rates: &[u64],
    lent: [usize; 3],
) -> Result<Vec<Segment>, u64> {
    judge(k, levels, rates, lent)?;
    let own = prices(k, levels, rates).into_iter().map(Fraction::rounded);
    let segments: Vec<Segment> = levels
        .windows(2)
        .zip(raised(own))
        .map(|(pair, price)| Segment {
            from: pair[0],
            to: pair[1],
            price,
        })
        .collect();
    Ok(merged(&segments))
}

/// What the command prints.
pub fn printed(answer: &Result<Vec<Segment>, u64>) -> String {
    match answer {
        Err(number) => format!("refused,{number}\n"),
        Ok(segments) => {
            let rows = segments
                .iter()
                .map(|s| format!("{},{},{}\n", s.from, s.to, s.price));
            format!("from,to,price\n{}", rows.collect::<String>())
        }
    }
}
