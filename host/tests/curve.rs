//! Bid curves beside exact fractions, by the call with canaries behind each list, by their text and by `ralwinga curve`.

mod support;

use ralwinga::reader::read_curve;
use ralwinga::{amounts::dollars, svg};
use ralwinga::{curve, curve_into, read_into, CurveInputs, Refusal, Segment};
use support::fractions::{self, printed, Fraction};
use support::points::{any_points, text_of_points, Points, WORKED};
use support::{answer_on, damage_text, each_came_up, ralwinga, Folder, Lent, Random, Seen};

const CASES: usize = 50_000;
const TEXTS: usize = 50_000;
const COMMANDS: usize = 1_000;
const DRAWINGS: usize = 2_000;

fn number<T>(answer: Result<T, Refusal>) -> Result<T, u64> {
    answer.map_err(|refusal| refusal.number())
}

fn gas_alone(gas: u64) -> CurveInputs {
    CurveInputs {
        gas,
        om: 0,
        gmc: 0,
        adder: 0,
    }
}

fn segments(rows: &[(u64, u64, i64)]) -> Vec<Segment> {
    rows.iter()
        .map(|(from, to, price)| Segment {
            from: *from,
            to: *to,
            price: *price,
        })
        .collect()
}

#[test]
fn worked_curves() {
    let inputs = CurveInputs {
        gas: 550,
        om: 280,
        gmc: 50,
        adder: 2500,
    };
    let answer = curve(inputs, &[70, 150, 300], &[14_440, 11_960, 10_909]);
    assert_eq!(answer, Ok(segments(&[(70, 150, 8214), (150, 300, 8252)])));
    // 10 / 3 x 10, a third of a cent over 33
    let answer = curve(gas_alone(10_000), &[1, 4], &[10, 5]);
    assert_eq!(answer, Ok(segments(&[(1, 4, 33)])));
    // 10,000, then 4,000 and 6,000: the last is over its neighbour's own price, and under that to which it was raised
    let answer = curve(
        gas_alone(1000),
        &[1, 2, 3, 4],
        &[10_000, 10_000, 8000, 7500],
    );
    assert_eq!(answer, Ok(segments(&[(1, 4, 10_000)])));
}

#[test]
fn fractions_are_rounded_to_the_nearest() {
    let rounded = |(over, under)| Fraction { over, under }.rounded();
    assert_eq!([(1, 2), (3, 2), (5, 2), (7, 2)].map(rounded), [0, 2, 2, 4]);
    assert_eq!(
        [(-1, 2), (-3, 2), (-5, 2), (-7, 2)].map(rounded),
        [0, -2, -2, -4]
    );
    assert_eq!([(1, 3), (2, 3), (4, 3), (6, 3)].map(rounded), [0, 1, 1, 2]);
    assert_eq!(
        [(-1, 3), (-2, 3), (-4, 3), (-6, 3)].map(rounded),
        [0, -1, -1, -2]
    );
}

/// 500 times the difference, over 1000: halves, below 0 too.
#[test]
fn halves_go_to_the_even_neighbour() {
    for (rates, price) in [
        ([1, 1], 0),
        ([1, 2], 2),
        ([1, 3], 2),
        ([1, 4], 4),
        ([3, 1], 0),
        ([5, 1], -2),
        ([7, 1], -2),
        ([9, 1], -4),
        ([2, 1], 0),
        ([4, 1], -1),
    ] {
        let answer = curve(gas_alone(500), &[1, 2], &rates);
        assert_eq!(answer, Ok(segments(&[(1, 2, price)])), "{rates:?}");
    }
}

/// The steepest rise and fall of one MW, at the dearest gas.
#[test]
fn the_greatest_prices() {
    let dearest = CurveInputs {
        gas: 10_000,
        om: 10_000,
        gmc: 10_000,
        adder: 1_000_000,
    };
    let answer = curve(dearest, &[499, 500], &[1, 50_000]);
    assert_eq!(answer, Ok(segments(&[(499, 500, 251_015_010)])));
    let answer = curve(gas_alone(10_000), &[499, 500], &[50_000, 1]);
    assert_eq!(answer, Ok(segments(&[(499, 500, -249_495_000)])));
}

type Change = fn(&mut Points, u64);

/// Each edge of each range, and what is past it, in points that are in order otherwise.
#[test]
fn edges_of_the_ranges() {
    let in_order = Points {
        inputs: gas_alone(550),
        levels: vec![100, 200],
        rates: vec![9000, 9500],
    };
    let tried = |change: Change, figure: u64| {
        let mut points = in_order.clone();
        change(&mut points, figure);
        let answer = number(curve(points.inputs, &points.levels, &points.rates));
        answer.err().unwrap_or(0)
    };
    let fields: [(Change, u64, u64); 6] = [
        (|points, figure| points.inputs.gas = figure, 0, 10_000),
        (|points, figure| points.inputs.om = figure, 0, 10_000),
        (|points, figure| points.inputs.gmc = figure, 0, 10_000),
        (|points, figure| points.inputs.adder = figure, 0, 1_000_000),
        (|points, figure| points.rates[0] = figure, 1, 50_000),
        (|points, figure| points.rates[1] = figure, 1, 50_000),
    ];
    for (change, low, high) in fields {
        assert_eq!([low, high].map(|figure| tried(change, figure)), [0, 0]);
        // 0 less 1 is past any range, too
        let past = [low.wrapping_sub(1), high + 1, u64::MAX];
        assert_eq!(past.map(|figure| tried(change, figure)), [3, 3, 3]);
    }
    let first = |figure| tried(|points, figure| points.levels[0] = figure, figure);
    assert_eq!([0, 1, 199, 200, 500, 501].map(first), [3, 0, 0, 11, 11, 3]);
    let last = |figure| tried(|points, figure| points.levels[1] = figure, figure);
    assert_eq!([0, 1, 100, 101, 500, 501].map(last), [3, 11, 11, 0, 0, 3]);
}

/// So many levels and rates, and the number or 0.
#[rustfmt::skip]
const COUNTS: [(usize, usize, u64); 13] = [
    (0, 0, 3), (1, 1, 3), (2, 2, 0), (11, 11, 0), (12, 12, 3),
    (1, 2, 3), (2, 1, 3), (11, 12, 3), (12, 11, 3),
    (2, 3, 7), (3, 2, 7), (2, 11, 7), (11, 10, 7),
];

#[test]
fn edges_of_the_counts() {
    let levels: Vec<u64> = (1..=12).collect();
    for (of_levels, of_rates, refused) in COUNTS {
        let rates = vec![9000; of_rates];
        let answer = curve(gas_alone(550), &levels[..of_levels], &rates);
        assert_eq!(
            number(answer).err().unwrap_or(0),
            refused,
            "{of_levels}, {of_rates}"
        );
    }
}

/// Three rates that stay equal, and lists of these lengths.
fn with_lists(levels: &[u64], [froms, tos, prices]: [usize; 3]) -> Result<usize, u64> {
    let (mut froms, mut tos, mut prices) = (vec![0; froms], vec![0; tos], vec![0; prices]);
    let (froms, tos, prices) = (&mut froms, &mut tos, &mut prices);
    number(curve_into(
        gas_alone(550),
        levels,
        &[9000; 3],
        froms,
        tos,
        prices,
    ))
}

#[test]
fn short_lists_and_the_order_of_causes() {
    // equal rates make one segment, and two entries of each list are asked for
    assert_eq!(with_lists(&[1, 2, 3], [2, 2, 2]), Ok(1));
    for short in [[1, 2, 2], [2, 1, 2], [2, 2, 1], [0, 0, 0]] {
        assert_eq!(with_lists(&[1, 2, 3], short), Err(7));
        assert_eq!(with_lists(&[1, 3, 3], short), Err(11));
        assert_eq!(with_lists(&[3, 2, 501], short), Err(3));
    }
    // levels that do not rise are told also where the lists are unequal
    assert_eq!(with_lists(&[2, 2], [9; 3]), Err(11));
    assert_eq!(with_lists(&[1, 2], [9; 3]), Err(7));
}

/// Entries of a list to lend: as many as are asked for, fewer or more, with numbers in them.
fn entries(random: &mut Random, points: &Points) -> Vec<u64> {
    let most = points.levels.len().saturating_sub(1);
    let length = match random.below(20) {
        0 => most.saturating_sub(1),
        1 => random.below(most as u64 + 1) as usize,
        2..=9 => most,
        _ => most + random.below(5) as usize,
    };
    (0..length).map(|_| random.below(1000)).collect()
}

/// What a list holds after its front is filled.
fn filled<T: Copy>(entries: &[T], front: impl Iterator<Item = T>) -> Vec<T> {
    let mut after = entries.to_vec();
    for (entry, part) in after.iter_mut().zip(front) {
        *entry = part;
    }
    after
}

/// The number, or the segments, which the three lists hold at their front; all else is as it was.
fn try_points(random: &mut Random, points: &Points) -> Result<Vec<Segment>, u64> {
    let Points {
        inputs,
        levels,
        rates,
    } = points;
    let (froms, tos) = (entries(random, points), entries(random, points));
    let prices = entries(random, points)
        .iter()
        .map(|x| -(*x as i64))
        .collect::<Vec<_>>();
    let lent = [froms.len(), tos.len(), prices.len()];
    let expected = fractions::curve(inputs, levels, rates, lent);
    let front = || expected.iter().flatten();

    let mut lent_froms = Lent::new(froms.clone(), 77);
    let mut lent_tos = Lent::new(tos.clone(), 88);
    let mut lent_prices = Lent::new(prices.clone(), 99);
    let answer = curve_into(
        *inputs,
        levels,
        rates,
        lent_froms.slice(),
        lent_tos.slice(),
        lent_prices.slice(),
    );
    assert_eq!(
        number(answer),
        expected.as_ref().map(Vec::len).map_err(|n| *n)
    );
    lent_froms.holds(&filled(&froms, front().map(|segment| segment.from)));
    lent_tos.holds(&filled(&tos, front().map(|segment| segment.to)));
    lent_prices.holds(&filled(&prices, front().map(|segment| segment.price)));
    expected
}

/// What is promised of a curve, whichever way it was made.
fn keeps_its_promises(points: &Points, segments: &[Segment]) {
    let ends = [points.levels.first(), points.levels.last()];
    let reached = [
        segments.first().map(|s| &s.from),
        segments.last().map(|s| &s.to),
    ];
    assert_eq!(reached, ends);
    assert!(segments.iter().all(|segment| segment.from < segment.to));
    for pair in segments.windows(2) {
        assert!(pair[0].to == pair[1].from && pair[0].price < pair[1].price);
    }
}

/// How often something came about that a curve can be wrong in. Of halves, those that go down and those that go up.
#[derive(Debug, Default)]
struct Kinds {
    below_zero: usize,
    halves: [usize; 2],
    halves_below_zero: [usize; 2],
    merged: usize,
    /// Under the price to which the one before was raised, and over that one's own.
    raised_twice: usize,
}

impl Kinds {
    fn count(&mut self, points: &Points, segments: &[Segment]) {
        let prices = fractions::prices(&points.inputs, &points.levels, &points.rates);
        let own: Vec<i64> = prices.iter().map(|price| price.rounded()).collect();
        let is_raised =
            |i: &usize| own[*i - 1] < own[*i] && own[..*i].iter().max() > Some(&own[*i]);
        self.below_zero += usize::from(segments[0].price < 0);
        for (price, own) in prices.iter().zip(&own).filter(|(p, _)| p.is_a_half()) {
            let halves = if price.is_negative() {
                &mut self.halves_below_zero
            } else {
                &mut self.halves
            };
            halves[usize::from(price.is_below(*own))] += 1;
        }
        self.merged += usize::from(segments.len() < own.len());
        self.raised_twice += usize::from((1..own.len()).any(|i| is_raised(&i)));
    }
}

#[test]
fn random_curves() {
    let mut random = Random::new(51);
    let mut seen: Seen = Default::default();
    let mut kinds = Kinds::default();
    for _ in 0..CASES {
        let points = any_points(&mut random);
        let answer = try_points(&mut random, &points);
        seen[answer.as_ref().err().map_or(0, |n| *n as usize)] += 1;
        if let Ok(segments) = answer {
            keeps_its_promises(&points, &segments);
            kinds.count(&points, &segments);
        }
    }
    each_came_up(&seen, &[0, 3, 7, 11]);
    println!("{kinds:?}");
    let counts = [kinds.below_zero, kinds.merged, kinds.raised_twice];
    let halves = kinds.halves.iter().chain(&kinds.halves_below_zero);
    assert!(
        counts.iter().chain(halves).all(|times| *times > 500),
        "{kinds:?}"
    );
}

/// The answer by exact fractions to the text of these points, of which each has a level and a rate.
fn expected(given: &Points) -> Result<Vec<Segment>, u64> {
    let count = given.levels.len().min(given.rates.len());
    let (levels, rates) = (&given.levels[..count], &given.rates[..count]);
    let k = &given.inputs;
    let fields = [k.gas, k.om, k.gmc, k.adder];
    let mut written = fields.iter().chain(levels).chain(rates);
    if written.any(|figure| *figure > 9_999_999_999) {
        return Err(1);
    }
    let answer = fractions::curve(k, levels, rates, [count; 3]);
    assert_eq!(number(curve(*k, levels, rates)), answer);
    answer
}

#[test]
fn texts_in_order_and_damaged() {
    let mut random = Random::new(52);
    let mut seen: Seen = Default::default();
    for case in 0..TEXTS {
        let given = any_points(&mut random);
        let expected = expected(&given);
        seen[expected.as_ref().err().map_or(0, |n| *n as usize)] += 1;
        let text = text_of_points(&mut random, &given);
        let read = read_curve(text.as_bytes());
        let numbers = read.as_ref().map_err(|fault| fault.refusal.number());
        assert_eq!(numbers.cloned(), expected, "{text}");
        if let Err(fault) = &read {
            assert!(fault.place.is_some(), "{text}");
        }
        if case < COMMANDS {
            let answer = answer_on(&["curve", "-"], text.as_bytes());
            let said = String::from_utf8(answer.stdout).expect("text");
            assert_eq!(said, printed(&expected), "{text}");
            assert_eq!(answer.status.code(), Some(i32::from(expected.is_err())));
            assert_eq!(answer.stderr.is_empty(), expected.is_ok());
        }
    }
    // 7 cannot come of a text, whose points have both figures
    each_came_up(&seen, &[0, 1, 3, 11]);
}

/// The names of a text's two tables are those that they should be.
fn names_kept(text: &[u8]) -> bool {
    let text = String::from_utf8_lossy(text);
    let names = |line: usize| text.lines().nth(line).unwrap_or("").split(',');
    let sorted = |line: usize| {
        let mut all: Vec<String> = names(line).map(str::to_string).collect();
        all.sort_unstable();
        all
    };
    sorted(0) == ["adder", "gas", "gmc", "om"] && sorted(3) == ["level", "rate"]
}

/// A text has its form whatever its names are: the proved reader of cases gives 1 exactly where this one does.
#[test]
fn damaged_texts() {
    let mut random = Random::new(53);
    let mut seen: Seen = Default::default();
    for _ in 0..TEXTS {
        let given = any_points(&mut random);
        let mut text = text_of_points(&mut random, &given).into_bytes();
        for _ in 0..1 + random.below(2) {
            if !text.is_empty() {
                damage_text(&mut random, &mut text);
            }
        }
        let shown = String::from_utf8_lossy(&text);
        let answer = read_curve(&text).map_err(|fault| fault.refusal);
        seen[answer.as_ref().err().map_or(0, |r| r.number() as usize)] += 1;
        let proved = read_into(&text, &mut []).map(|_| ());
        let form = proved == Err(Refusal::Form);
        assert_eq!(answer == Err(Refusal::Form), form, "{shown}");
        let wrong_names = !form && !names_kept(&text);
        assert_eq!(answer == Err(Refusal::Name), wrong_names, "{shown}");
    }
    each_came_up(&seen, &[0, 1, 2, 3, 11]);
}

/// The worked text with one thing put for another, the number, and what is said of it.
#[rustfmt::skip]
const FAULTS: [(&str, &str, u64, &str); 15] = [
    ("70,14440", "70", 1, "line 5: 1 values under 2 names"),
    ("level,rate\n70,14440\n150,11960\n300,10909\n", "", 1, "line 4: 'level,rate' is missing"),
    ("70,14440", "70,14440.5", 1, "line 5, column 4: '14440.5' is no value"),
    ("gas,om", "gas,fuel", 2, "line 1, column 5: 'fuel' is unknown, 'om' is missing"),
    ("gas,om", "gas,gas", 2, "line 1, column 5: 'gas' is repeated, 'om' is missing"),
    ("level,rate", "mw,rate", 2, "line 4, column 1: 'mw' is unknown, 'level' is missing"),
    ("550", "10001", 3, "line 2, column 1: gas '10001' is outside its range, 0 to 10000 ("),
    ("2500", "-1", 3, "line 2, column 12: adder '-1' is outside its range, 0 to 1000000 ("),
    ("280", "none", 3, "line 2, column 5: om 'none' is outside its range, 0 to 10000 ("),
    ("300,10909", "501,10909", 3, "line 7, column 1: level '501' is outside its range, 1 to 500 ("),
    ("300,10909", "300,0", 3, "line 7, column 5: rate '0' is outside its range, 1 to 50000 ("),
    ("150,11960\n300,10909\n", "", 3, "line 4: the number of points, 1, is outside its range"),
    ("70,", "1,1\n2,1\n3,1\n4,1\n5,1\n6,1\n7,1\n8,1\n9,1\n70,", 3, "line 4: the number of points, 12, is outside its range"),
    ("150,11960", "70,11960", 11, "line 6, column 1: level '70' is not over '70'"),
    ("70,14440", "500,14440", 11, "line 6, column 1: level '150' is not over '500'"),
];

#[test]
fn places_of_faults() {
    let worked = read_curve(WORKED.as_bytes());
    assert_eq!(worked, Ok(segments(&[(70, 150, 8214), (150, 300, 8252)])));
    for (from, to, number, said) in FAULTS {
        assert!(WORKED.contains(from), "{from}");
        let damaged = WORKED.replacen(from, to, 1);
        let fault = read_curve(damaged.as_bytes()).expect_err(&damaged);
        assert_eq!(fault.refusal.number(), number, "{damaged}");
        assert!(fault.to_string().starts_with(said), "{fault}");
        let answer = answer_on(&["curve", "-"], damaged.as_bytes());
        assert_eq!(answer.stdout, format!("refused,{number}\n").as_bytes());
        let line = format!("ralwinga: standard input: {fault}\n");
        assert_eq!(String::from_utf8_lossy(&answer.stderr), line);
    }
}

/// The corners of the staircase in a drawing.
fn corners(drawing: &str) -> Vec<[f64; 2]> {
    let (_, rest) = drawing.split_once("<polyline points=\"").expect("a line");
    let (points, _) = rest.split_once('"').expect("its end");
    let place = |figure: &str| figure.parse().expect("a place");
    let corner = |(x, y)| [place(x), place(y)];
    points
        .split(' ')
        .map(|point| corner(point.split_once(',').expect("two places")))
        .collect()
}

/// Two figures that are equal but for the tenth to which places are written.
fn near(one: f64, other: f64) -> bool {
    (one - other).abs() < 0.11
}

/// Levels and prices are as far from each other as the corners are, to the right and upwards, and all of it is on the sheet.
fn is_drawn(segments: &[Segment], drawing: &str) {
    let corners = corners(drawing);
    let ends = segments
        .iter()
        .flat_map(|s| [(s.from, s.price), (s.to, s.price)]);
    let ends: Vec<[f64; 2]> = ends
        .map(|(level, price)| [level as f64, price as f64])
        .collect();
    assert_eq!(corners.len(), ends.len());
    let (first, last) = (corners[0], corners[corners.len() - 1]);
    let (low, high) = (ends[0], ends[ends.len() - 1]);
    for (corner, end) in corners.iter().zip(&ends) {
        for axis in [0, 1] {
            let along = (end[axis] - low[axis]) / (high[axis] - low[axis]).max(1.0);
            assert!(
                near(
                    corner[axis],
                    first[axis] + along * (last[axis] - first[axis])
                ),
                "{drawing}"
            );
        }
        assert!((80.0..=1370.0).contains(&corner[0]) && (60.0..=490.0).contains(&corner[1]));
    }
    assert!(first[0] < last[0] && (segments.len() == 1 || first[1] > last[1]));
    for Segment { from, to, price } in segments {
        let told = format!(
            "<title>{from} to {to} MW: {} per MWh</title>",
            dollars(4 * price)
        );
        assert!(drawing.contains(&told), "{told}: {drawing}");
    }
    for label in [segments[0].from, segments[segments.len() - 1].to] {
        assert!(drawing.contains(&format!(">{label}</text>")), "{drawing}");
    }
    assert!(drawing.contains(">$/MWh</text>") && drawing.contains(">MW</text>"));
}

#[test]
fn drawings() {
    let mut random = Random::new(54);
    let mut drawn = 0;
    for _ in 0..DRAWINGS {
        let Points {
            inputs,
            levels,
            rates,
        } = any_points(&mut random);
        if let Ok(segments) = curve(inputs, &levels, &rates) {
            is_drawn(&segments, &svg::curve::draw(&segments));
            drawn += 1;
        }
    }
    assert!(drawn > DRAWINGS / 2, "{drawn} curves");
}

#[test]
fn a_drawing_by_the_command() {
    let folder = Folder::new("curve");
    let inputs = folder.file("unit.csv", WORKED);
    let drawing = folder.path("unit.svg");
    let run = |file, drawing| {
        let words = ["curve".as_ref(), file, "--svg".as_ref(), drawing];
        ralwinga::<_, &std::ffi::OsStr>(words)
            .output()
            .expect("runs")
    };
    let answer = run(inputs.as_os_str(), drawing.as_os_str());
    let table = "from,to,price\n70,150,8214\n150,300,8252\n";
    assert_eq!(String::from_utf8_lossy(&answer.stdout), table);
    assert!(answer.status.success() && answer.stderr.is_empty());
    let svg = folder.read("unit.svg");
    assert!(svg.starts_with("<svg") && svg.ends_with("</svg>\n"));
    is_drawn(&segments(&[(70, 150, 8214), (150, 300, 8252)]), &svg);
    // what cannot be written is told behind the answer, and the drawing of what is refused says so
    let answer = run(inputs.as_os_str(), "/no/such/folder/drawing".as_ref());
    assert_eq!(String::from_utf8_lossy(&answer.stdout), table);
    assert_eq!(answer.status.code(), Some(1));
    let refused = folder.file("refused.csv", WORKED.replacen("150", "70", 1));
    let answer = run(refused.as_os_str(), folder.path("refused.svg").as_os_str());
    assert_eq!(answer.stdout, b"refused,11\n");
    let svg = folder.read("refused.svg");
    assert!(
        svg.contains("Refused, 11: the levels do not rise strictly"),
        "{svg}"
    );
}
