//! `ralwinga costs` beside the library's call and beside exact fractions, and its texts beside the proved reader's judgement of their form.

mod support;

use ralwinga::reader::read_figures;
use ralwinga::{figures, read_into, CostFigures, Refusal};
use std::collections::BTreeSet;
use support::inputs::{any_inputs, text_of_inputs, Inputs, UNIT};
use support::{answer_on, damage_text, each_came_up, paper, Random, Seen};

const CASES: usize = 1_000;
const TEXTS: usize = 50_000;

fn printed(answer: &Result<CostFigures, u64>) -> String {
    match answer {
        Ok(figures) => format!(
            "vec,{}\nsuc,{}\nmlc,{}\n",
            figures.vec, figures.suc, figures.mlc
        ),
        Err(number) => format!("refused,{number}\n"),
    }
}

/// The answer by exact fractions to the text of these inputs, whose segments have a MW and a heat rate each.
fn expected(given: &Inputs) -> Result<CostFigures, u64> {
    let segments = given.mws.len().min(given.heats.len());
    let (mws, heats) = (&given.mws[..segments], &given.heats[..segments]);
    let k = &given.inputs;
    let fields = [
        k.block,
        k.pmin,
        k.gas,
        k.rate,
        k.min_heat,
        k.fuel,
        k.load_adder,
    ];
    let mut written = fields.iter().chain(mws).chain(heats);
    if written.any(|figure| *figure > 9_999_999_999) {
        return Err(1);
    }
    let answer = paper::figures(k, mws, heats);
    let library = figures(*k, mws, heats).map_err(|refusal| refusal.number());
    assert_eq!(library, answer);
    answer
}

#[test]
fn inputs_in_order_and_damaged() {
    let mut random = Random::new(41);
    let mut seen: Seen = Default::default();
    for case in 0..TEXTS {
        let given = any_inputs(&mut random);
        let expected = expected(&given);
        seen[expected.as_ref().err().map_or(0, |n| *n as usize)] += 1;
        let text = text_of_inputs(&mut random, &given);
        let read = read_figures(text.as_bytes());
        let numbers = read.as_ref().map_err(|fault| fault.refusal.number());
        assert_eq!(numbers.copied(), expected, "{text}");
        if let Err(fault) = &read {
            let told = (1..=3).contains(&fault.refusal.number());
            assert_eq!(fault.place.is_some(), told, "{text}");
        }
        if case < CASES {
            let answer = answer_on(&["costs", "-"], text.as_bytes());
            let said = String::from_utf8(answer.stdout).expect("text");
            assert_eq!(said, printed(&expected), "{text}");
            assert_eq!(answer.status.code(), Some(i32::from(expected.is_err())));
            assert_eq!(answer.stderr.is_empty(), expected.is_ok());
        }
    }
    // 7 cannot come of a text, whose segments have both figures
    each_came_up(&seen, &[0, 1, 3, 4, 6]);
}

/// The names of a text's two tables are those that they should be.
fn names_kept(text: &[u8]) -> bool {
    let text = String::from_utf8_lossy(text);
    let names = |line: usize| text.lines().nth(line).unwrap_or("").split(',');
    let set = |line: usize| names(line).map(str::to_string).collect::<BTreeSet<_>>();
    let wanted = "block pmin pmax gas transport allowance om gmc rate minheat fuel aux minutes startadder loadadder";
    let wanted: BTreeSet<String> = wanted.split(' ').map(str::to_string).collect();
    let segment: BTreeSet<String> = ["mw", "heat"].map(str::to_string).into();
    set(0) == wanted && names(0).count() == 15 && set(3) == segment && names(3).count() == 2
}

/// A text has its form whatever its names are: the proved reader of cases gives 1 exactly where this one does.
#[test]
fn damaged_texts() {
    let mut random = Random::new(42);
    let mut seen: Seen = Default::default();
    for _ in 0..TEXTS {
        let given = any_inputs(&mut random);
        let mut text = text_of_inputs(&mut random, &given).into_bytes();
        for _ in 0..1 + random.below(2) {
            if !text.is_empty() {
                damage_text(&mut random, &mut text);
            }
        }
        let shown = String::from_utf8_lossy(&text);
        let answer = read_figures(&text).map_err(|fault| fault.refusal);
        seen[answer.err().map_or(0, |r| r.number() as usize)] += 1;
        let proved = read_into(&text, &mut []).map(|_| ());
        let form = proved == Err(Refusal::Form);
        assert_eq!(answer == Err(Refusal::Form), form, "{shown}");
        let wrong_names = !form && !names_kept(&text);
        assert_eq!(answer == Err(Refusal::Name), wrong_names, "{shown}");
    }
    each_came_up(&seen, &[0, 1, 2, 3, 4, 6]);
}

/// Inputs of C10 with one thing put for another, the number, and what is said of it.
#[rustfmt::skip]
const FAULTS: [(&str, &str, u64, &str); 7] = [
    ("80,9790", "80", 1, "line 5: 1 values under 2 names"),
    ("mw,heat\n80,9790\n", "", 1, "line 4: 'mw,heat' is missing"),
    ("mw,heat", "mw,rate", 2, "line 4, column 4: 'rate' is unknown, 'heat' is missing"),
    ("80,9790", "501,9790", 3, "line 5, column 1: mw '501' is outside its range, 1 to 500 ("),
    ("80,9790", "80,0", 3, "line 5, column 4: heat '0' is outside its range, 1 to 50000 ("),
    ("80,9790\n", "8,1\n8,1\n8,1\n8,1\n8,1\n8,1\n8,1\n8,1\n8,1\n4,1\n4,1\n", 3, "line 4: 11 segments, more than there may be"),
    ("80,9790", "79,9790", 6, "refused, 6: "),
];

#[test]
fn places_of_faults() {
    let given = Inputs {
        inputs: UNIT,
        mws: vec![80],
        heats: vec![9790],
    };
    let text = text_of_inputs(&mut Random::new(43), &given);
    let read = read_figures(text.as_bytes());
    assert_eq!(read.map(|figures| figures.vec), Ok(5664));
    for (from, to, number, said) in FAULTS {
        assert!(text.contains(from), "{from}");
        let damaged = text.replacen(from, to, 1);
        let fault = read_figures(damaged.as_bytes()).expect_err(&damaged);
        assert_eq!(fault.refusal.number(), number, "{damaged}");
        assert!(fault.to_string().starts_with(said), "{fault}");
    }
}
