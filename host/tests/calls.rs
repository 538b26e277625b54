//! The calls beside the specification by enumeration, on random cases in order and damaged, with slices long and short and canaries past each.

mod support;

use ralwinga::{assess, cells, plan_into, report_into, value, Case, Cells, Report, Unit};
use support::{
    any_case, any_schedule, damage, each_came_up, long_case, paper, recursion, small_case,
};
use support::{Lent, Random, Seen};

const CASES: usize = 100_000;
const LONG_CASES: usize = 600;

fn number<T>(answer: Result<T, ralwinga::Refusal>) -> Result<T, u64> {
    answer.map_err(|refusal| refusal.number())
}

/// The cells used of the scratch, or 7 and 8 of the slices, in the paper's order, after the causes of the case.
fn judge_lent(
    u: &Unit,
    prices: &[i64],
    scratch: usize,
    schedule: Option<usize>,
) -> Result<usize, u64> {
    paper::judge_case(u, prices)?;
    if schedule.is_some_and(|entries| entries < prices.len()) {
        return Err(7);
    }
    paper::used(u, prices.len(), scratch)
}

/// Lengths of scratch about the two sizes and between them.
fn any_length(random: &mut Random, Cells { needed, table }: Cells) -> usize {
    match random.below(9) {
        0 => needed - 1,
        1 => random.below(needed as u64) as usize,
        2 => needed,
        3 => needed + random.below((table - needed) as u64 + 1) as usize,
        4 => table - 1,
        5 => table,
        _ => table + random.below(20) as usize,
    }
}

/// Scratch and schedule of lengths about what is needed, with numbers in them.
fn slices(random: &mut Random, u: &Unit, prices: &[i64]) -> (Vec<i64>, Vec<u64>) {
    let sizes = match paper::judge_case(u, prices) {
        Ok(()) => paper::cells(u, prices.len()),
        Err(_) => Cells {
            needed: 50,
            table: 100,
        },
    };
    let cells = any_length(random, sizes);
    let entries = match random.below(8) {
        0 => prices.len().saturating_sub(1),
        1 => 0,
        2 => prices.len(),
        _ => prices.len() + random.below(5) as usize,
    };
    let scratch = (0..cells).map(|_| random.between(-9, 9)).collect();
    let schedule = (0..entries).map(|_| random.below(1000)).collect();
    (scratch, schedule)
}

/// The scratch after a call that uses so many of its cells, or refuses before it uses any.
fn after(scratch: &[i64], used: Result<usize, u64>) -> Vec<i64> {
    let mut after = scratch.to_vec();
    after[..used.unwrap_or(0)].fill(0);
    after
}

fn try_plan(u: Unit, prices: &[i64], scratch: &[i64], schedule: &[u64]) -> Result<usize, u64> {
    let used = judge_lent(&u, prices, scratch.len(), Some(schedule.len()));
    let expected = used.and_then(|_| paper::reported(&u, prices));
    let scratch_after = after(scratch, used);
    let mut schedule_after = schedule.to_vec();
    if let Ok((report, plan)) = &expected {
        schedule_after[..report.count].copy_from_slice(plan);
        assert_eq!(number(assess(u, prices, plan)), Ok(report.profit));
    }
    let expected = expected.map(|(report, _)| report);

    let mut cells = Lent::new(scratch.to_vec(), 77);
    let mut entries = Lent::new(schedule.to_vec(), 88);
    let answer = report_into(u, prices, cells.slice(), entries.slice());
    assert_eq!(number(answer), expected);
    cells.holds(&scratch_after);
    entries.holds(&schedule_after);

    let mut cells = Lent::new(scratch.to_vec(), 77);
    let mut entries = Lent::new(schedule.to_vec(), 88);
    let answer = plan_into(u, prices, cells.slice(), entries.slice());
    let expected = expected.map(|report| (report.count, report.profit));
    assert_eq!(number(answer), expected);
    cells.holds(&scratch_after);
    entries.holds(&schedule_after);
    expected.and(used)
}

fn try_value(u: Unit, prices: &[i64], scratch: &[i64]) {
    let used = judge_lent(&u, prices, scratch.len(), None);
    let expected = used.and_then(|_| paper::reported(&u, prices));
    let mut cells = Lent::new(scratch.to_vec(), 77);
    assert_eq!(
        number(value(u, prices, cells.slice())),
        expected.map(|(report, _)| report.outcomes)
    );
    cells.holds(&after(scratch, used));
}

/// Every number comes up, and so do plans in both sizes.
#[test]
fn planning_and_valuing() {
    let mut random = Random::new(1);
    let mut seen: Seen = Default::default();
    let (mut layers, mut tables) = (0, 0);
    for _ in 0..CASES {
        let Case { unit, prices } = any_case(&mut random);
        let (scratch, schedule) = slices(&mut random, &unit, &prices);
        let used = try_plan(unit, &prices, &scratch, &schedule);
        try_value(unit, &prices, &scratch);
        seen[used.err().map_or(0, |n| n as usize)] += 1;
        if let Ok(used) = used {
            let table = paper::cells(&unit, prices.len()).table;
            layers += usize::from(used < table);
            tables += usize::from(used == table);
        }
    }
    each_came_up(&seen, &[0, 3, 4, 5, 7, 8, 9, 12]);
    assert!(
        layers > CASES / 10 && tables > CASES / 10,
        "{layers} plans in two layers, {tables} in the long table"
    );
}

/// The report and the plan of a longer case from so many cells with numbers in them, of which those used are 0 afterwards.
fn reported_from(unit: Unit, prices: &[i64], length: usize) -> Result<(Report, Vec<u64>), u64> {
    let scratch = vec![5; length];
    let mut cells = Lent::new(scratch.clone(), 77);
    let mut schedule = vec![0; prices.len()];
    let answer = report_into(unit, prices, cells.slice(), &mut schedule);
    cells.holds(&after(&scratch, paper::used(&unit, prices.len(), length)));
    number(answer.map(|report| (report, schedule)))
}

/// Cases too long to try every list, whose rows are longer than their outputs are many, in each size and between them.
#[test]
fn longer_cases() {
    let mut random = Random::new(11);
    let mut refused = 0;
    for _ in 0..LONG_CASES {
        let (unit, prices) = long_case(&mut random);
        let expected = match recursion::best(&unit, &prices) {
            None => Err(9),
            Some((profit, plan)) => {
                let profit_of =
                    |unit| recursion::best(&unit, &prices).map(|(earned, _)| earned.into());
                let report = Report {
                    count: plan.len(),
                    profit,
                    outcomes: paper::outcomes_by(&unit, profit_of),
                };
                Ok((report, plan))
            }
        };
        refused += usize::from(expected.is_err());
        let Cells { needed, table } = paper::cells(&unit, prices.len());
        let between = needed + random.below((table - needed) as u64) as usize;
        for length in [needed, between, table] {
            assert_eq!(reported_from(unit, &prices, length), expected, "{length}");
        }
        assert_eq!(reported_from(unit, &prices, needed - 1), Err(8));
    }
    assert!(
        refused > 0 && refused < LONG_CASES / 2,
        "{refused} refusals"
    );
}

#[test]
fn handing_in() {
    let mut random = Random::new(2);
    let mut seen: Seen = Default::default();
    for _ in 0..2 * CASES {
        let (mut unit, mut prices) = small_case(&mut random);
        if random.one_in(10) {
            damage(&mut random, &mut unit, &mut prices);
        }
        let schedule = any_schedule(&mut random, &unit, prices.len());
        let expected = paper::assessed(&unit, &prices, &schedule);
        seen[expected.err().map_or(0, |n| n as usize)] += 1;
        assert_eq!(number(assess(unit, &prices, &schedule)), expected);
    }
    each_came_up(&seen, &[0, 3, 4, 5, 7, 10, 12]);
}

#[test]
fn sizes() {
    let mut random = Random::new(3);
    for _ in 0..CASES {
        let Case { unit, prices } = any_case(&mut random);
        // the prices' own ranges are not asked here
        let zeros = vec![0; prices.len()];
        let expected = paper::judge_case(&unit, &zeros).map(|()| paper::cells(&unit, zeros.len()));
        assert_eq!(number(cells(unit, zeros.len())), expected);
    }
}
