//! Amounts as a person reads them: dollars, quarters of an hour or of a MWh, times of day.

pub const PER_HOUR: usize = 4;
pub const PER_DAY: usize = 24 * PER_HOUR;

/// Dollars of quarter-cents, exact: two decimals, or four where the cents are not whole.
pub fn dollars(quarter_cents: i64) -> String {
    let amount = quarter_cents.unsigned_abs();
    let (whole, decimals) = (grouped(amount / 400), decimals(amount));
    format!("{}${whole}.{decimals}", sign(quarter_cents))
}

/// The same for a column that is headed by the unit: no sign of dollars, no comma.
pub fn plain_dollars(quarter_cents: i64) -> String {
    let amount = quarter_cents.unsigned_abs();
    format!(
        "{}{}.{}",
        sign(quarter_cents),
        amount / 400,
        decimals(amount)
    )
}

fn sign(amount: i64) -> &'static str {
    if amount < 0 {
        "-"
    } else {
        ""
    }
}

fn decimals(quarter_cents: u64) -> String {
    let rest = quarter_cents % 400;
    match rest % 4 {
        0 => format!("{:02}", rest / 4),
        _ => format!("{:04}", rest * 25),
    }
}

/// A number with a comma before each three digits.
pub fn grouped(number: u64) -> String {
    let digits = number.to_string();
    let mut out = String::new();
    for (i, digit) in digits.chars().enumerate() {
        if i > 0 && (digits.len() - i).is_multiple_of(3) {
            out.push(',');
        }
        out.push(digit);
    }
    out
}

/// A number of quarters as a decimal.
pub fn quarters(count: u64) -> String {
    format!("{}{}", grouped(count / 4), part(count))
}

/// The same without a comma.
pub fn plain_quarters(count: u64) -> String {
    format!("{}{}", count / 4, part(count))
}

fn part(quarters: u64) -> &'static str {
    ["", ".25", ".5", ".75"][(quarters % 4) as usize]
}

/// When the interval at this place, counted from 0, begins in days of 24 hours. Interval 1 begins at midnight of day 1.
pub fn beginning(place: usize) -> String {
    on_day(place / PER_DAY, place % PER_DAY)
}

/// When an interval ends: the last of a day at 24:00 of that day.
pub fn ending(place: usize) -> String {
    on_day(place / PER_DAY, place % PER_DAY + 1)
}

fn on_day(day: usize, quarters: usize) -> String {
    format!("day {} {}", day + 1, time_of_day(quarters))
}

/// So many quarter-hours after midnight.
pub fn time_of_day(quarters: usize) -> String {
    let (hour, quarter) = (quarters / PER_HOUR, quarters % PER_HOUR);
    format!("{hour:02}:{:02}", 15 * quarter)
}

#[cfg(test)]
mod tests {
    use super::*;

    #[test]
    fn dollars_are_exact() {
        for (amount, said) in [
            (0, "$0.00"),
            (400_000, "$1,000.00"),
            (-1, "-$0.0025"),
            (401, "$1.0025"),
            (403, "$1.0075"),
            (404, "$1.01"),
            (-493_827_156_000, "-$1,234,567,890.00"),
        ] {
            assert_eq!(dollars(amount), said);
        }
        assert_eq!(dollars(i64::MIN), "-$23,058,430,092,136,939.52");
        assert_eq!(plain_dollars(i64::MIN), "-23058430092136939.52");
        assert_eq!(plain_dollars(1_234_567_403), "3086418.5075");
    }

    #[test]
    fn quarters_and_times() {
        assert_eq!(quarters(0), "0");
        assert_eq!(quarters(4001), "1,000.25");
        assert_eq!(quarters(7), "1.75");
        assert_eq!(plain_quarters(4001), "1000.25");
        assert_eq!(beginning(0), "day 1 00:00");
        assert_eq!(beginning(96), "day 2 00:00");
        assert_eq!(ending(94), "day 1 23:45");
        assert_eq!(ending(95), "day 1 24:00");
        assert_eq!(ending(2975), "day 31 24:00");
    }
}
