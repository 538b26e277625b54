//! The proved reader and the one for long texts beside each other, on texts in order and damaged, and beside the case that was written; and
//! what is said of a fault's place.

mod support;

use ralwinga::reader::{read_case, read_long_case};
use ralwinga::{read_into, Case, Refusal, Unit, Window};
use support::{any_case, any_window, c1, columns_of, damage_text, dated, each_came_up, small_case};
use support::{text_of, text_with, Lent, Random, Seen, C1};

const CASES: usize = 100_000;
const MOST_BYTES: usize = 12_288;

/// The proved reader's answer with prices lent beyond any need, and the slice held to it.
fn proved(text: &[u8]) -> Result<Case, Refusal> {
    let lent: Vec<i64> = (0..6144).collect();
    let mut prices = Lent::new(lent.clone(), 77);
    let answer = read_into(text, prices.slice());
    let mut after = lent;
    let read = answer.map(|(unit, count)| Case {
        unit,
        prices: prices.slice()[..count].to_vec(),
    });
    if let Ok(case) = &read {
        after[..case.prices.len()].copy_from_slice(&case.prices);
    }
    prices.holds(&after);
    read
}

#[test]
fn both_readers_agree() {
    let mut random = Random::new(5);
    let mut seen: Seen = Default::default();
    for _ in 0..CASES {
        let Case { unit, prices } = any_case(&mut random);
        let mut text = text_of(&mut random, &unit, &prices).into_bytes();
        for _ in 0..random.below(3) {
            if !text.is_empty() {
                damage_text(&mut random, &mut text);
            }
        }
        if text.len() > MOST_BYTES {
            continue;
        }
        let shown = String::from_utf8_lossy(&text);
        let answer = proved(&text);
        let refused = answer.as_ref().err().map_or(0, |r| r.number());
        seen[refused as usize] += 1;
        let long = read_long_case(&text);
        assert_eq!(
            long.as_ref().map_err(|f| f.refusal),
            answer.as_ref().map_err(|r| *r),
            "{shown}"
        );
        // the command's reader gives the proved one's number, and a place for each of 1 to 3, for a date and for the number of prices
        assert_eq!(read_case(&text), long, "{shown}");
        let placed = long.is_err_and(|fault| fault.place.is_some());
        assert_eq!(placed, [1, 2, 3, 5, 12].contains(&refused), "{shown}");
    }
    each_came_up(&seen, &[0, 1, 2, 3, 4, 5, 12]);
}

#[test]
fn what_was_written_is_read() {
    let mut random = Random::new(6);
    for _ in 0..CASES / 10 {
        let (unit, prices) = small_case(&mut random);
        let text = text_of(&mut random, &unit, &prices);
        assert_eq!(proved(text.as_bytes()), Ok(Case { unit, prices }));
    }
}

/// What both readers make of a text.
fn read_by_both(text: &str) -> Result<Case, u64> {
    let answer = proved(text.as_bytes());
    let long = read_long_case(text.as_bytes());
    assert_eq!(long.map_err(|fault| fault.refusal), answer, "{text}");
    answer.map_err(|refusal| refusal.number())
}

const WINDOW: Window = Window {
    year: 2024,
    month: 2,
    day: 29,
    word: 5,
};

/// C1's columns from a date on: the thirteen, and the four behind them.
fn dated_columns() -> Vec<(&'static str, String)> {
    let window = Some(WINDOW);
    columns_of(&Unit {
        window,
        ..c1().unit
    })
}

/// Each choice of the four names, in any sequence.
#[test]
fn all_four_or_none() {
    let mut random = Random::new(81);
    let prices = c1().prices;
    for _ in 0..200 {
        for chosen in 0u32..16 {
            let mut columns = dated_columns();
            let four = columns.split_off(13);
            let four = four.into_iter().enumerate();
            let stands = |(i, _): &(usize, _)| chosen >> i & 1 == 1;
            columns.extend(four.filter(stands).map(|(_, column)| column));
            let text = text_with(&mut random, columns, &prices);
            let window = match chosen {
                0 => Ok(None),
                15 => Ok(Some(WINDOW)),
                _ => Err(2),
            };
            let case = read_by_both(&text);
            assert_eq!(case.map(|case| case.unit.window), window, "{text}");
        }
    }
}

/// One of the columns taken out, doubled, under another name or with another value, whether the four stand there or not.
#[test]
fn a_column_that_is_wrong() {
    let mut random = Random::new(82);
    let mut seen: Seen = Default::default();
    let (names, plain) = (dated_columns(), columns_of(&c1().unit));
    for _ in 0..CASES / 5 {
        let mut columns = random.from(&[&names, &plain]).clone();
        let count = columns.len();
        let place = random.below(count as u64) as usize;
        let of_four = place >= 13;
        let expected = match random.below(5) {
            0 => {
                columns.remove(place);
                Some(2)
            }
            1 => {
                columns.push(columns[place].clone());
                Some(2)
            }
            2 => {
                columns[place].0 = random.from(&["price", "hour", "years", "windows", "mw"]);
                Some(2)
            }
            3 => {
                columns[place].1 = "none".to_string();
                Some(if (10..13).contains(&place) { 0 } else { 3 })
            }
            _ => {
                let value = random.from(&["-1", "9999999999", "4294967296", "0", "1", "2", "30"]);
                columns[place].1 = value.to_string();
                let beyond = value.len() > 2 || value.starts_with('-');
                // what else the values may come to is said for the four alone
                match (of_four, columns[place].0, value) {
                    _ if beyond => Some(3),
                    (false, _, _) => None,
                    (true, "window", _) => Some(0),
                    (true, "year", _) | (true, _, "0") | (true, "month", "30") => Some(3),
                    // 2024-02-30, and 2024-01-29
                    (true, "day", "30") => Some(12),
                    _ => Some(0),
                }
            }
        };
        let text = text_with(&mut random, columns, &c1().prices);
        let number = read_by_both(&text).err().unwrap_or(0);
        seen[number as usize] += 1;
        if let Some(expected) = expected {
            assert_eq!(number, expected, "{text}");
        }
    }
    each_came_up(&seen, &[0, 2, 3, 12]);
}

/// Dates and words as they were written, at the ends of their ranges too.
#[test]
fn windows_are_read() {
    let mut random = Random::new(83);
    let ends = [(2007, 1, 1, 0), (2099, 12, 31, (1 << 24) - 1)];
    let ends = ends.map(|(year, month, day, word)| Window {
        year,
        month,
        day,
        word,
    });
    let mut windows: Vec<Option<Window>> = ends.map(Some).to_vec();
    windows.extend((0..5000).map(|_| any_window(&mut random)));
    for window in windows {
        let Case { unit, prices } = c1();
        let unit = Unit { window, ..unit };
        let text = text_of(&mut random, &unit, &prices);
        assert_eq!(read_by_both(&text), Ok(Case { unit, prices }), "{text}");
    }
}

/// A text of so many bytes that both readers take as far as its length goes: the last price has what is left of the digits.
fn text_of_length(bytes: usize) -> Vec<u8> {
    let mut random = Random::new(7);
    let (unit, _) = small_case(&mut random);
    let head = text_of(&mut random, &unit, &[]).into_bytes();
    let mut text = head;
    while bytes - text.len() > 12 {
        text.extend_from_slice(b"-1000\n");
    }
    let left = bytes - text.len();
    text.extend(std::iter::repeat_n(b'1', left / 2 - 1));
    text.push(b'\n');
    let left = bytes - text.len();
    text.extend(std::iter::repeat_n(b'1', left - 1));
    text.push(b'\n');
    assert_eq!(text.len(), bytes);
    text
}

#[test]
fn the_longest_text() {
    let longest = text_of_length(MOST_BYTES);
    let answer = proved(&longest);
    assert!(answer.is_ok());
    assert_eq!(read_long_case(&longest).ok(), answer.ok());
    let longer = text_of_length(MOST_BYTES + 1);
    assert_eq!(proved(&longer), Err(Refusal::Form));
    assert!(read_case(&longer).is_ok());
}

#[test]
fn a_price_slice_too_short() {
    let mut random = Random::new(8);
    for _ in 0..1000 {
        let (unit, prices) = small_case(&mut random);
        let text = text_of(&mut random, &unit, &prices);
        let lent = vec![5; random.below(prices.len() as u64) as usize];
        let mut slice = Lent::new(lent.clone(), 77);
        assert_eq!(
            read_into(text.as_bytes(), slice.slice()),
            Err(Refusal::Length)
        );
        slice.holds(&lent);
    }
}

/// C1 with one thing put for another, the number, and what is said of it.
#[rustfmt::skip]
const FAULTS: [(&str, &str, u64, &str); 18] = [
    ("10000\n", "10000", 1, "line 10: no line end closes the last line"),
    ("block,", "Block,", 1, "line 1, column 1: 'Block' is no name"),
    ("5000,2,2", "5000,02,2", 1, "line 2, column 32: '02' is no value"),
    ("5000,2,2", "5000,2 ,2", 1, "line 2, column 32: '2 ' is no value"),
    ("10,1,2", "10,1", 1, "line 2: 12 values under 13 names"),
    ("\n\n", "\n", 1, "line 3: this line has to be empty"),
    ("\n\n", "\r\n\n", 1, "line 2: the line ends with CR LF, and lines end with LF: give --crlf, or convert"),
    ("8000", "", 1, "line 7, column 1: '' is no value"),
    ("8000", "99999999999", 1, "line 7, column 1: '99999999999' is no value"),
    ("mot", "mob", 2, "line 1, column 17: 'mob' is unknown (did you mean 'mot'?), 'mot' is missing"),
    ("mot", "mdt", 2, "line 1, column 21: 'mdt' is repeated, 'mot' is missing"),
    ("price", "prices", 2, "line 4, column 1: 'prices' is unknown (did you mean 'price'?), 'price' is missing"),
    ("10,1,2,2", "10,1,2,97", 3, "line 2, column 8: mot '97' is outside its range, 1 to 96 ("),
    ("10,1,2,2", "10,2,2,97", 3, "line 2, column 8: mot '97' is outside its range, 1 to 96 ("),
    ("10,1,2", "10,none,2", 3, "line 2, column 4: pmin 'none' is outside its range, 1 to 500 ("),
    ("2,none", "2,-1", 3, "line 2, column 36: mwh '-1' is outside its range, 0 to 372000, or none ("),
    ("8000", "200001", 3, "line 7, column 1: price '200001' is outside its range, -200000 to 200000 ("),
    ("8000", "none", 3, "line 7, column 1: price 'none' is outside its range, -200000 to 200000 ("),
];

#[test]
fn places_of_faults() {
    for (from, to, number, said) in FAULTS {
        assert!(C1.contains(from), "{from}");
        let text = C1.replacen(from, to, 1);
        let fault = read_case(text.as_bytes()).expect_err(&text);
        assert_eq!(fault.refusal.number(), number, "{text}");
        let line = fault.to_string();
        assert!(line.starts_with(said), "{line}");
        assert!(line.ends_with(&format!("({})", fault.refusal)), "{line}");
    }
}

/// C1 from 3 February 2024 on with one thing put for another.
#[rustfmt::skip]
const DATED_FAULTS: [(&str, &str, u64, &str); 10] = [
    ("month,", "mouth,", 2, "line 1, column 68: 'mouth' is unknown (did you mean 'month'?), 'month' is missing"),
    ("month,", "year,", 2, "line 1, column 68: 'year' is repeated, 'month' is missing"),
    ("mwh,", "mw,", 2, "line 1, column 59: 'mw' is unknown (did you mean 'mwh'?), 'mwh' is missing"),
    (",window\n10,1,2,2,2,0,2,3000,30000,5000,2,2,none,2024,2,3,1", "\n10,1,2,2,2,0,2,3000,30000,5000,2,2,none,2024,2,3", 2, "line 1: 'window' is missing"),
    ("none,2024", "none,2006", 3, "line 2, column 41: year '2006' is outside its range, 2007 to 2099 ("),
    ("none,2024", "none,none", 3, "line 2, column 41: year 'none' is outside its range, 2007 to 2099 ("),
    ("2024,2,3", "2024,13,3", 3, "line 2, column 46: month '13' is outside its range, 1 to 12 ("),
    ("2024,2,3", "2024,2,0", 3, "line 2, column 48: day '0' is outside its range, 1 to 31 ("),
    ("2,3,1\n", "2,31,16777216\n", 3, "line 2, column 51: window '16777216' is outside its range, 0 to 16777215 ("),
    ("2024,2,3", "2024,2,31", 12, "line 2, column 48: there is no day '31' in month '2' of '2024'"),
];

#[test]
fn places_of_faults_in_a_date() {
    let in_order = dated(C1, (2024, 2, 3), 1);
    assert!(read_case(in_order.as_bytes()).is_ok());
    for (from, to, number, said) in DATED_FAULTS {
        assert!(in_order.contains(from), "{from}");
        let text = in_order.replacen(from, to, 1);
        let fault = read_case(text.as_bytes()).expect_err(&text);
        assert_eq!(fault.refusal.number(), number, "{text}");
        let line = fault.to_string();
        assert!(line.starts_with(said), "{line}");
        assert!(line.ends_with(&format!("({})", fault.refusal)), "{line}");
    }
}

/// A text that ends before its prices.
#[test]
fn lines_that_are_missing() {
    for (lines, said) in [
        (0, "line 1: the text is empty"),
        (1, "line 2: the line of values is missing"),
        (2, "line 3: the empty line is missing"),
        (3, "line 4: 'price' is missing"),
    ] {
        let text: String = C1.split_inclusive('\n').take(lines).collect();
        let fault = read_case(text.as_bytes()).expect_err(&text);
        assert_eq!(fault.refusal, Refusal::Form);
        assert!(fault.to_string().starts_with(said), "{fault}");
    }
}
