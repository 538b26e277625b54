//! The texts of cases, written and damaged.

use super::Random;
use ralwinga::Unit;

const UNIT_NAMES: [&str; 13] = [
    "block", "pmin", "pmax", "mot", "mdt", "was", "held", "vec", "mlc", "suc", "starts", "hours",
    "mwh",
];

const WINDOW_NAMES: [&str; 4] = ["year", "month", "day", "window"];

/// The names of a case and what stands under them.
pub fn columns_of(u: &Unit) -> Vec<(&'static str, String)> {
    let limit = |figure: Option<u64>| figure.map_or("none".to_string(), |f| f.to_string());
    let values = [
        u.block, u.pmin, u.pmax, u.mot, u.mdt, u.was, u.held, u.vec, u.mlc, u.suc,
    ];
    let limits = [limit(u.starts), limit(u.hours), limit(u.mwh)];
    let values = values.iter().map(u64::to_string).chain(limits);
    let columns = UNIT_NAMES.into_iter().zip(values);
    let window = u.window.map(|w| {
        let values = [w.year, w.month, w.day, w.word].map(|figure| figure.to_string());
        WINDOW_NAMES.into_iter().zip(values)
    });
    columns.chain(window.into_iter().flatten()).collect()
}

/// The text of a case, its names in a random sequence.
pub fn text_of(random: &mut Random, u: &Unit, prices: &[i64]) -> String {
    text_with(random, columns_of(u), prices)
}

/// The text of these columns in a random sequence, and of prices.
pub fn text_with(random: &mut Random, columns: Vec<(&str, String)>, prices: &[i64]) -> String {
    let mut text = shuffled_table(random, columns) + "\nprice\n";
    for price in prices {
        text.push_str(&format!("{price}\n"));
    }
    text
}

/// A line of names in a random sequence and the line of their values.
pub fn shuffled_table(random: &mut Random, mut columns: Vec<(&str, String)>) -> String {
    for i in (1..columns.len()).rev() {
        columns.swap(i, random.below(i as u64 + 1) as usize);
    }
    let names: Vec<&str> = columns.iter().map(|(name, _)| *name).collect();
    let row: Vec<&str> = columns.iter().map(|(_, value)| value.as_str()).collect();
    format!("{}\n{}\n", names.join(","), row.join(","))
}

/// What a damaged text gains.
const PIECES: [&str; 19] = [
    "none",
    "-",
    "0",
    "-0",
    "00",
    ",",
    "\n",
    "\n\n",
    "price",
    "starts",
    "year",
    "day",
    "window",
    "9999999999",
    "10000000000",
    "-1",
    " ",
    "A",
    "\u{e9}",
];

/// A byte taken out, put in or changed, the end cut off, a piece put in or put for a whole field.
pub fn damage_text(random: &mut Random, text: &mut Vec<u8>) {
    let at = random.below(text.len() as u64) as usize;
    let piece = random.from(&PIECES).bytes();
    match random.below(6) {
        0 => {
            text.remove(at);
        }
        1 => text[at] = random.from(b"0123456789-,\nanoepricsdwy +\r\t"),
        2 => text.insert(at, random.from(b"0123456789-,\nanoepricsdwy")),
        3 => text.truncate(at),
        4 => {
            text.splice(at..at, piece);
        }
        _ => {
            text.splice(field_at(text, at), piece);
        }
    }
}

/// The field about a place of a text.
fn field_at(text: &[u8], at: usize) -> std::ops::Range<usize> {
    let is_mark = |byte: &u8| *byte == b',' || *byte == b'\n';
    let begin = text[..at].iter().rposition(is_mark).map_or(0, |i| i + 1);
    let end = text[at..]
        .iter()
        .position(is_mark)
        .map_or(text.len(), |i| at + i);
    begin..end
}
