//! The texts' form and what is said of its faults: fields and values, each with its place here, lines as they are read (`lines`), and tables by the
//! names of their columns (`tables`). The case, the schedule handed in, the cost inputs and a curve's points are all read by this module (`reader`).

mod advice;
mod lines;
mod tables;

pub use tables::{leading_table, two_tables, FirstTable, Names};

use crate::Refusal;
use std::fmt;
use std::io;

/// Where a text is wrong, and how. Lines and columns count from 1, columns in bytes.
#[derive(Clone, Debug, PartialEq, Eq)]
pub struct Place {
    pub line: usize,
    pub column: Option<usize>,
    pub what: String,
}

impl fmt::Display for Place {
    fn fmt(&self, f: &mut fmt::Formatter) -> fmt::Result {
        write!(f, "line {}", self.line)?;
        if let Some(column) = self.column {
            write!(f, ", column {column}")?;
        }
        write!(f, ": {}", self.what)
    }
}

/// A refusal, and the place of its cause where that is known.
#[derive(Clone, Debug, PartialEq, Eq)]
pub struct Fault {
    pub refusal: Refusal,
    pub place: Option<Place>,
}

impl From<Refusal> for Fault {
    fn from(refusal: Refusal) -> Fault {
        Fault {
            refusal,
            place: None,
        }
    }
}

impl fmt::Display for Fault {
    fn fmt(&self, f: &mut fmt::Formatter) -> fmt::Result {
        match &self.place {
            Some(place) => write!(f, "{place} ({})", self.refusal),
            None => self.refusal.fmt(f),
        }
    }
}

impl std::error::Error for Fault {}

impl Fault {
    pub fn in_line(refusal: Refusal, line: usize, what: impl Into<String>) -> Fault {
        let place = Place {
            line,
            column: None,
            what: what.into(),
        };
        Fault {
            refusal,
            place: Some(place),
        }
    }

    pub fn at(refusal: Refusal, field: Field, what: impl Into<String>) -> Fault {
        let place = Place {
            line: field.line,
            column: Some(field.column),
            what: what.into(),
        };
        Fault {
            refusal,
            place: Some(place),
        }
    }
}

/// Why a text gives no answer: the system did not give its bytes, or the memory to hold them; or it is refused.
#[derive(Debug)]
pub enum ReadError {
    Unread(io::Error),
    Refused(Fault),
}

impl From<io::Error> for ReadError {
    fn from(error: io::Error) -> ReadError {
        ReadError::Unread(error)
    }
}

impl From<Fault> for ReadError {
    fn from(fault: Fault) -> ReadError {
        ReadError::Refused(fault)
    }
}

/// Memory for so many entries more, or the error of a text that is not held.
pub fn reserve<T>(list: &mut Vec<T>, entries: usize) -> io::Result<()> {
    list.try_reserve(entries).map_err(|_| {
        let bytes = entries.saturating_mul(size_of::<T>());
        let said = format!("the system gives no {bytes} bytes of memory for it");
        io::Error::new(io::ErrorKind::OutOfMemory, said)
    })
}

/// What stands between two commas of a line.
#[derive(Clone, Copy, Debug)]
pub struct Field<'a> {
    bytes: &'a [u8],
    line: usize,
    column: usize,
}

/// The longest field that is shown whole.
const MOST_SHOWN: usize = 24;

impl fmt::Display for Field<'_> {
    fn fmt(&self, f: &mut fmt::Formatter) -> fmt::Result {
        match self.bytes.get(..MOST_SHOWN) {
            Some(front) => write!(f, "'{}..'", front.escape_ascii()),
            None => write!(f, "'{}'", self.bytes.escape_ascii()),
        }
    }
}

/// A value of a text: `None` is the word `none`.
pub type Value = Option<i64>;

/// The digits of the longest value, and the largest value that they write.
const MOST_DIGITS: usize = 10;
pub const LARGEST: i64 = 9_999_999_999;

/// A value with the field that it was read from.
#[derive(Clone, Copy, Debug)]
pub struct Cell<'a> {
    pub field: Field<'a>,
    pub value: Value,
}

impl<'a> Field<'a> {
    fn name(self) -> Result<Field<'a>, Fault> {
        match self.bytes {
            [_, ..] if self.bytes.iter().all(u8::is_ascii_lowercase) => Ok(self),
            _ => Err(Fault::at(
                Refusal::Form,
                self,
                format!("{self} is no name: letters a to z alone"),
            )),
        }
    }

    /// The value under a name.
    fn cell(self, name: Option<&Field>) -> Result<Cell<'a>, Fault> {
        match value(self.bytes) {
            Some(value) => Ok(Cell { field: self, value }),
            None => {
                let name = name.map_or(&b""[..], |name| name.bytes);
                let said = format!("{self} is no value: {}", advice::of_value(self.bytes, name));
                Err(Fault::at(Refusal::Form, self, said))
            }
        }
    }
}

/// `none`, or 1 to 10 digits without needless leading zeros, a minus allowed except on 0.
fn value(bytes: &[u8]) -> Option<Value> {
    if bytes == b"none" {
        return Some(None);
    }
    let (negative, digits) = match bytes {
        [b'-', rest @ ..] => (true, rest),
        _ => (false, bytes),
    };
    let leads = match digits {
        [] => false,
        [b'0'] => !negative,
        [first, ..] => *first != b'0',
    };
    if !leads || digits.len() > MOST_DIGITS || !digits.iter().all(u8::is_ascii_digit) {
        return None;
    }
    let number = digits
        .iter()
        .fold(0, |number, digit| number * 10 + i64::from(digit - b'0'));
    Some(Some(if negative { -number } else { number }))
}
