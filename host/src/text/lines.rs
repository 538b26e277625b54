//! The lines of a text as they are read. One is held at a time.

use super::{advice, reserve, Fault, Field, ReadError};
use crate::Refusal;
use std::io::{BufRead, ErrorKind};

/// The longest line. The proved reader takes no longer text, and no line of values in order is as long.
const MOST_LINE: usize = 12_288;

/// A line without its end, and its number.
#[derive(Clone, Copy)]
pub struct Line<'a> {
    pub bytes: &'a [u8],
    pub number: usize,
}

impl<'a> Line<'a> {
    pub fn fields(self) -> impl Iterator<Item = Field<'a>> {
        let mut column = 1;
        self.bytes.split(|byte| *byte == b',').map(move |bytes| {
            let field = Field {
                bytes,
                line: self.number,
                column,
            };
            column += bytes.len() + 1;
            field
        })
    }
}

pub struct Lines<R> {
    input: R,
    held: Vec<u8>,
    number: usize,
}

impl<R: BufRead> Lines<R> {
    pub fn of(input: R) -> Lines<R> {
        Lines {
            input,
            held: Vec::new(),
            number: 0,
        }
    }

    /// The number of the line that was read last.
    pub fn number(&self) -> usize {
        self.number
    }

    /// The next line, or none behind the last.
    pub fn read(&mut self) -> Result<Option<Line<'_>>, ReadError> {
        self.held.clear();
        self.number += 1;
        let closed = self.hold_line()?;
        let ends = !closed && self.held.is_empty();
        if ends && self.number > 1 {
            return Ok(None);
        }
        if let Some(said) = advice::of_line(&self.held, self.number == 1) {
            return Err(self.fault(said));
        }
        match (closed, ends) {
            (true, _) => Ok(Some(Line {
                bytes: &self.held,
                number: self.number,
            })),
            (false, true) => Err(self.fault("the text is empty")),
            (false, false) => Err(self.fault("no line end closes the last line")),
        }
    }

    /// Holds the bytes up to the next line end or to the end of the text: whether a line end was there.
    fn hold_line(&mut self) -> Result<bool, ReadError> {
        loop {
            let bytes = match self.input.fill_buf() {
                Ok([]) => return Ok(false),
                Ok(bytes) => bytes,
                Err(error) if error.kind() == ErrorKind::Interrupted => continue,
                Err(error) => return Err(error.into()),
            };
            let end = bytes.iter().position(|byte| *byte == b'\n');
            let part = &bytes[..end.unwrap_or(bytes.len())];
            if self.held.len() + part.len() > MOST_LINE {
                let said = format!("the line is longer than {MOST_LINE} bytes");
                return Err(self.fault(&said));
            }
            reserve(&mut self.held, part.len())?;
            self.held.extend_from_slice(part);
            let read = part.len() + usize::from(end.is_some());
            self.input.consume(read);
            if end.is_some() {
                return Ok(true);
            }
        }
    }

    fn fault(&self, said: &str) -> ReadError {
        Fault::in_line(Refusal::Form, self.number, said).into()
    }
}
