//! Tables by the names of their columns. Rows are handed over as they are read, and none is held here.

use super::lines::{Line, Lines};
use super::{Cell, Fault, Field, ReadError};
use crate::nearest::did_you_mean;
use crate::Refusal;
use std::io::BufRead;

/// A line of names, of the form but not yet judged by what they are.
pub struct Names<'a> {
    line: usize,
    fields: Vec<Field<'a>>,
}

impl<'a> Names<'a> {
    fn of(line: Line<'a>) -> Result<Names<'a>, Fault> {
        let fields = line.fields().map(Field::name).collect::<Result<_, _>>()?;
        Ok(Names {
            line: line.number,
            fields,
        })
    }

    pub fn has(&self, name: &str) -> bool {
        self.place(name).is_some()
    }

    fn place(&self, name: &str) -> Option<usize> {
        let is_name = |field: &Field| field.bytes == name.as_bytes();
        self.fields.iter().position(is_name)
    }

    /// Where each of `names` stands. Each has to stand once, and no other.
    fn places<const N: usize>(&self, names: [&str; N]) -> Result<[usize; N], Fault> {
        let missing: Vec<&str> = names.into_iter().filter(|name| !self.has(name)).collect();
        let lacks = missing.iter().map(|name| format!("'{name}' is missing"));
        for (i, field) in self.fields.iter().enumerate() {
            let known = names.iter().any(|name| name.as_bytes() == field.bytes);
            let before = self.fields[..i].iter().any(|f| f.bytes == field.bytes);
            let wrong = match (known, before) {
                (false, _) => {
                    let near = did_you_mean(&field.bytes.escape_ascii().to_string(), &missing);
                    format!("{field} is unknown{near}")
                }
                (true, true) => format!("{field} is repeated"),
                (true, false) => continue,
            };
            let said: Vec<String> = std::iter::once(wrong).chain(lacks).collect();
            return Err(Fault::at(Refusal::Name, *field, said.join(", ")));
        }
        if !missing.is_empty() {
            let said: Vec<String> = lacks.collect();
            return Err(Fault::in_line(Refusal::Name, self.line, said.join(", ")));
        }
        Ok(names.map(|name| self.place(name).expect("none is missing")))
    }

    /// The cells of a row at some places. Every cell of the row has to be of the form.
    fn cells<'r, const N: usize>(
        &self,
        row: Line<'r>,
        places: Option<[usize; N]>,
    ) -> Result<Option<[Cell<'r>; N]>, Fault> {
        let mut taken: [Option<Cell>; N] = [None; N];
        let mut count = 0;
        for (place, field) in row.fields().enumerate() {
            let cell = field.cell(self.fields.get(place))?;
            let wanted = places.and_then(|places| places.iter().position(|p| *p == place));
            if let Some(i) = wanted {
                taken[i] = Some(cell);
            }
            count += 1;
        }
        if count != self.fields.len() {
            let counts = format!("{count} values under {} names", self.fields.len());
            return Err(Fault::in_line(Refusal::Form, row.number, counts));
        }
        Ok(places.map(|_| taken.map(|cell| cell.expect("each place is one of the row's"))))
    }
}

/// A line that is kept.
struct Kept {
    bytes: Vec<u8>,
    number: usize,
}

impl Kept {
    /// The next line of a text; without one, what is missing is said.
    fn next<R: BufRead>(lines: &mut Lines<R>, missing: &str) -> Result<Kept, ReadError> {
        match lines.read()? {
            Some(Line { bytes, number }) => Ok(Kept {
                bytes: bytes.to_vec(),
                number,
            }),
            None => Err(Fault::in_line(Refusal::Form, lines.number(), missing).into()),
        }
    }

    fn line(&self) -> Line<'_> {
        Line {
            bytes: &self.bytes,
            number: self.number,
        }
    }
}

/// A table of one row.
pub struct FirstTable {
    names: Kept,
    row: Kept,
}

impl FirstTable {
    fn read<R: BufRead>(lines: &mut Lines<R>) -> Result<FirstTable, ReadError> {
        let table = FirstTable {
            names: Kept::next(lines, "the line of names is missing")?,
            row: Kept::next(lines, "the line of values is missing")?,
        };
        table.names()?.cells::<0>(table.row.line(), None)?;
        Ok(table)
    }

    pub fn names(&self) -> Result<Names<'_>, Fault> {
        Names::of(self.names.line())
    }

    /// The row's cells in the sequence of `names`, each of which has to stand once, and no other.
    pub fn row<const N: usize>(&self, names: [&str; N]) -> Result<[Cell<'_>; N], Fault> {
        let read = self.names()?;
        let places = read.places(names)?;
        let cells = read.cells(self.row.line(), Some(places))?;
        Ok(cells.expect("places were given"))
    }
}

/// A table of one row, an empty line and a table with the columns `second`, whose rows are handed to `row`. What is wrong with the second table's
/// names comes behind what is wrong with the form of any line, and with the names of the first.
pub fn two_tables<R: BufRead, const N: usize>(
    input: R,
    second: [&str; N],
    row: impl FnMut([Cell; N]) -> Result<(), ReadError>,
) -> Result<(FirstTable, Result<usize, Fault>), ReadError> {
    let mut lines = Lines::of(input);
    let first = FirstTable::read(&mut lines)?;
    let gap = Kept::next(&mut lines, "the empty line is missing")?;
    if !gap.bytes.is_empty() {
        let said = "this line has to be empty";
        return Err(Fault::in_line(Refusal::Form, gap.number, said).into());
    }
    let head = Kept::next(&mut lines, &format!("'{}' is missing", second.join(",")))?;
    let places = rows(&mut lines, &head, second, false, row)?;
    Ok((first, places.map(|()| head.number)))
}

/// A table by itself with the columns `names`, up to the end of the text or to the first empty line, behind which nothing is read.
pub fn leading_table<R: BufRead, const N: usize>(
    input: R,
    names: [&str; N],
    row: impl FnMut([Cell; N]) -> Result<(), ReadError>,
) -> Result<(), ReadError> {
    let mut lines = Lines::of(input);
    let head = Kept::next(&mut lines, "the line of names is missing")?;
    Ok(rows(&mut lines, &head, names, true, row)??)
}

/// Hands over the rows under a line of names where these are in order; the form of every row is judged in either case.
fn rows<R: BufRead, const N: usize>(
    lines: &mut Lines<R>,
    head: &Kept,
    names: [&str; N],
    gap_ends: bool,
    mut row: impl FnMut([Cell; N]) -> Result<(), ReadError>,
) -> Result<Result<(), Fault>, ReadError> {
    let read = Names::of(head.line())?;
    let places = read.places(names);
    while let Some(line) = lines.read()? {
        if gap_ends && line.bytes.is_empty() {
            break;
        }
        if let Some(cells) = read.cells(line, places.as_ref().ok().copied())? {
            row(cells)?;
        }
    }
    Ok(places.map(|_| ()))
}
