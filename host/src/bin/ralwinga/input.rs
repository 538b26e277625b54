//! The files that are read, as streams.

use crate::standard;
use crate::stop::{is_standard_input, Stop};
use ralwinga::text::ReadError;
use std::fs::File;
use std::io::{self, BufRead, BufReader, ErrorKind, Read};
use std::path::Path;

/// What is read of a file, or of standard input. With `crlf` a line may end with CR LF.
pub fn read<T>(
    file: &Path,
    crlf: bool,
    read: impl FnOnce(Box<dyn Read>) -> Result<T, ReadError>,
) -> Result<T, Stop> {
    let input = opened(file).map_err(|error| Stop::unread(file, error))?;
    let input = match crlf {
        true => Box::new(WithoutReturns::of(input)),
        false => input,
    };
    read(input).map_err(|error| match error {
        ReadError::Unread(error) => Stop::unread(file, error),
        ReadError::Refused(fault) => Stop::refused(file, fault),
    })
}

fn opened(file: &Path) -> io::Result<Box<dyn Read>> {
    if !is_standard_input(file) {
        return Ok(Box::new(File::open(file)?));
    }
    match standard::input_is_closed() {
        true => Err(io::Error::other("it is closed")),
        false => Ok(Box::new(io::stdin().lock())),
    }
}

/// A text without the CR of each CR LF.
struct WithoutReturns<R> {
    input: BufReader<R>,
    /// A CR was read, and what comes behind it is not known.
    pending: bool,
}

impl<R: Read> WithoutReturns<R> {
    fn of(input: R) -> WithoutReturns<R> {
        WithoutReturns {
            input: BufReader::new(input),
            pending: false,
        }
    }

    /// A CR, or the bytes up to the next one, into the front of `out`: how many. None where the CR was one of CR LF.
    fn step(&mut self, out: &mut [u8]) -> io::Result<Option<usize>> {
        let bytes = self.input.fill_buf()?;
        if std::mem::take(&mut self.pending) {
            if bytes.first() == Some(&b'\n') {
                return Ok(None);
            }
            out[0] = b'\r';
            return Ok(Some(1));
        }
        if bytes.first() == Some(&b'\r') {
            self.input.consume(1);
            self.pending = true;
            return Ok(None);
        }
        let end = bytes.iter().position(|byte| *byte == b'\r');
        let count = end.unwrap_or(bytes.len()).min(out.len());
        out[..count].copy_from_slice(&bytes[..count]);
        self.input.consume(count);
        Ok(Some(count))
    }
}

impl<R: Read> Read for WithoutReturns<R> {
    fn read(&mut self, out: &mut [u8]) -> io::Result<usize> {
        if out.is_empty() {
            return Ok(0);
        }
        loop {
            match self.step(out) {
                Ok(Some(count)) => return Ok(count),
                Ok(None) => {}
                Err(error) if error.kind() == ErrorKind::Interrupted => {}
                Err(error) => return Err(error),
            }
        }
    }
}

#[cfg(test)]
mod tests {
    use super::*;

    #[test]
    fn returns_before_line_ends_go() {
        for (text, expected) in [
            ("a\r\nb\r\n", "a\nb\n"),
            ("a\nb\r\n", "a\nb\n"),
            ("a\r\r\nb\rc\r", "a\r\nb\rc\r"),
            ("", ""),
        ] {
            for size in 1..4 {
                let mut read = Vec::new();
                let input = BufReader::with_capacity(size, text.as_bytes());
                let mut input = WithoutReturns {
                    input: BufReader::with_capacity(size, input),
                    pending: false,
                };
                input.read_to_end(&mut read).expect("a slice is read");
                assert_eq!(read, expected.as_bytes(), "{text:?}");
            }
        }
    }
}
