//! Slices with canaries.

/// A slice with canaries past its end.
pub struct Lent<T> {
    entries: Vec<T>,
    length: usize,
    canary: T,
}

const CANARIES: usize = 64;

impl<T: Copy + PartialEq + std::fmt::Debug> Lent<T> {
    pub fn new(entries: Vec<T>, canary: T) -> Lent<T> {
        let length = entries.len();
        let mut entries = entries;
        entries.resize(length + CANARIES, canary);
        Lent {
            entries,
            length,
            canary,
        }
    }

    pub fn slice(&mut self) -> &mut [T] {
        &mut self.entries[..self.length]
    }

    /// The slice holds this, and no canary was touched.
    pub fn holds(&self, expected: &[T]) {
        assert_eq!(&self.entries[..self.length], expected);
        assert_eq!(&self.entries[self.length..], &[self.canary; CANARIES]);
    }
}
