//! Numbers in a file of cases: two or four bytes, the lowest first; and rows that are parts of a pool.

use crate::{Element, Guarded};

/// Bytes that are read from the front.
#[derive(Debug)]
pub(crate) struct Numbers<'a> {
    bytes: &'a [u8],
}

impl<'a> Numbers<'a> {
    /// These bytes, none read yet.
    pub(super) fn of(bytes: &'a [u8]) -> Self {
        Numbers { bytes }
    }

    /// Whether all are read.
    pub(super) fn is_empty(&self) -> bool {
        self.bytes.is_empty()
    }

    /// The next so many bytes.
    pub(super) fn take(&mut self, length: usize) -> &'a [u8] {
        let (front, rest) = self.bytes.split_at_checked(length).expect("a file of cases does not break off");
        self.bytes = rest;
        front
    }

    /// The next so many bytes, to be read on their own.
    pub(super) fn part(&mut self, length: usize) -> Numbers<'a> {
        Numbers::of(self.take(length))
    }

    /// The next so many bytes as text.
    pub(super) fn text(&mut self, length: usize) -> &'a str {
        std::str::from_utf8(self.take(length)).expect("a name")
    }

    /// The next number of two bytes.
    pub(super) fn half(&mut self) -> usize {
        u16::receive(self.take(2)).into()
    }

    /// The next numbers of two bytes.
    pub(super) fn halves<const COUNT: usize>(&mut self) -> [usize; COUNT] {
        std::array::from_fn(|_| self.half())
    }

    /// The next numbers of four bytes.
    pub(super) fn words<const COUNT: usize>(&mut self) -> [u32; COUNT] {
        std::array::from_fn(|_| self.take(4).iter().rev().fold(0, |word, &byte| word << 8 | u32::from(byte)))
    }

    /// The next so many numbers, as a row.
    pub(super) fn row<T: Element>(&mut self, count: usize) -> Vec<T> {
        filled(self.take(count * size_of::<T>()), count)
    }
}

/// A row of so many numbers: those that the bytes are, and zeros behind them.
pub(super) fn filled<T: Element>(bytes: &[u8], length: usize) -> Vec<T> {
    let (held, left) = (bytes.chunks_exact(size_of::<T>()), bytes.len() % size_of::<T>());
    assert!(left == 0 && held.len() <= length, "no more numbers than the row has places");
    let mut row: Vec<T> = held.map(T::receive).collect();
    row.resize(length, T::default());
    row
}

/// Where a row starts in its pool, and how long it is.
pub(super) type Place = [usize; 2];

/// The part of a pool at a place, as a row that is lent.
pub(super) fn part<T: Element>(pool: &[T], [start, length]: Place) -> Guarded<T> {
    pool[start..start + length].to_vec().into()
}
