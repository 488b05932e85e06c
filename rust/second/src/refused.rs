//! What comes back when a call is refused.

use std::fmt;

/// A refusal: its number and the smallest offending index.
#[derive(Clone, Copy, Debug, PartialEq, Eq)]
pub struct Refused {
    /// 1 to 21.
    pub number: u32,
    /// The row, variable, pair, asked index or byte that offends.
    pub place: u32,
}

impl Refused {
    /// The refusal of this number at this place; every place is far below 2^32.
    pub(crate) fn at(number: u32, place: usize) -> Self {
        Refused { number, place: u32::try_from(place).unwrap_or(u32::MAX) }
    }
}

impl fmt::Display for Refused {
    fn fmt(&self, f: &mut fmt::Formatter<'_>) -> fmt::Result {
        write!(f, "refused {} {}", self.number, self.place)
    }
}

impl std::error::Error for Refused {}
