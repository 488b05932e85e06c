//! What many moves, tried at once, are given.

use crate::lent::Given;
use crate::{BLANK, Reason, Refused};

/// What each of many moves is given; none of them is kept.
#[derive(Clone, Debug, PartialEq, Eq)]
pub struct Tries {
    /// The evaluations of all moves together.
    pub evaluations: u32,
    asked: usize,
    numbers: Vec<u32>,
    places: Vec<u32>,
    counts: Vec<u32>,
    results: Vec<i32>,
    why: Vec<u8>,
}

/// What one accepted move of many is given.
#[derive(Clone, Copy, Debug, PartialEq, Eq)]
pub struct TriedMove<'a> {
    /// How many formulas were evaluated.
    pub evaluations: u32,
    /// The asked values in asking order; [`BLANK`] is no value.
    pub results: &'a [i32],
    /// The reasons of the asked values in asking order: 0 for one that is not blank, else the number of its [`Reason`].
    pub why: &'a [u8],
}

impl TriedMove<'_> {
    /// The value asked at this place; none if it is blank, or there is no such place.
    #[must_use]
    pub fn value(&self, place: usize) -> Option<i32> {
        self.results.get(place).copied().filter(|&value| value != BLANK)
    }

    /// Why the value asked at this place is blank; none if it is not, or there is no such place.
    #[must_use]
    pub fn reason(&self, place: usize) -> Option<Reason> {
        self.why.get(place).copied().and_then(Reason::of)
    }
}

impl Tries {
    /// Room for what so many moves are given, each asked for so many variables.
    pub(crate) fn room(moves: usize, asked: usize) -> Tries {
        let (row, all) = (vec![0; moves], moves * asked);
        let (numbers, places, counts) = (row.clone(), row.clone(), row);
        Tries { evaluations: 0, asked, numbers, places, counts, results: vec![0; all], why: vec![0; all] }
    }

    /// The rows, to be filled.
    pub(crate) fn lent(&mut self) -> Given<'_> {
        let Tries { numbers, places, counts, results, why, .. } = self;
        Given { numbers, places, evaluations: counts, results, why }
    }

    /// How many moves there are.
    #[must_use]
    pub fn len(&self) -> usize {
        self.numbers.len()
    }

    /// Whether there is no move.
    #[must_use]
    pub fn is_empty(&self) -> bool {
        self.numbers.is_empty()
    }

    /// What a move is given, or its refusal; none if there is no such move.
    #[must_use]
    pub fn of(&self, which: usize) -> Option<Result<TriedMove<'_>, Refused>> {
        let (number, place) = (*self.numbers.get(which)?, self.places[which]);
        let own = which * self.asked..(which + 1) * self.asked;
        let given =
            TriedMove { evaluations: self.counts[which], results: &self.results[own.clone()], why: &self.why[own] };
        Some(if number == 0 { Ok(given) } else { Err(Refused::new(number, place)) })
    }

    /// What each move is given, in their order.
    pub fn iter(&self) -> impl Iterator<Item = Result<TriedMove<'_>, Refused>> {
        (0..self.len()).filter_map(|which| self.of(which))
    }
}
