//! The log of kept moves: for each of the latest, at most 64, its variables with the values that they had before it.
//!
//! Three lent rows: the number of moves and then the pairs of each, the oldest first; the variables; the values. Each
//! move has a stretch of 64 places in the last two.

use crate::bounds::allow;
use crate::checks::require;
use crate::parts::pairs_of;
use crate::{MOST_LOGGED, MOST_PAIRS, Refused};
use lent::{Bounds, LOG_PLACES, LOG_SIZES, Move};

/// A log that is looked at.
#[derive(Clone, Copy)]
pub(crate) struct Log<'a> {
    pub sizes: &'a [u16],
    pub vars: &'a [u16],
    pub values: &'a [i32],
}

impl<'a> Log<'a> {
    /// Whether no row is shorter than 64 moves of 64 pairs ask.
    pub(crate) fn fits(&self) -> bool {
        sizes_fit(self.sizes) && self.vars.len() >= LOG_PLACES && self.values.len() >= LOG_PLACES
    }

    /// How many moves it holds, as it says.
    fn moves(&self) -> usize {
        usize::from(self.sizes[0])
    }

    /// The moves that take its moves back, the oldest first; none in the place of one with too many pairs. It holds no
    /// more than 64.
    fn backs(self) -> impl DoubleEndedIterator<Item = Option<Move<'a>>> {
        let stretches = self.vars.chunks_exact(MOST_PAIRS).zip(self.values.chunks_exact(MOST_PAIRS));
        let sizes = &self.sizes[1..=self.moves()];
        sizes.iter().zip(stretches.take(sizes.len())).map(|(&size, (vars, values))| {
            let pairs = usize::from(size);
            Some(Move { pairs, vars: vars.get(..pairs)?, values: values.get(..pairs)? })
        })
    }

    /// Check 16: no more moves than 64 or than were kept, each of at most 64 pairs, of search variables that are there,
    /// none twice, and every value within its bounds, which allow no blank.
    pub(crate) fn holds(&self, makers: &[u16], bounds: &Bounds<'_>, kept: u32) -> Result<(), Refused> {
        let few = self.moves() <= MOST_LOGGED && u32::from(self.sizes[0]) <= kept;
        require(few, 16)?;
        let mut names = Names { makers, bounds, last: vec![0; makers.len()] };
        let mut numbered = (1..).zip(self.backs());
        require(numbered.all(|(number, back)| back.is_some_and(|back| names.all_good(number, &back))), 16)
    }

    /// Check 15, and with it the move that takes the latest one back. Check 16 has passed.
    pub(crate) fn latest(&self) -> Result<Move<'a>, Refused> {
        self.backs().next_back().flatten().ok_or(Refused::at(15, 0))
    }
}

/// Whether the sizes alone are long enough.
pub(crate) fn sizes_fit(sizes: &[u16]) -> bool {
    sizes.len() >= LOG_SIZES
}

/// Which variables the moves name: for each the last move that named it, from 1, or 0.
struct Names<'a> {
    makers: &'a [u16],
    bounds: &'a Bounds<'a>,
    last: Vec<u8>,
}

impl Names<'_> {
    /// Whether this move names search variables, each once, and gives each a value that its bounds allow.
    fn all_good(&mut self, number: u8, back: &Move<'_>) -> bool {
        let mut named = |&variable: &u16| {
            let variable = usize::from(variable);
            self.makers.get(variable) == Some(&0) && std::mem::replace(&mut self.last[variable], number) != number
        };
        back.vars.iter().all(&mut named) && pairs_of(back).all(|(variable, value)| allow(self.bounds, variable, value))
    }
}

/// A log to be changed.
pub(crate) struct LogMut<'a> {
    pub sizes: &'a mut [u16],
    pub vars: &'a mut [u16],
    pub values: &'a mut [i32],
}

impl LogMut<'_> {
    /// Notes a move over the values before it; of 64 moves the oldest goes, and all that stands behind it moves up by
    /// one move. Checks 10 to 12, 17 and 16 have passed.
    pub(crate) fn note(&mut self, stored: &[i32], moved: &Move<'_>) {
        let mut before = usize::from(self.sizes[0]);
        if before == MOST_LOGGED {
            self.sizes.copy_within(1..LOG_SIZES, 0);
            self.vars.copy_within(MOST_PAIRS..LOG_PLACES, 0);
            self.values.copy_within(MOST_PAIRS..LOG_PLACES, 0);
            before -= 1;
        }
        let stretch = MOST_PAIRS * before..MOST_PAIRS * before + moved.pairs;
        self.vars[stretch.clone()].copy_from_slice(moved.vars);
        for (value, &variable) in self.values[stretch].iter_mut().zip(moved.vars) {
            *value = stored[usize::from(variable)];
        }
        self.sizes[0] = before as u16 + 1;
        self.sizes[before + 1] = moved.pairs as u16;
    }
}
