//! What a batch of moves comes to.

use crate::lent::{NUMBERS, Totals, merge};
use crate::sys::FiguresOutcome;
use crate::{BLANK, Refused};

/// A batch of moves in figures, before any is kept.
#[derive(Clone, Copy, Debug, PartialEq, Eq)]
pub struct Figures {
    /// The moves accepted, at place 0, and those refused with number k, at place k.
    pub by_number: [u32; NUMBERS],
    /// How many of the accepted moves leave the asked variable blank.
    pub blank: u32,
    /// The least value that an accepted move gives it; none if all leave it blank.
    pub least: Option<i32>,
    /// The greatest value that an accepted move gives it; none if all leave it blank.
    pub greatest: Option<i32>,
    /// The sum of these values.
    pub sum: i64,
    /// The evaluations of the accepted moves together, by each of the three routes.
    pub evaluations: [u32; 3],
}

impl Figures {
    /// How many moves were accepted.
    #[must_use]
    pub fn accepted(&self) -> u32 {
        self.by_number[0]
    }

    /// How many moves were refused, with whatever number.
    #[must_use]
    pub fn refused(&self) -> u32 {
        self.by_number[1..].iter().sum()
    }

    /// The figures of two batches together, those of the batches joined; none if a count leaves 32 bits, or a sum is more than
    /// half as large as 64 bits hold.
    ///
    /// ```
    /// use lukhandro::{Model, Row};
    ///
    /// let rows = [Row::departures(3, 0, 1, 2), Row::linear(4, 2, &[(3, 4)])];
    /// let sheet = Model::build(&[25200, 28800, 600, 0, 0], &rows)?;
    /// let moves = [360, 720, 900, 0, -1].map(|headway| [(2, headway)]);
    /// let (first, second) = moves.split_at(3);
    /// let parts = sheet.figures(first, 4)?.merge(&sheet.figures(second, 4)?);
    /// assert_eq!(parts, Some(sheet.figures(&moves, 4)?));
    /// # Ok::<(), lukhandro::Refused>(())
    /// ```
    #[must_use]
    pub fn merge(&self, other: &Figures) -> Option<Figures> {
        let mut by_number = [0; NUMBERS];
        let parts = [self, other];
        let totals = merge(parts.map(Figures::outcome), parts.map(|part| &part.by_number[..]), &mut by_number).judged();
        Figures::of(by_number, totals).ok()
    }

    /// The outcome that has these figures.
    fn outcome(&self) -> FiguresOutcome {
        let Figures { blank, sum, evaluations: [first, second, third], .. } = *self;
        let [least, greatest] = [self.least, self.greatest].map(|result| result.unwrap_or(BLANK));
        FiguresOutcome { number: 0, place: 0, blank, least, greatest, sum, first, second, third }
    }

    /// The figures that a call gave.
    pub(crate) fn of(by_number: [u32; NUMBERS], totals: Result<Totals, Refused>) -> Result<Figures, Refused> {
        let Totals { blank, least, greatest, sum, first, second, third } = totals?;
        let [least, greatest] = [least, greatest].map(|result| Some(result).filter(|&result| result != BLANK));
        Ok(Figures { by_number, blank, least, greatest, sum, evaluations: [first, second, third] })
    }
}
