//! Why a call was refused.

use std::fmt;

use crate::Cause;

/// A refusal: nothing that was lent has changed. Two refusals are equal if their numbers and places are.
///
/// The calls of a [`Model`](crate::Model), and those on files, look into the data for the cause and say it; without one
/// the sentence names all that the number stands for.
///
/// ```
/// use lukhandro::{Model, Refused, Row};
///
/// let refused = Refused::new(5, 3);
/// assert_eq!(refused.to_string(), "refused 5 3: row 3 makes a variable that an earlier row makes already");
///
/// let twice = [Row::min(1, &[0]), Row::max(1, &[0])];
/// let refused = Model::build(&[7, 0], &twice).unwrap_err();
/// assert_eq!(refused.to_string(), "refused 5 1: row 1 makes variable 1, which row 0 makes already");
/// ```
#[derive(Clone, Copy, Debug)]
#[non_exhaustive]
pub struct Refused {
    /// Which check refused, 1 to 21.
    pub number: u32,
    /// The smallest row, variable, pair, asked place or byte that offends.
    pub place: u32,
    /// Which of the alternatives of that number it was, if the data was looked at.
    pub cause: Option<Cause>,
}

impl Refused {
    /// A refusal of which only number and place are known.
    #[must_use]
    pub const fn new(number: u32, place: u32) -> Refused {
        Refused { number, place, cause: None }
    }
}

impl PartialEq for Refused {
    fn eq(&self, other: &Refused) -> bool {
        (self.number, self.place) == (other.number, other.place)
    }
}

impl Eq for Refused {}

impl fmt::Display for Refused {
    fn fmt(&self, f: &mut fmt::Formatter<'_>) -> fmt::Result {
        let Refused { number, place, cause } = self;
        write!(f, "refused {number} {place}: ")?;
        if let Some(cause) = cause {
            return cause.fmt(f);
        }
        match number {
            1 => write!(f, "a count is outside its bound, or a buffer is shorter than the counts ask"),
            2 => write!(f, "row {place} has a kind that is none of the nine formulas"),
            3 => write!(
                f,
                "row {place} names a variable that is not there, has a number of inputs that its kind does not take, or its entries are not the next ones"
            ),
            4 => write!(
                f,
                "row {place} has a coefficient or a parameter outside its bound; or if no row has, variable {place} has bounds that are blank, not in order, or not full though a row makes it"
            ),
            5 => write!(f, "row {place} makes a variable that an earlier row makes already"),
            6 => write!(
                f,
                "variable {place} depends on itself by a closed chain that passes no candidate of an ELEMENT, or the index of one"
            ),
            7 => write!(
                f,
                "variable {place} has no value or one outside its bounds and no row makes it, or a row makes it and it starts at another value than 0"
            ),
            8 => write!(f, "the numbers, the order or the readers are not those that build gives for these tables"),
            9 => write!(f, "there is no such route: it is 1, 2 or 3"),
            10 => write!(f, "pair {place} of the move names a variable that a row makes, or one that is not there"),
            11 => write!(f, "pair {place} of the move names the variable of an earlier pair"),
            12 => write!(f, "pair {place} of the move has no value"),
            13 => write!(f, "place {place} of the asked list names a variable that is not there"),
            14 => write!(f, "the file is no whole model file of the version asked for: it is wrong at byte {place}"),
            15 => write!(f, "no kept move is left to take back"),
            16 => write!(f, "the log of kept moves is not one that keep and taking back may leave within these bounds"),
            17 => write!(f, "pair {place} of the move has a value outside its variable's bounds"),
            18 => write!(f, "variable {place} has bounds that a file of version 1 cannot hold"),
            19 => write!(f, "the record's number of blanks is not that of the stored values"),
            20 => write!(
                f,
                "variable {place} cannot be worked out: the candidates that are chosen lead round a closed chain"
            ),
            21 => write!(
                f,
                "variable {place} has another stored value than the one worked out afresh, in a model with a closed chain"
            ),
            _ => write!(f, "no check has this number"),
        }
    }
}

impl std::error::Error for Refused {}
