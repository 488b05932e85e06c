//! Why a value is blank.

use std::fmt;

/// Why a value is blank. Where several reasons hold the first of these counts: a blank input, the headway, the index, no
/// departures, the range.
///
/// ```
/// use lukhandro::Reason;
///
/// assert_eq!(Reason::of(3), Some(Reason::HeadwayNotPositive));
/// assert_eq!(Reason::HeadwayNotPositive.to_string(), "the headway is 0 or less");
/// ```
#[derive(Clone, Copy, Debug, PartialEq, Eq)]
#[repr(u8)]
pub enum Reason {
    /// The exact result lies outside the range of values.
    LeftRange = 1,
    /// The index of ELEMENT chooses none of the candidates.
    IndexOutside = 2,
    /// The headway of DEPARTURES or LAST is 0 or less.
    HeadwayNotPositive = 3,
    /// A blank input stopped the formula: in ELEMENT a blank index or a blank candidate that it chooses, in MIN and MAX all
    /// inputs are blank.
    BlankInput = 4,
    /// LAST has no departures.
    NoDepartures = 5,
}

impl Reason {
    /// The reason that a byte of a row stands for; none for 0, which says that there is a value, and for 6 and more.
    #[must_use]
    pub fn of(byte: u8) -> Option<Reason> {
        match byte {
            1 => Some(Reason::LeftRange),
            2 => Some(Reason::IndexOutside),
            3 => Some(Reason::HeadwayNotPositive),
            4 => Some(Reason::BlankInput),
            5 => Some(Reason::NoDepartures),
            _ => None,
        }
    }
}

impl fmt::Display for Reason {
    fn fmt(&self, f: &mut fmt::Formatter<'_>) -> fmt::Result {
        f.write_str(match self {
            Reason::LeftRange => "the result left the range of values",
            Reason::IndexOutside => "the index chooses none of the candidates",
            Reason::HeadwayNotPositive => "the headway is 0 or less",
            Reason::BlankInput => "a blank input stopped it",
            Reason::NoDepartures => "there are no departures",
        })
    }
}
