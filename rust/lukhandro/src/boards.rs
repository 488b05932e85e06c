//! The departure board of one trip.

use std::fmt;

use crate::lent::{self, Windows};

/// A time window: a departure at its start and then after each headway, as long as that is before its end.
#[derive(Clone, Copy, Debug, PartialEq, Eq)]
pub struct Window {
    /// The first departure, if it is before the end.
    pub start: i32,
    /// When service ends or another headway begins; nothing departs at that time any more.
    pub end: i32,
    /// The time from one departure to the next, above 0.
    pub headway: i32,
}

/// Why a board was refused: the row is as it was.
///
/// ```
/// let refused = lukhandro::BoardRefused { number: 3, place: 1 };
/// assert_eq!(refused.to_string(), "board refused 3 1: window 1 overlaps another");
/// ```
#[derive(Clone, Copy, Debug, PartialEq, Eq)]
pub struct BoardRefused {
    /// Which check refused, 1 to 5.
    pub number: u32,
    /// The least window that offends, or 0.
    pub place: u32,
}

impl fmt::Display for BoardRefused {
    fn fmt(&self, f: &mut fmt::Formatter<'_>) -> fmt::Result {
        let BoardRefused { number, place } = self;
        write!(f, "board refused {number} {place}: ")?;
        match number {
            1 => write!(f, "there are more than 64 windows, or a row is shorter than they are many"),
            2 => write!(f, "window {place} has a blank number, or a headway of 0 or less"),
            3 => write!(f, "window {place} overlaps another"),
            4 => write!(f, "there are more than 2,000 departures"),
            5 => write!(f, "the row is shorter than the list"),
            _ => write!(f, "no check of a board has this number"),
        }
    }
}

impl std::error::Error for BoardRefused {}

/// Fills the front of `list` with all departures of one trip's windows in time order; gives how many there are. 2,000
/// places are room for any list; what lies beyond stays as it was.
///
/// ```
/// use lukhandro::{Window, departures};
///
/// // Every ten minutes from 7:00, and before that every twenty.
/// let peak = Window { start: 25200, end: 28800, headway: 600 };
/// let early = Window { start: 21600, end: 25200, headway: 1200 };
/// let mut list = [0; 2000];
/// let length = departures(&[peak, early], &mut list)?;
/// assert_eq!(list[..length], [21600, 22800, 24000, 25200, 25800, 26400, 27000, 27600, 28200]);
/// # Ok::<(), lukhandro::BoardRefused>(())
/// ```
///
/// # Errors
/// Refusals 1 to 5: more than 64 windows; a blank number or a headway of 0 or less; two windows that overlap; more than
/// 2,000 departures; a list with too few places.
pub fn departures(windows: &[Window], list: &mut [i32]) -> Result<usize, BoardRefused> {
    let row = |number: fn(&Window) -> i32| windows.iter().map(number).collect::<Vec<i32>>();
    let (starts, ends) = (row(|window| window.start), row(|window| window.end));
    let headways = row(|window| window.headway);
    let windows = Windows { windows: windows.len(), starts: &starts, ends: &ends, headways: &headways };
    lent::departures(windows, list).judged()
}
