//! The departure board: the departures of every window listed, and then sorted.

use crate::checks::{first, fits, require};
use crate::{BLANK, Refused};
use lent::{MOST_DEPARTURES, MOST_WINDOWS, Windows};

/// A window of a trip.
#[derive(Clone, Copy)]
struct Window {
    start: i32,
    end: i32,
    headway: i32,
}

impl Window {
    /// Whether its numbers are values and its headway is above 0.
    fn good(self) -> bool {
        ![self.start, self.end, self.headway].contains(&BLANK) && self.headway > 0
    }

    /// Whether each of the two starts before its own end and before the other's.
    fn overlaps(self, other: Window) -> bool {
        self.start.max(other.start) < self.end.min(other.end)
    }

    /// Its departures, one more than a board may have at most.
    fn departures(self) -> impl Iterator<Item = i32> {
        (self.start..self.end).step_by(self.headway as usize).take(MOST_DEPARTURES + 1)
    }
}

/// Fills the front of a row with all departures of the windows in time order; gives how many there are.
///
/// # Errors
/// Refusal 1 for more than 64 windows or too few numbers, 2 for a blank or a headway of 0 or less, 3 for two windows
/// that overlap, 4 for more than 2,000 departures, 5 for a row shorter than the list.
pub fn departures(windows: Windows<'_>, list: &mut [i32]) -> Result<usize, Refused> {
    let Windows { windows: count, starts, ends, headways } = windows;
    fits(&[count <= MOST_WINDOWS, [starts, ends, headways].iter().all(|row| row.len() >= count)])?;
    let window = |i: usize| Window { start: starts[i], end: ends[i], headway: headways[i] };
    let windows: Vec<Window> = (0..count).map(window).collect();
    first(2, windows.iter().position(|window| !window.good()))?;
    let clashes = |&i: &usize| (0..count).any(|j| i != j && windows[i].overlaps(windows[j]));
    first(3, (0..count).find(clashes))?;
    let mut departures: Vec<i32> = windows.iter().flat_map(|window| window.departures()).collect();
    require(departures.len() <= MOST_DEPARTURES, 4)?;
    require(departures.len() <= list.len(), 5)?;
    departures.sort_unstable();
    list[..departures.len()].copy_from_slice(&departures);
    Ok(departures.len())
}
