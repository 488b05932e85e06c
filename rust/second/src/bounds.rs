//! Bounds on what may be moved: the lowest and the highest allowed number of each variable.

use crate::{BLANK, HIGHEST, LOWEST};
use lent::Bounds;

/// Whether there are bounds of n variables.
pub(crate) fn bounds_fit(bounds: &Bounds<'_>, n: usize) -> bool {
    bounds.lows.len() >= n && bounds.highs.len() >= n
}

/// The bounds of n variables. Check 1 has passed.
pub(crate) fn counted_bounds<'a>(bounds: &Bounds<'a>, n: usize) -> Bounds<'a> {
    Bounds { lows: &bounds.lows[..n], highs: &bounds.highs[..n] }
}

/// The first variable whose bounds are not as they must be.
pub(crate) fn first_bad(makers: &[u16], bounds: &Bounds<'_>) -> Option<usize> {
    let all = || makers.iter().zip(bounds.lows).zip(bounds.highs).map(|((&maker, &low), &high)| good(maker, low, high));
    // Without a jump for each variable, many are looked at at once.
    if all().fold(true, |so_far, good| so_far & good) { None } else { all().position(|good| !good) }
}

/// Whether these are bounds of a variable with this maker: full, or for one that no row makes in order and not blank.
fn good(maker: u16, low: i32, high: i32) -> bool {
    let in_order = (low != BLANK) & (low <= high);
    let full = (low == LOWEST) & (high == HIGHEST);
    full | (in_order & (maker == 0))
}

/// The first search variable whose value its bounds do not allow, or made one that `made` does not. No bounds allow a blank.
pub(crate) fn first_outside(
    makers: &[u16],
    bounds: &Bounds<'_>,
    values: &[i32],
    made: impl Fn(i32) -> bool,
) -> Option<usize> {
    let bounded = makers.iter().zip(bounds.lows).zip(bounds.highs).zip(values);
    let all = || {
        bounded.clone().map(|(((&maker, &low), &high), &value)| {
            let within = (low <= value) & (value <= high);
            ((maker == 0) & within) | ((maker != 0) & made(value))
        })
    };
    if all().fold(true, |so_far, good| so_far & good) { None } else { all().position(|good| !good) }
}

/// Whether the bounds of a variable allow a number. There is such a variable.
pub(crate) fn allow(bounds: &Bounds<'_>, variable: usize, value: i32) -> bool {
    (bounds.lows[variable]..=bounds.highs[variable]).contains(&value)
}
