//! The nine formulas, over a row's part of the entries and a row of values.

use crate::parts::Row;
use crate::{BLANK, MOST_INPUTS};

pub(crate) const LINEAR: u16 = 1;
pub(crate) const MIN: u16 = 2;
pub(crate) const MAX: u16 = 3;
pub(crate) const ELEMENT: u16 = 4;
pub(crate) const SHARED: u16 = 5;
pub(crate) const COUNT: u16 = 6;
pub(crate) const OVER: u16 = 7;
pub(crate) const DEPARTURES: u16 = 8;
pub(crate) const LAST: u16 = 9;

/// Whether a formula of this kind takes this many inputs.
pub(crate) fn suits(kind: u16, inputs: usize) -> bool {
    match kind {
        LINEAR | MIN | MAX | SHARED | COUNT => (1..=MOST_INPUTS).contains(&inputs),
        ELEMENT => (2..=MOST_INPUTS).contains(&inputs),
        OVER => inputs == 2,
        DEPARTURES | LAST => inputs == 3,
        _ => false,
    }
}

/// The value of a row's formula over these values.
#[inline]
pub(crate) fn row_value(row: &Row<'_>, values: &[i32]) -> i32 {
    match row.kind {
        LINEAR => linear(row, values),
        MIN => least(row, values),
        MAX => greatest(row, values),
        ELEMENT => element(row, values),
        SHARED => shared(row, values),
        COUNT => count(row, values),
        OVER => over(input(row, values, 0), input(row, values, 1)),
        DEPARTURES => departures(window(row, values)),
        LAST => last(window(row, values)),
        _ => BLANK,
    }
}

/// The place in an ELEMENT row's part of the candidate that its index chooses, if it chooses one.
#[inline]
pub(crate) fn chosen(row: &Row<'_>, values: &[i32]) -> Option<usize> {
    let index = usize::try_from(input(row, values, 0)).ok()?;
    (index + 1 < row.vars.len()).then_some(index + 1)
}

/// The value at one place of a row's part.
#[inline]
pub(crate) fn input(row: &Row<'_>, values: &[i32], place: usize) -> i32 {
    values[usize::from(row.vars[place])]
}

/// The values of a row's inputs in turn.
#[inline]
pub(crate) fn inputs<'a>(row: &Row<'a>, values: &'a [i32]) -> impl Iterator<Item = i32> + 'a {
    row.vars.iter().map(move |&variable| values[usize::from(variable)])
}

/// An exact result as a value: blank outside the range.
fn in_range(exact: i64) -> i32 {
    i32::try_from(exact).unwrap_or(BLANK)
}

fn linear(row: &Row<'_>, values: &[i32]) -> i32 {
    let mut sum = i64::from(row.parameter);
    let mut blank = false;
    for (value, &coefficient) in inputs(row, values).zip(row.coefs) {
        blank |= value == BLANK;
        sum += i64::from(coefficient) * i64::from(value);
    }
    if blank { BLANK } else { in_range(sum) }
}

/// The least input that has a value.
fn least(row: &Row<'_>, values: &[i32]) -> i32 {
    inputs(row, values).filter(|&value| value != BLANK).min().unwrap_or(BLANK)
}

/// The greatest input that has a value: blank is below every value, so it is the greatest only if all are blank.
fn greatest(row: &Row<'_>, values: &[i32]) -> i32 {
    inputs(row, values).max().unwrap_or(BLANK)
}

fn element(row: &Row<'_>, values: &[i32]) -> i32 {
    chosen(row, values).map_or(BLANK, |place| input(row, values, place))
}

/// How many places hold a value that another place also holds: the lengths of runs of two or more, once sorted.
fn shared(row: &Row<'_>, values: &[i32]) -> i32 {
    let mut room = [0; MOST_INPUTS];
    let held = &mut room[..row.vars.len()];
    for (place, value) in held.iter_mut().zip(inputs(row, values)) {
        *place = value;
    }
    held.sort_unstable();
    if held.first() == Some(&BLANK) {
        return BLANK;
    }
    held.chunk_by(|a, b| a == b).map(<[i32]>::len).filter(|&places| places > 1).sum::<usize>() as i32
}

fn count(row: &Row<'_>, values: &[i32]) -> i32 {
    let (mut equal, mut blank) = (0, false);
    for value in inputs(row, values) {
        blank |= value == BLANK;
        equal += i32::from(value == row.parameter);
    }
    if blank { BLANK } else { equal }
}

fn over(a: i32, b: i32) -> i32 {
    if a == BLANK || b == BLANK { BLANK } else { in_range((i64::from(a) - i64::from(b)).max(0)) }
}

/// A window of service: from `start` every `headway` until strictly before `end`.
struct Window {
    start: i64,
    end: i64,
    headway: i64,
}

/// The window that a row's three inputs give, unless one is blank or the headway is 0 or less.
fn window(row: &Row<'_>, values: &[i32]) -> Option<Window> {
    let [start, end, headway] = [0, 1, 2].map(|place| input(row, values, place));
    let usable = start != BLANK && end != BLANK && headway > 0;
    usable.then(|| Window { start: start.into(), end: end.into(), headway: headway.into() })
}

impl Window {
    /// The number of departures, exact.
    fn departures(&self) -> i64 {
        let length = (self.end - self.start).max(0);
        (length + self.headway - 1) / self.headway
    }
}

fn departures(window: Option<Window>) -> i32 {
    window.map_or(BLANK, |window| in_range(window.departures()))
}

fn last(window: Option<Window>) -> i32 {
    let Some(window) = window else { return BLANK };
    match window.departures() {
        0 => BLANK,
        departures => in_range(window.start + (departures - 1) * window.headway),
    }
}
