//! Checks 1 to 5, 7, 9 to 13 and 17: each over its whole input, the place the smallest offending index; and the blanks counted.

use crate::bounds::{allow, first_bad, first_outside};
use crate::formulas::{COUNT, DEPARTURES, ELEMENT, LAST, LINEAR, MAX, MIN, OVER, SHARED, suits};
use crate::parts::{Row, pairs_of, rows_of};
use crate::{BLANK, MOST_ASKED, MOST_ENTRIES, MOST_PAIRS, MOST_VARIABLES, Refused};
use lent::{Asked, Bounds, Move, State, Tables, Tried};

const MOST_COEFFICIENT: u16 = 1_000;
const MOST_PARAMETER: u32 = 1_000_000_000;

/// Which row makes each variable: one more than the row, 0 for a search variable.
pub(crate) type Makers = Vec<u16>;

/// Check 1 over parts of it that were judged: all must be good.
pub(crate) fn fits(good: &[bool]) -> Result<(), Refused> {
    require(good.iter().all(|&good| good), 1)
}

/// A check whose place is 0.
pub(crate) fn require(good: bool, number: u32) -> Result<(), Refused> {
    if good { Ok(()) } else { Err(Refused::at(number, 0)) }
}

/// A check whose place is the first index that offends, if one does.
pub(crate) fn first(number: u32, offends: Option<usize>) -> Result<(), Refused> {
    offends.map_or(Ok(()), |place| Err(Refused::at(number, place)))
}

/// Whether n, m and e are inside their bounds.
pub(crate) fn counts_fit(n: usize, m: usize, e: usize) -> bool {
    (1..=MOST_VARIABLES).contains(&n) && m <= n && e <= MOST_ENTRIES
}

/// Whether the counts are inside their bounds and no table is shorter than they ask.
pub(crate) fn tables_fit(tables: &Tables<'_>) -> bool {
    let Tables { n, m, e, kinds, makes, params, firsts, counts, vars, coefs } = tables;
    let rows = [kinds.len(), makes.len(), params.len(), firsts.len(), counts.len()];
    counts_fit(*n, *m, *e)
        && rows.iter().all(|length| length >= m)
        && [vars.len(), coefs.len()].iter().all(|length| length >= e)
}

/// Whether no buffer that build left is shorter than the counts ask.
pub(crate) fn state_fits(state: &State<'_>, tables: &Tables<'_>) -> bool {
    let State { numbers, order, stored, reader_starts, reader_places, reasons } = state;
    [numbers.len(), stored.len(), reader_starts.len().saturating_sub(1), reasons.len()]
        .iter()
        .all(|&length| length >= tables.n)
        && order.len() >= tables.m
        && reader_places.len() >= tables.e
}

/// Whether the number of pairs is inside its bound and no buffer is shorter.
pub(crate) fn move_fits(moved: &Move<'_>) -> bool {
    moved.pairs <= MOST_PAIRS && moved.vars.len() >= moved.pairs && moved.values.len() >= moved.pairs
}

/// Whether the number asked is inside its bound and no buffer is shorter.
pub(crate) fn asked_fits(asked: &Asked<'_>, tried: &Tried<'_>) -> bool {
    let rows = [asked.vars.len(), tried.results.len(), tried.why.len()];
    asked.asked <= MOST_ASKED && rows.iter().all(|&length| length >= asked.asked)
}

/// Checks 2 to 5, and with them the makers. The tables and the bounds hold no more than the counts ask.
pub(crate) fn tables(tables: &Tables<'_>, bounds: &Bounds<'_>) -> Result<Makers, Refused> {
    first(2, tables.kinds.iter().position(|kind| !(LINEAR..=LAST).contains(kind)))?;
    parts(tables)?;
    first(4, rows_of(tables).position(|row| !weighed(&row)))?;
    let (makers, again) = makers(tables);
    first(4, first_bad(&makers, bounds))?;
    first(5, again)?;
    Ok(makers)
}

/// Check 3: made variables, input counts, parts that follow one another up to e, and inputs.
fn parts(tables: &Tables<'_>) -> Result<(), Refused> {
    let all_known = all_below(tables.vars, tables.n);
    let mut reached = 0;
    for row in 0..tables.m {
        let count = usize::from(tables.counts[row]);
        let good = usize::from(tables.makes[row]) < tables.n
            && suits(tables.kinds[row], count)
            && usize::from(tables.firsts[row]) == reached
            && reached + count <= tables.e
            && (all_known || all_below(&tables.vars[reached..reached + count], tables.n));
        if !good {
            return Err(Refused::at(3, row));
        }
        reached += count;
    }
    if reached == tables.e { Ok(()) } else { Err(Refused::at(3, tables.m.saturating_sub(1))) }
}

/// Whether every variable is below n.
pub(crate) fn all_below(vars: &[u16], n: usize) -> bool {
    vars.iter().copied().max().is_none_or(|greatest| usize::from(greatest) < n)
}

/// Check 4 of one row: its coefficients and its parameter.
pub(crate) fn weighed(row: &Row<'_>) -> bool {
    let coefficients_of_one = || row.coefs.iter().all(|&coefficient| coefficient == 1);
    let parameter_fits = row.parameter.unsigned_abs() <= MOST_PARAMETER;
    match row.kind {
        LINEAR => parameter_fits && row.coefs.iter().all(|coefficient| coefficient.unsigned_abs() <= MOST_COEFFICIENT),
        COUNT => parameter_fits && coefficients_of_one(),
        MIN | MAX | ELEMENT | SHARED | OVER | DEPARTURES | LAST => row.parameter == 0 && coefficients_of_one(),
        _ => false,
    }
}

/// The makers, and the first row that makes a variable again, if one does.
fn makers(tables: &Tables<'_>) -> (Makers, Option<usize>) {
    let mut makers = vec![0; tables.n];
    let mut again = None;
    for (row, (&made, one_more)) in tables.makes.iter().zip(1..).enumerate() {
        let earlier = std::mem::replace(&mut makers[usize::from(made)], one_more);
        if earlier != 0 {
            again = again.or(Some(row));
        }
    }
    (makers, again)
}

/// Check 7 of a build: search variables have a start value within their bounds, made ones have 0.
pub(crate) fn starts(makers: &[u16], bounds: &Bounds<'_>, starts: &[i32]) -> Result<(), Refused> {
    first(7, first_outside(makers, bounds, starts, |start| start == 0))
}

/// Check 7 of trial, keep and taking back: search variables have a value within their bounds.
pub(crate) fn stored(makers: &[u16], bounds: &Bounds<'_>, stored: &[i32]) -> Result<(), Refused> {
    first(7, first_outside(makers, bounds, stored, |_| true))
}

/// How many values are blank, counted in 32 bits so that many are compared at once.
pub(crate) fn blanks(values: &[i32]) -> u32 {
    values.iter().map(|&value| u32::from(value == BLANK)).sum()
}

/// Check 9.
pub(crate) fn route(route: u32) -> Result<(), Refused> {
    require((1..=3).contains(&route), 9)
}

/// Checks 10 to 12, and 17.
pub(crate) fn pairs(makers: &[u16], bounds: &Bounds<'_>, moved: &Move<'_>) -> Result<(), Refused> {
    first(10, moved.vars.iter().position(|&variable| makers.get(usize::from(variable)) != Some(&0)))?;
    first(11, (0..moved.pairs).find(|&pair| moved.vars[..pair].contains(&moved.vars[pair])))?;
    first(12, moved.values.iter().position(|&value| value == BLANK))?;
    first(17, pairs_of(moved).position(|(variable, value)| !allow(bounds, variable, value)))
}

/// Check 13.
pub(crate) fn asked(n: usize, vars: &[u16]) -> Result<(), Refused> {
    first(13, vars.iter().position(|&variable| usize::from(variable) >= n))
}
