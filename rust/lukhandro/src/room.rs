//! Which count or which buffer a call over lent slices refuses with 1: asked before the call, which takes the buffers.

use crate::cause::{Cause, too_large};
use crate::words::{
    Bounds, Built, Figures, Keep, LOG_PLACES, LOG_SIZES, MOST_MOVES, NUMBERS, State, Tables, TakeBack, Trial,
};
use crate::{MOST_ASKED, MOST_PAIRS};

/// A buffer by its name, how many places it has, and how many are asked.
type Length = (&'static str, usize, usize);

/// The first buffer that is too short.
fn short(lengths: &[Length]) -> Option<Cause> {
    let &(what, given, asked) = lengths.iter().find(|(_, given, asked)| given < asked)?;
    Some(Cause::Short { what, given, asked })
}

/// More of something than there may be.
fn many(what: &'static str, given: usize, most: usize) -> Option<Cause> {
    (given > most).then_some(Cause::TooMany { what, given, most })
}

/// What is wrong with the counts, or too short for them among tables and bounds.
fn of_model(tables: Tables<'_>, bounds: Bounds<'_>) -> Option<Cause> {
    let Tables { n, m, e, .. } = tables;
    too_large(n, m, e).or_else(|| {
        short(&[
            ("kinds", tables.kinds.len(), m),
            ("makes", tables.makes.len(), m),
            ("params", tables.params.len(), m),
            ("firsts", tables.firsts.len(), m),
            ("counts", tables.counts.len(), m),
            ("vars", tables.vars.len(), e),
            ("coefs", tables.coefs.len(), e),
            ("lows", bounds.lows.len(), n),
            ("highs", bounds.highs.len(), n),
        ])
    })
}

/// What is too short of what build fills: numbers, order, stored, reader_starts, reader_places, by their lengths.
fn of_built(Tables { n, m, e, .. }: Tables<'_>, lengths: [usize; 5]) -> Option<Cause> {
    let [numbers, order, stored, reader_starts, reader_places] = lengths;
    short(&[
        ("numbers", numbers, n),
        ("order", order, m),
        ("stored", stored, n),
        ("reader_starts", reader_starts, n + 1),
        ("reader_places", reader_places, e),
    ])
}

/// What [`build`](crate::lent::build) refuses with 1: a count, or a buffer that is too short; none if all fit.
///
/// ```
/// use lukhandro::lent::{self, Bounds, Built, LOG_SIZES, Tables};
///
/// let tables = Tables { n: 3, m: 0, e: 0, kinds: &[], makes: &[], params: &[], firsts: &[], counts: &[], vars: &[], coefs: &[] };
/// let bounds = Bounds { lows: &[0; 3], highs: &[9; 3] };
/// let built = Built {
///     numbers: &mut [0; 3],
///     order: &mut [],
///     stored: &mut [0; 3],
///     reader_starts: &mut [0; 3],
///     reader_places: &mut [],
///     reasons: &mut [0; 3],
///     log_sizes: &mut [0; LOG_SIZES],
/// };
/// let unfit = lent::unfit_for_build(tables, bounds, &[1, 2, 3], &built).expect("readers of three variables have four places");
/// assert_eq!(unfit.to_string(), "reader_starts has 3 places and needs 4: short by 1");
/// ```
#[must_use]
pub fn unfit_for_build(tables: Tables<'_>, bounds: Bounds<'_>, starts: &[i32], built: &Built<'_>) -> Option<Cause> {
    let Built { numbers, order, stored, reader_starts, reader_places, reasons, log_sizes } = built;
    let filled = [numbers.len(), order.len(), stored.len(), reader_starts.len(), reader_places.len()];
    let rest = [
        ("starts", starts.len(), tables.n),
        ("reasons", reasons.len(), tables.n),
        ("log_sizes", log_sizes.len(), LOG_SIZES),
    ];
    of_model(tables, bounds).or_else(|| of_built(tables, filled)).or_else(|| short(&rest))
}

/// What [`trial`](crate::lent::trial) refuses with 1; none if all fit.
#[must_use]
pub fn unfit_for_trial(tables: Tables<'_>, bounds: Bounds<'_>, lent: &Trial<'_>) -> Option<Cause> {
    let Trial { state, moved, asked, tried, .. } = lent;
    let State { numbers, order, stored, reader_starts, reader_places, reasons } = state;
    let filled = [numbers.len(), order.len(), stored.len(), reader_starts.len(), reader_places.len()];
    let rest = [
        ("reasons", reasons.len(), tables.n),
        ("move_vars", moved.vars.len(), moved.pairs),
        ("move_values", moved.values.len(), moved.pairs),
        ("asked_vars", asked.vars.len(), asked.asked),
        ("results", tried.results.len(), asked.asked),
        ("trial", tried.trial.len(), tables.n),
        ("flags", tried.flags.len(), tables.n),
        ("why", tried.why.len(), asked.asked),
    ];
    of_model(tables, bounds)
        .or_else(|| many("pairs in a move", moved.pairs, MOST_PAIRS))
        .or_else(|| many("variables asked", asked.asked, MOST_ASKED))
        .or_else(|| of_built(tables, filled))
        .or_else(|| short(&rest))
}

/// What [`keep`](crate::lent::keep) refuses with 1; none if all fit.
#[must_use]
pub fn unfit_for_keep(tables: Tables<'_>, bounds: Bounds<'_>, lent: &Keep<'_>) -> Option<Cause> {
    let Keep { numbers, order, stored, reader_starts, reader_places, moved, .. } = lent;
    let filled = [numbers.len(), order.len(), stored.len(), reader_starts.len(), reader_places.len()];
    let rest = [
        ("reasons", lent.reasons.len(), tables.n),
        ("move_vars", moved.vars.len(), moved.pairs),
        ("move_values", moved.values.len(), moved.pairs),
        ("flags", lent.flags.len(), tables.n),
        ("log_sizes", lent.log_sizes.len(), LOG_SIZES),
        ("log_vars", lent.log_vars.len(), LOG_PLACES),
        ("log_values", lent.log_values.len(), LOG_PLACES),
    ];
    of_model(tables, bounds)
        .or_else(|| many("pairs in a move", moved.pairs, MOST_PAIRS))
        .or_else(|| of_built(tables, filled))
        .or_else(|| short(&rest))
}

/// What [`take_back`](crate::lent::take_back) refuses with 1; none if all fit.
#[must_use]
pub fn unfit_for_take_back(tables: Tables<'_>, bounds: Bounds<'_>, lent: &TakeBack<'_>) -> Option<Cause> {
    let TakeBack { numbers, order, stored, reader_starts, reader_places, .. } = lent;
    let filled = [numbers.len(), order.len(), stored.len(), reader_starts.len(), reader_places.len()];
    let rest = [
        ("reasons", lent.reasons.len(), tables.n),
        ("flags", lent.flags.len(), tables.n),
        ("log_sizes", lent.log_sizes.len(), LOG_SIZES),
        ("log_vars", lent.log_vars.len(), LOG_PLACES),
        ("log_values", lent.log_values.len(), LOG_PLACES),
    ];
    of_model(tables, bounds).or_else(|| of_built(tables, filled)).or_else(|| short(&rest))
}

/// What [`figures`](crate::lent::figures) refuses with 1; none if all fit. What a trial of each move would refuse is only
/// counted there, and not looked at here.
#[must_use]
pub fn unfit_for_figures(lent: &Figures<'_>) -> Option<Cause> {
    let rest = [("move_pairs", lent.batch.pairs.len(), lent.batch.moves), ("by_number", lent.by_number.len(), NUMBERS)];
    many("moves in a batch", lent.batch.moves, MOST_MOVES).or_else(|| short(&rest))
}
