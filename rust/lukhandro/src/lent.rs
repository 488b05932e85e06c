//! The calls over lent slices, for callers who keep the buffers themselves.
//!
//! Any slices may be lent, of any length and with any content: a call looks at and changes only what lies inside them,
//! and refuses what does not fit. A slice may be longer than its count asks; what lies beyond is neither looked at nor
//! changed. A refused call changes nothing.

pub use crate::room::{unfit_for_build, unfit_for_figures, unfit_for_keep, unfit_for_take_back, unfit_for_trial};
use crate::sys::{self, FiguresOutcome, ListOutcome, MoveOutcome, Outcome, Part, ReadOutcome, SalvageOutcome};
pub use crate::words::{
    Asked, Batch, Bounds, BoundsMut, Built, Figures, Given, Keep, LOG_PLACES, LOG_SIZES, MOST_DEPARTURES, MOST_MOVES,
    MOST_WINDOWS, Move, NUMBERS, NamedWindows, Session, State, Tables, TablesMut, TakeBack, Totals, Trial, Trials,
    Tried, WindowRows, Windows,
};

/// Fills numbers, order, stored values, the index of readers and the reasons from tables and start values, and empties the
/// log; gives the evaluations, m. Refusals 1 to 7, and then 20.
#[rustfmt::skip]
pub fn build(session: &mut Session, tables: Tables<'_>, bounds: Bounds<'_>, starts: &[i32], built: Built<'_>) -> Outcome {
    let Tables { n, m, e, kinds, makes, params, firsts, counts, vars, coefs } = tables;
    let Bounds { lows, highs } = bounds;
    let Built { numbers, order, stored, reader_starts, reader_places, reasons, log_sizes } = built;
    sys::same_interface();
    // SAFETY: each pointer goes with the length of its own slice, and no slice that is written overlaps another.
    unsafe {
        sys::lukhandro_build(
            session, n, m, e,
            kinds.as_ptr(), kinds.len(), makes.as_ptr(), makes.len(), params.as_ptr(), params.len(),
            firsts.as_ptr(), firsts.len(), counts.as_ptr(), counts.len(), vars.as_ptr(), vars.len(),
            coefs.as_ptr(), coefs.len(), lows.as_ptr(), lows.len(), highs.as_ptr(), highs.len(),
            starts.as_ptr(), starts.len(),
            numbers.as_mut_ptr(), numbers.len(), order.as_mut_ptr(), order.len(),
            stored.as_mut_ptr(), stored.len(), reader_starts.as_mut_ptr(), reader_starts.len(),
            reader_places.as_mut_ptr(), reader_places.len(), reasons.as_mut_ptr(), reasons.len(),
            log_sizes.as_mut_ptr(), log_sizes.len(),
        )
    }
}

/// Tries a move by a route, and fills results and their reasons, trial values and flags; gives the evaluations. Refusals 1
/// to 13 without 6, and 17 and 19; then 21 and 20.
#[rustfmt::skip]
pub fn trial(session: &mut Session, tables: Tables<'_>, bounds: Bounds<'_>, lent: Trial<'_>) -> Outcome {
    let Tables { n, m, e, kinds, makes, params, firsts, counts, vars, coefs } = tables;
    let Bounds { lows, highs } = bounds;
    let Trial { state, moved, asked, route, tried } = lent;
    let State { numbers, order, stored, reader_starts, reader_places, reasons } = state;
    let Tried { results, trial, flags, why } = tried;
    sys::same_interface();
    // SAFETY: each pointer goes with the length of its own slice, and no slice that is written overlaps another.
    unsafe {
        sys::lukhandro_trial(
            session, n, m, e,
            kinds.as_ptr(), kinds.len(), makes.as_ptr(), makes.len(), params.as_ptr(), params.len(),
            firsts.as_ptr(), firsts.len(), counts.as_ptr(), counts.len(), vars.as_ptr(), vars.len(),
            coefs.as_ptr(), coefs.len(), lows.as_ptr(), lows.len(), highs.as_ptr(), highs.len(),
            numbers.as_ptr(), numbers.len(), order.as_ptr(), order.len(),
            stored.as_ptr(), stored.len(), reader_starts.as_ptr(), reader_starts.len(),
            reader_places.as_ptr(), reader_places.len(), reasons.as_ptr(), reasons.len(),
            moved.pairs, moved.vars.as_ptr(), moved.vars.len(), moved.values.as_ptr(), moved.values.len(),
            asked.asked, asked.vars.as_ptr(), asked.vars.len(), route,
            results.as_mut_ptr(), results.len(), trial.as_mut_ptr(), trial.len(), flags.as_mut_ptr(), flags.len(),
            why.as_mut_ptr(), why.len(),
        )
    }
}

/// Keeps a move by route 1: changes the stored values and reasons, fills the flags, and notes the move in the log; gives
/// the evaluations. Refusals 1 to 12 without 6 and 9, and 16, 17 and 19; then 21
/// and 20.
#[rustfmt::skip]
pub fn keep(session: &mut Session, tables: Tables<'_>, bounds: Bounds<'_>, lent: Keep<'_>) -> Outcome {
    let Tables { n, m, e, kinds, makes, params, firsts, counts, vars, coefs } = tables;
    let Bounds { lows, highs } = bounds;
    let Keep { numbers, order, stored, reader_starts, reader_places, reasons, .. } = lent;
    let Keep { moved, flags, log_sizes, log_vars, log_values, .. } = lent;
    sys::same_interface();
    // SAFETY: each pointer goes with the length of its own slice, and no slice that is written overlaps another.
    unsafe {
        sys::lukhandro_keep(
            session, n, m, e,
            kinds.as_ptr(), kinds.len(), makes.as_ptr(), makes.len(), params.as_ptr(), params.len(),
            firsts.as_ptr(), firsts.len(), counts.as_ptr(), counts.len(), vars.as_ptr(), vars.len(),
            coefs.as_ptr(), coefs.len(), lows.as_ptr(), lows.len(), highs.as_ptr(), highs.len(),
            numbers.as_ptr(), numbers.len(), order.as_ptr(), order.len(),
            stored.as_mut_ptr(), stored.len(), reader_starts.as_ptr(), reader_starts.len(),
            reader_places.as_ptr(), reader_places.len(), reasons.as_mut_ptr(), reasons.len(),
            moved.pairs, moved.vars.as_ptr(), moved.vars.len(), moved.values.as_ptr(), moved.values.len(),
            flags.as_mut_ptr(), flags.len(),
            log_sizes.as_mut_ptr(), log_sizes.len(), log_vars.as_mut_ptr(), log_vars.len(),
            log_values.as_mut_ptr(), log_values.len(),
        )
    }
}

/// Takes the latest kept move back by route 1: changes the stored values and reasons, fills the flags, and takes the move off
/// the log; gives the evaluations. Refusals 1 to 5, 7, 8, 16, 19, and 15 if the log holds no move; then
/// 21 and 20.
#[rustfmt::skip]
pub fn take_back(session: &mut Session, tables: Tables<'_>, bounds: Bounds<'_>, lent: TakeBack<'_>) -> Outcome {
    let Tables { n, m, e, kinds, makes, params, firsts, counts, vars, coefs } = tables;
    let Bounds { lows, highs } = bounds;
    let TakeBack { numbers, order, stored, reader_starts, reader_places, reasons, .. } = lent;
    let TakeBack { flags, log_sizes, log_vars, log_values, .. } = lent;
    sys::same_interface();
    // SAFETY: each pointer goes with the length of its own slice, and no slice that is written overlaps another.
    unsafe {
        sys::lukhandro_take_back(
            session, n, m, e,
            kinds.as_ptr(), kinds.len(), makes.as_ptr(), makes.len(), params.as_ptr(), params.len(),
            firsts.as_ptr(), firsts.len(), counts.as_ptr(), counts.len(), vars.as_ptr(), vars.len(),
            coefs.as_ptr(), coefs.len(), lows.as_ptr(), lows.len(), highs.as_ptr(), highs.len(),
            numbers.as_ptr(), numbers.len(), order.as_ptr(), order.len(),
            stored.as_mut_ptr(), stored.len(), reader_starts.as_ptr(), reader_starts.len(),
            reader_places.as_ptr(), reader_places.len(), reasons.as_mut_ptr(), reasons.len(),
            flags.as_mut_ptr(), flags.len(),
            log_sizes.as_mut_ptr(), log_sizes.len(), log_vars.as_ptr(), log_vars.len(),
            log_values.as_ptr(), log_values.len(),
        )
    }
}

/// Fills tables from a file; gives n, m and e. Refusal 14 for the header, then 1 for short tables.
#[rustfmt::skip]
pub fn read(bytes: &[u8], tables: TablesMut<'_>) -> ReadOutcome {
    let TablesMut { starts, kinds, makes, params, firsts, counts, vars, coefs } = tables;
    sys::same_interface();
    // SAFETY: each pointer goes with the length of its own slice, and no slice that is written overlaps another.
    unsafe {
        sys::lukhandro_read(
            bytes.as_ptr(), bytes.len(), starts.as_mut_ptr(), starts.len(),
            kinds.as_mut_ptr(), kinds.len(), makes.as_mut_ptr(), makes.len(), params.as_mut_ptr(), params.len(),
            firsts.as_mut_ptr(), firsts.len(), counts.as_mut_ptr(), counts.len(), vars.as_mut_ptr(), vars.len(),
            coefs.as_mut_ptr(), coefs.len(),
        )
    }
}

/// Fills the front of a byte buffer with the file of these tables and start values: 24 + 4n + 12m + 4e bytes.
/// Refusal 1.
#[rustfmt::skip]
pub fn write(tables: Tables<'_>, starts: &[i32], bytes: &mut [u8]) -> Outcome {
    let Tables { n, m, e, kinds, makes, params, firsts, counts, vars, coefs } = tables;
    sys::same_interface();
    // SAFETY: each pointer goes with the length of its own slice, and no slice that is written overlaps another.
    unsafe {
        sys::lukhandro_write(
            n, m, e, starts.as_ptr(), starts.len(),
            kinds.as_ptr(), kinds.len(), makes.as_ptr(), makes.len(), params.as_ptr(), params.len(),
            firsts.as_ptr(), firsts.len(), counts.as_ptr(), counts.len(), vars.as_ptr(), vars.len(),
            coefs.as_ptr(), coefs.len(), bytes.as_mut_ptr(), bytes.len(),
        )
    }
}

/// Fills the front of `file` with what is saved of a damaged file, and the front of `list` with the rows dropped and then
/// the variables whose start value is missing or reset; gives the length of the file and how many of each are listed.
/// 131,096 bytes and 8,192 places are room for everything. Refusal 14 for the header, then 1 for a short buffer.
pub fn salvage(bytes: &[u8], file: &mut [u8], list: &mut [u16]) -> SalvageOutcome {
    let (bytes_length, file_length, list_length) = (bytes.len(), file.len(), list.len());
    let (bytes, file, list) = (bytes.as_ptr(), file.as_mut_ptr(), list.as_mut_ptr());
    sys::same_interface();
    // SAFETY: each pointer goes with the length of its own slice, and no slice that is written overlaps another.
    unsafe { sys::lukhandro_salvage(bytes, bytes_length, file, file_length, list, list_length) }
}

/// Fills tables and bounds from a file of version 2. Refusal 14, then 1.
#[rustfmt::skip]
pub fn read_bounded(bytes: &[u8], tables: TablesMut<'_>, bounds: BoundsMut<'_>) -> ReadOutcome {
    let TablesMut { starts, kinds, makes, params, firsts, counts, vars, coefs } = tables;
    let BoundsMut { lows, highs } = bounds;
    sys::same_interface();
    // SAFETY: each pointer goes with the length of its own slice, and no slice that is written overlaps another.
    unsafe {
        sys::lukhandro_read_bounded(
            bytes.as_ptr(), bytes.len(), starts.as_mut_ptr(), starts.len(),
            kinds.as_mut_ptr(), kinds.len(), makes.as_mut_ptr(), makes.len(), params.as_mut_ptr(), params.len(),
            firsts.as_mut_ptr(), firsts.len(), counts.as_mut_ptr(), counts.len(), vars.as_mut_ptr(), vars.len(),
            coefs.as_mut_ptr(), coefs.len(), lows.as_mut_ptr(), lows.len(), highs.as_mut_ptr(), highs.len(),
        )
    }
}

/// Fills the front of a byte buffer with the file of version 2 of these tables, start values and bounds:
/// 28 + 12n + 12m + 4e bytes. Refusal 1.
#[rustfmt::skip]
pub fn write_bounded(tables: Tables<'_>, starts: &[i32], bounds: Bounds<'_>, bytes: &mut [u8]) -> Outcome {
    let Tables { n, m, e, kinds, makes, params, firsts, counts, vars, coefs } = tables;
    let Bounds { lows, highs } = bounds;
    sys::same_interface();
    // SAFETY: each pointer goes with the length of its own slice, and no slice that is written overlaps another.
    unsafe {
        sys::lukhandro_write_bounded(
            n, m, e, starts.as_ptr(), starts.len(),
            kinds.as_ptr(), kinds.len(), makes.as_ptr(), makes.len(), params.as_ptr(), params.len(),
            firsts.as_ptr(), firsts.len(), counts.as_ptr(), counts.len(), vars.as_ptr(), vars.len(),
            coefs.as_ptr(), coefs.len(), lows.as_ptr(), lows.len(), highs.as_ptr(), highs.len(),
            bytes.as_mut_ptr(), bytes.len(),
        )
    }
}

/// Fills the front of `file` with a file of version 1 as one of version 2, with full bounds; gives its length, 8n + 4 more
/// than before. Refusal 14 for the header, then 1 for a short buffer.
pub fn to_version_2(bytes: &[u8], file: &mut [u8]) -> MoveOutcome {
    sys::same_interface();
    // SAFETY: each pointer goes with the length of its own slice, and the two do not overlap.
    unsafe { sys::lukhandro_to_version_2(bytes.as_ptr(), bytes.len(), file.as_mut_ptr(), file.len()) }
}

/// Fills the front of `file` with a file of version 2 as one of version 1; gives its length. Refusal 14 for the header, then
/// 18 for the first variable whose bounds are not full, then 1 for a short buffer.
pub fn to_version_1(bytes: &[u8], file: &mut [u8]) -> MoveOutcome {
    sys::same_interface();
    // SAFETY: each pointer goes with the length of its own slice, and the two do not overlap.
    unsafe { sys::lukhandro_to_version_1(bytes.as_ptr(), bytes.len(), file.as_mut_ptr(), file.len()) }
}

/// Tries every move of a batch on the same stored values by each of the three routes and keeps none: fills the first 22
/// places of `by_number` with the moves accepted and those refused by each number, and gives the figures of the
/// accepted ones. Refusal 1 for more than 1,000 moves, fewer numbers of pairs than moves, or fewer than 22 places; a
/// move that is refused is only counted.
#[rustfmt::skip]
pub fn figures(session: &Session, tables: Tables<'_>, bounds: Bounds<'_>, lent: Figures<'_>) -> FiguresOutcome {
    let Tables { n, m, e, kinds, makes, params, firsts, counts, vars, coefs } = tables;
    let Bounds { lows, highs } = bounds;
    let Figures { numbers, order, stored, reader_starts, reader_places, batch, asked, by_number } = lent;
    sys::same_interface();
    // SAFETY: each pointer goes with the length of its own slice, and no slice that is written overlaps another.
    unsafe {
        sys::lukhandro_figures(
            session, n, m, e,
            kinds.as_ptr(), kinds.len(), makes.as_ptr(), makes.len(), params.as_ptr(), params.len(),
            firsts.as_ptr(), firsts.len(), counts.as_ptr(), counts.len(), vars.as_ptr(), vars.len(),
            coefs.as_ptr(), coefs.len(), lows.as_ptr(), lows.len(), highs.as_ptr(), highs.len(),
            numbers.as_ptr(), numbers.len(), order.as_ptr(), order.len(),
            stored.as_ptr(), stored.len(), reader_starts.as_ptr(), reader_starts.len(),
            reader_places.as_ptr(), reader_places.len(),
            batch.moves, batch.pairs.as_ptr(), batch.pairs.len(), batch.vars.as_ptr(), batch.vars.len(),
            batch.values.as_ptr(), batch.values.len(), asked, by_number.as_mut_ptr(), by_number.len(),
        )
    }
}

/// Merges the figures of two batches: fills `by_number` with the counts of both, and gives the figures of their moves as one
/// batch. The first outcome that is refused is the answer. Refusal 1 for a row of fewer than 22 places, counts that together
/// leave 32 bits, and a sum that is more than half as large as 64 bits hold; nothing is written then.
#[rustfmt::skip]
pub fn merge(
    [first, second]: [FiguresOutcome; 2], [first_by_number, second_by_number]: [&[u32]; 2], by_number: &mut [u32],
) -> FiguresOutcome {
    sys::same_interface();
    // SAFETY: each pointer goes with the length of its own slice, and no slice that is written overlaps another.
    unsafe {
        sys::lukhandro_merge(
            first, second, first_by_number.as_ptr(), first_by_number.len(),
            second_by_number.as_ptr(), second_by_number.len(), by_number.as_mut_ptr(), by_number.len(),
        )
    }
}

/// Tries every move on the same stored values by one route and keeps none: fills the rows with what each move is given, its
/// number, place, evaluations, results and reasons, as `trial` gives them, and gives the evaluations of all. A move that is
/// refused leaves its results and reasons. Refusal 1 for more than 1,000 moves, more than 32 asked variables or a short
/// buffer; every other refusal is a move's own.
#[rustfmt::skip]
pub fn trials(session: &Session, tables: Tables<'_>, bounds: Bounds<'_>, lent: Trials<'_>) -> Outcome {
    let Tables { n, m, e, kinds, makes, params, firsts, counts, vars, coefs } = tables;
    let Bounds { lows, highs } = bounds;
    let Trials { state, batch, asked, route, given } = lent;
    let State { numbers, order, stored, reader_starts, reader_places, reasons } = state;
    sys::same_interface();
    // SAFETY: each pointer goes with the length of its own slice, and no slice that is written overlaps another.
    unsafe {
        sys::lukhandro_trials(
            session, n, m, e,
            kinds.as_ptr(), kinds.len(), makes.as_ptr(), makes.len(), params.as_ptr(), params.len(),
            firsts.as_ptr(), firsts.len(), counts.as_ptr(), counts.len(), vars.as_ptr(), vars.len(),
            coefs.as_ptr(), coefs.len(), lows.as_ptr(), lows.len(), highs.as_ptr(), highs.len(),
            numbers.as_ptr(), numbers.len(), order.as_ptr(), order.len(),
            stored.as_ptr(), stored.len(), reader_starts.as_ptr(), reader_starts.len(),
            reader_places.as_ptr(), reader_places.len(), reasons.as_ptr(), reasons.len(),
            batch.moves, batch.pairs.as_ptr(), batch.pairs.len(), batch.vars.as_ptr(), batch.vars.len(),
            batch.values.as_ptr(), batch.values.len(), asked.asked, asked.vars.as_ptr(), asked.vars.len(), route,
            given.numbers.as_mut_ptr(), given.numbers.len(), given.places.as_mut_ptr(), given.places.len(),
            given.evaluations.as_mut_ptr(), given.evaluations.len(), given.results.as_mut_ptr(), given.results.len(),
            given.why.as_mut_ptr(), given.why.len(),
        )
    }
}

/// Fills the front of `list` with all departures of one trip's windows in time order; gives how many there are. The
/// refusals are the board's own, 1 to 5.
#[rustfmt::skip]
pub fn departures(windows: Windows<'_>, list: &mut [i32]) -> ListOutcome {
    let Windows { windows, starts, ends, headways } = windows;
    sys::same_interface();
    // SAFETY: each pointer goes with the length of its own slice, and no slice that is written overlaps another.
    unsafe {
        sys::lukhandro_departures(
            windows, starts.as_ptr(), starts.len(), ends.as_ptr(), ends.len(), headways.as_ptr(), headways.len(),
            list.as_mut_ptr(), list.len(),
        )
    }
}

/// Fills rows with the windows of a frequencies.txt, in the order of its lines; gives how many there are. The refusals are
/// the reader's own, 1 to 8, with the least line that offends as place, counted from 1.
#[rustfmt::skip]
pub fn frequencies(bytes: &[u8], rows: WindowRows<'_>) -> ListOutcome {
    let WindowRows { name_places, name_lengths, name_doubled, starts, ends, headways, exacts, lines } = rows;
    sys::same_interface();
    // SAFETY: each pointer goes with the length of its own slice, and no slice that is written overlaps another.
    unsafe {
        sys::lukhandro_frequencies(
            bytes.as_ptr(), bytes.len(), name_places.as_mut_ptr(), name_places.len(),
            name_lengths.as_mut_ptr(), name_lengths.len(), name_doubled.as_mut_ptr(), name_doubled.len(),
            starts.as_mut_ptr(), starts.len(), ends.as_mut_ptr(), ends.len(),
            headways.as_mut_ptr(), headways.len(), exacts.as_mut_ptr(), exacts.len(), lines.as_mut_ptr(), lines.len(),
        )
    }
}

/// Fills the front of `bytes` with the frequencies.txt of windows and the names of their trips; gives how long it is. The
/// refusals are the writer's own, 1 and 4 to 9, with the least window that offends as place, counted from 0.
#[rustfmt::skip]
pub fn write_frequencies(windows: NamedWindows<'_>, bytes: &mut [u8]) -> ListOutcome {
    let NamedWindows { windows, text, name_places, name_lengths, name_doubled, starts, ends, headways, exacts } = windows;
    sys::same_interface();
    // SAFETY: each pointer goes with the length of its own slice, and no slice that is written overlaps another.
    unsafe {
        sys::lukhandro_write_frequencies(
            windows, text.as_ptr(), text.len(), name_places.as_ptr(), name_places.len(),
            name_lengths.as_ptr(), name_lengths.len(), name_doubled.as_ptr(), name_doubled.len(),
            starts.as_ptr(), starts.len(), ends.as_ptr(), ends.len(),
            headways.as_ptr(), headways.len(), exacts.as_ptr(), exacts.len(), bytes.as_mut_ptr(), bytes.len(),
        )
    }
}

/// The part of the lent entries that a row's inputs are; none if there is no such row or its part ends after e.
pub fn part_of_row(m: usize, e: usize, firsts: &[u16], counts: &[u16], vars: &[u16], row: usize) -> Part {
    let (firsts_length, counts_length, vars_length) = (firsts.len(), counts.len(), vars.len());
    let (firsts, counts, vars) = (firsts.as_ptr(), counts.as_ptr(), vars.as_ptr());
    sys::same_interface();
    // SAFETY: each pointer goes with the length of its own slice, and nothing is written.
    unsafe { sys::lukhandro_inputs_of_row(m, e, firsts, firsts_length, counts, counts_length, vars, vars_length, row) }
}

/// The input variables of a row: that very part of the lent entries.
#[must_use]
pub fn inputs_of_row<'a>(m: usize, e: usize, firsts: &[u16], counts: &[u16], vars: &'a [u16], row: usize) -> &'a [u16] {
    let Part { first, count } = part_of_row(m, e, firsts, counts, vars, row);
    &vars[first..first + count]
}
