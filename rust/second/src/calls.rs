//! The calls over the session record: the checks in the specification's order, and then the work.

use std::ops::Range;

use crate::bounds::{bounds_fit, counted_bounds};
use crate::checks::{self, Makers, asked_fits, fits, move_fits, state_fits, tables_fit};
use crate::choices::Afresh;
use crate::log::{Log, LogMut, sizes_fit};
use crate::order::Numbered;
use crate::parts::{counted_move, counted_state, counted_tables};
use crate::readers::{self, Index, Readers};
use crate::{Refused, order, reasons, routes};
use lent::{Bounds, Built, Keep, Move, Session, State, Tables, TakeBack, Trial};

/// Fills numbers, order, stored values, the index of readers and the reasons, and empties the log; gives the number of
/// evaluations, m.
///
/// # Errors
/// Refusals 1 to 7, and 20.
pub fn build(
    session: &mut Session,
    tables: Tables<'_>,
    bounds: Bounds<'_>,
    starts: &[i32],
    built: Built<'_>,
) -> Result<u32, Refused> {
    let Tables { n, m, .. } = tables;
    let Built { numbers: lent_numbers, order, stored, reader_starts, reader_places, reasons, log_sizes } = built;
    let state = State { numbers: lent_numbers, order, stored, reader_starts, reader_places, reasons };
    fits(&[
        tables_fit(&tables) && bounds_fit(&bounds, n),
        starts.len() >= n,
        state_fits(&state, &tables),
        sizes_fit(log_sizes),
    ])?;
    let (tables, bounds) = (counted_tables(&tables), counted_bounds(&bounds, n));
    let makers = checks::tables(&tables, &bounds)?;
    let index = Index::of(&tables);
    let Numbered { numbers, chained } = order::numbers(&tables, &makers, index.readers())?;
    checks::starts(&makers, &bounds, &starts[..n])?;
    let fresh = chained.then(|| Afresh::of(&tables, &makers, index.readers(), &starts[..n]));
    checks::first(20, fresh.as_ref().and_then(Afresh::first_unknown))?;

    let (order, stored) = (&mut order[..m], &mut stored[..n]);
    index.copy_to(reader_starts, reader_places);
    lent_numbers[..n].copy_from_slice(&numbers);
    order::fill_order(&tables, &numbers, order);
    match fresh {
        Some(fresh) => stored.copy_from_slice(&fresh.values),
        None => {
            stored.copy_from_slice(&starts[..n]);
            routes::fill_values(&tables, order, stored);
        }
    }
    reasons::fill(&tables, stored, &mut reasons[..n]);
    log_sizes[0] = 0;
    *session = Session { kept: 0, evaluations: m as u32, blanks: checks::blanks(stored) };
    Ok(session.evaluations)
}

/// Tries a move by a route, and fills the asked values and their reasons, the trial values and the flags; gives the
/// evaluations.
///
/// # Errors
/// Refusals 1 to 13 without 6, 17 and 19, and then 21 and 20.
pub fn trial(session: &mut Session, tables: Tables<'_>, bounds: Bounds<'_>, lent: Trial<'_>) -> Result<u32, Refused> {
    let n = tables.n;
    let Trial { state, moved, asked, route, tried } = lent;
    fits(&[
        tables_fit(&tables) && bounds_fit(&bounds, tables.n) && state_fits(&state, &tables),
        move_fits(&moved) && asked_fits(&asked, &tried),
        tried.trial.len() >= n && tried.flags.len() >= n,
    ])?;
    let (tables, state, moved) = (counted_tables(&tables), counted_state(&state, &tables), counted_move(&moved));
    let bounds = counted_bounds(&bounds, tables.n);
    let asked = &asked.vars[..asked.asked];
    let Model { makers, chained } = model(session, &tables, &bounds, &state)?;
    checks::route(route)?;
    checks::pairs(&makers, &bounds, &moved)?;
    checks::asked(n, asked)?;
    let fresh = if chained { Some(new_values(&tables, &makers, &state, &moved)?) } else { None };

    let (values, flags) = (&mut tried.trial[..n], &mut tried.flags[..n]);
    values.copy_from_slice(state.stored);
    flags.fill(0);
    let changed = routes::make_move(&moved, values);
    let readers = Readers::lent(&state);
    session.evaluations = if let (1, Some(fresh)) = (route, fresh) {
        routes::flag_differing(&tables, state.stored, &fresh, flags);
        routes::take_over(&fresh, values, flags)
    } else if route == 1 {
        routes::sweep(&tables, state.order, readers, &changed, values, flags)
    } else {
        let waiting = if route == 2 { makers.clone() } else { routes::marked(&tables, readers, changed) };
        let mut asking = routes::Asking { tables: &tables, waiting, values, flags };
        asked.iter().map(|&variable| asking.ask(variable)).sum()
    };
    for ((result, why), &variable) in tried.results.iter_mut().zip(tried.why).zip(asked) {
        let variable = usize::from(variable);
        *result = values[variable];
        *why = match flags[variable] {
            1 => reasons::made_reason(&tables, makers[variable], values),
            _ => state.reasons[variable],
        };
    }
    Ok(session.evaluations)
}

/// Keeps a move by route 1: changes the stored values and their reasons, fills the flags, and notes the move in the log;
/// gives the evaluations.
///
/// # Errors
/// Refusals 1 to 12 without 6 and 9, 16, 17 and 19, and then 21 and 20.
pub fn keep(session: &mut Session, tables: Tables<'_>, bounds: Bounds<'_>, lent: Keep<'_>) -> Result<u32, Refused> {
    let Keep { numbers, order, stored, reader_starts, reader_places, reasons, .. } = lent;
    let Keep { moved, flags, log_sizes: sizes, log_vars: vars, log_values: values, .. } = lent;
    let state = State { numbers, order, stored, reader_starts, reader_places, reasons };
    let log = Log { sizes, vars, values };
    fits(&[
        tables_fit(&tables) && bounds_fit(&bounds, tables.n) && state_fits(&state, &tables),
        move_fits(&moved) && flags.len() >= tables.n,
        log.fits(),
    ])?;
    let (tables, state, moved) = (counted_tables(&tables), counted_state(&state, &tables), counted_move(&moved));
    let bounds = counted_bounds(&bounds, tables.n);
    let Model { makers, chained } = model(session, &tables, &bounds, &state)?;
    checks::pairs(&makers, &bounds, &moved)?;
    log.holds(&makers, &bounds, session.kept)?;
    let fresh = if chained { Some(new_values(&tables, &makers, &state, &moved)?) } else { None };

    LogMut { sizes, vars, values }.note(state.stored, &moved);
    let readers = Readers { starts: reader_starts, rows: reader_places };
    session.evaluations = change(&tables, order, readers, &moved, fresh, stored, flags);
    reasons::note(&tables, &makers, flags, stored, reasons);
    session.kept = session.kept.saturating_add(1);
    session.blanks = checks::blanks(&stored[..tables.n]);
    Ok(session.evaluations)
}

/// Takes the latest kept move back by route 1: its variables get the values that they had before it; changes the reasons,
/// fills the flags, and takes the move off the log. Gives the evaluations.
///
/// # Errors
/// Refusals 1 to 5, 8, 19, 7, 16, 15, 21 and 20.
pub fn take_back(
    session: &mut Session,
    tables: Tables<'_>,
    bounds: Bounds<'_>,
    lent: TakeBack<'_>,
) -> Result<u32, Refused> {
    let TakeBack { numbers, order, stored, reader_starts, reader_places, reasons, .. } = lent;
    let TakeBack { flags, log_sizes: sizes, log_vars: vars, log_values: values, .. } = lent;
    let state = State { numbers, order, stored, reader_starts, reader_places, reasons };
    let log = Log { sizes, vars, values };
    fits(&[
        tables_fit(&tables) && bounds_fit(&bounds, tables.n) && state_fits(&state, &tables),
        flags.len() >= tables.n,
        log.fits(),
    ])?;
    let (tables, state) = (counted_tables(&tables), counted_state(&state, &tables));
    let bounds = counted_bounds(&bounds, tables.n);
    let Model { makers, chained } = model(session, &tables, &bounds, &state)?;
    log.holds(&makers, &bounds, session.kept)?;
    let back = log.latest()?;
    let fresh = if chained { Some(new_values(&tables, &makers, &state, &back)?) } else { None };

    let readers = Readers { starts: reader_starts, rows: reader_places };
    session.evaluations = change(&tables, order, readers, &back, fresh, stored, flags);
    reasons::note(&tables, &makers, flags, stored, reasons);
    if session.kept < u32::MAX {
        session.kept -= 1;
    }
    session.blanks = checks::blanks(&stored[..tables.n]);
    sizes[0] -= 1;
    Ok(session.evaluations)
}

/// Makes a move in the stored values by route 1, and fills the flags; gives the evaluations. The new values are given if
/// the model has a closed chain.
fn change(
    tables: &Tables<'_>,
    order: &[u16],
    readers: Readers<'_>,
    moved: &Move<'_>,
    fresh: Option<Vec<i32>>,
    stored: &mut [i32],
    flags: &mut [u8],
) -> u32 {
    let (stored, flags) = (&mut stored[..tables.n], &mut flags[..tables.n]);
    flags.fill(0);
    if let Some(fresh) = fresh {
        routes::flag_differing(tables, stored, &fresh, flags);
        routes::make_move(moved, stored);
        routes::take_over(&fresh, stored, flags)
    } else {
        let changed = routes::make_move(moved, stored);
        routes::sweep(tables, &order[..tables.m], readers, &changed, stored, flags)
    }
}

/// Checks 21 and 20 of a model with a closed chain, and with them the new values of all variables.
fn new_values(tables: &Tables<'_>, makers: &[u16], state: &State<'_>, moved: &Move<'_>) -> Result<Vec<i32>, Refused> {
    let afresh = |search: &[i32]| Afresh::of(tables, makers, Readers::lent(state), search);
    checks::first(21, afresh(state.stored).first_other(state.stored))?;
    let mut search = state.stored.to_vec();
    routes::make_move(moved, &mut search);
    let new = afresh(&search);
    checks::first(20, new.first_unknown())?;
    Ok(new.values)
}

/// The part of the lent entries that a row's inputs are; from 0 to 0 if there is no such row or its part ends after e.
#[must_use]
pub fn part_of_row(m: usize, e: usize, firsts: &[u16], counts: &[u16], vars: &[u16], row: usize) -> Range<usize> {
    let part = || {
        let first = usize::from(*firsts.get(row)?);
        let end = first + usize::from(*counts.get(row)?);
        (row < m && end <= e && end <= vars.len()).then_some(first..end)
    };
    part().unwrap_or(0..0)
}

/// The input variables of a row: that very part.
#[must_use]
pub fn inputs_of_row<'a>(m: usize, e: usize, firsts: &[u16], counts: &[u16], vars: &'a [u16], row: usize) -> &'a [u16] {
    &vars[part_of_row(m, e, firsts, counts, vars, row)]
}

/// What the checks of a model find.
struct Model {
    makers: Makers,
    /// Whether it has a closed chain.
    chained: bool,
}

/// Checks 2 to 5, 8, 19 and 7, which trial, keep and taking back share, and with them what they find.
fn model(session: &Session, tables: &Tables<'_>, bounds: &Bounds<'_>, state: &State<'_>) -> Result<Model, Refused> {
    let makers = checks::tables(tables, bounds)?;
    let chained = order::holds(tables, &makers, state.numbers, state.order)?;
    readers::holds(tables, Readers::lent(state))?;
    checks::require(session.blanks == checks::blanks(state.stored), 19)?;
    checks::stored(&makers, bounds, state.stored)?;
    Ok(Model { makers, chained })
}
