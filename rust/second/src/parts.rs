//! What is lent, without what lies beyond the counts; and rows with their parts of the entries.

use lent::{Move, State, Tables};

/// One row, with its part of the entries.
#[derive(Clone, Copy)]
pub(crate) struct Row<'a> {
    pub kind: u16,
    pub makes: usize,
    pub parameter: i32,
    pub vars: &'a [u16],
    pub coefs: &'a [i16],
}

/// The tables without what lies beyond the counts. Check 1 has passed.
pub(crate) fn counted_tables<'a>(tables: &Tables<'a>) -> Tables<'a> {
    let (m, e) = (tables.m, tables.e);
    Tables {
        kinds: &tables.kinds[..m],
        makes: &tables.makes[..m],
        params: &tables.params[..m],
        firsts: &tables.firsts[..m],
        counts: &tables.counts[..m],
        vars: &tables.vars[..e],
        coefs: &tables.coefs[..e],
        ..*tables
    }
}

/// The state of a model of these counts, without what lies beyond them. Check 1 has passed.
pub(crate) fn counted_state<'a>(state: &State<'a>, tables: &Tables<'_>) -> State<'a> {
    let &Tables { n, m, e, .. } = tables;
    State {
        numbers: &state.numbers[..n],
        order: &state.order[..m],
        stored: &state.stored[..n],
        reader_starts: &state.reader_starts[..=n],
        reader_places: &state.reader_places[..e],
        reasons: &state.reasons[..n],
    }
}

/// The move without what lies beyond its count. Check 1 has passed.
pub(crate) fn counted_move<'a>(moved: &Move<'a>) -> Move<'a> {
    Move { vars: &moved.vars[..moved.pairs], values: &moved.values[..moved.pairs], ..*moved }
}

/// The pairs of a counted move, one after another.
pub(crate) fn pairs_of<'a>(moved: &Move<'a>) -> impl Iterator<Item = (usize, i32)> + use<'a> {
    moved.vars.iter().zip(moved.values).map(|(&variable, &value)| (usize::from(variable), value))
}

/// All rows, one after another, as their parts are. Check 3 has passed.
pub(crate) fn rows_of<'a>(tables: &Tables<'a>) -> impl Iterator<Item = Row<'a>> + use<'a> {
    let (mut vars, mut coefs) = (tables.vars, tables.coefs);
    let fields = tables.kinds.iter().zip(tables.makes).zip(tables.params).zip(tables.counts);
    fields.map(move |(((&kind, &makes), &parameter), &count)| {
        let (part, coefficients);
        (part, vars) = vars.split_at(usize::from(count));
        (coefficients, coefs) = coefs.split_at(usize::from(count));
        Row { kind, makes: usize::from(makes), parameter, vars: part, coefs: coefficients }
    })
}

/// The input variables of all rows, one row after another, each with its number. Check 3 has passed.
pub(crate) fn inputs_of<'a>(tables: &Tables<'a>) -> impl Iterator<Item = (u16, &'a [u16])> + use<'a> {
    let mut vars = tables.vars;
    (0..).zip(tables.counts).map(move |(row, &count)| {
        let part;
        (part, vars) = vars.split_at(usize::from(count));
        (row, part)
    })
}

/// A row of the tables. Check 3 has passed.
#[inline]
pub(crate) fn row_of<'a>(tables: &Tables<'a>, row: usize) -> Row<'a> {
    let first = usize::from(tables.firsts[row]);
    let part = first..first + usize::from(tables.counts[row]);
    Row {
        kind: tables.kinds[row],
        makes: usize::from(tables.makes[row]),
        parameter: tables.params[row],
        vars: &tables.vars[part.clone()],
        coefs: &tables.coefs[part],
    }
}
