//! A batch of moves in figures: each move tried by each route, and what came of it added up.

use crate::checks::fits;
use crate::{BLANK, MOST_VARIABLES, Refused, trial};
use lent::{Asked, Batch, Bounds, Figures, MOST_MOVES, Move, NUMBERS, Session, State, Tables, Totals, Trial, Tried};

/// Tries every move on the same stored values and a copy of the record, counts them by number in `by_number`, and gives
/// the figures of the accepted ones.
///
/// # Errors
/// Refusal 1 for more than 1,000 moves or a short buffer; a refused move is only counted.
pub fn figures(
    session: &Session,
    tables: Tables<'_>,
    bounds: Bounds<'_>,
    lent: Figures<'_>,
) -> Result<Totals, Refused> {
    let Figures { numbers, order, stored, reader_starts, reader_places, batch, asked, by_number } = lent;
    fits(&[batch.moves <= MOST_MOVES, batch.pairs.len() >= batch.moves, by_number.len() >= NUMBERS])?;
    let reasons = vec![0; tables.n.min(MOST_VARIABLES)];
    let state = State { numbers, order, stored, reader_starts, reader_places, reasons: &reasons };
    let by_routes = |moved| [1, 2, 3].map(|route| tried(*session, tables, bounds, state, moved, asked, route));
    let outcomes: Vec<[Result<(i32, u32), Refused>; 3]> = moves_of(&batch).into_iter().map(by_routes).collect();

    let by_first_route = || outcomes.iter().map(|[first, ..]| *first);
    for (number, place) in (0..).zip(&mut by_number[..NUMBERS]) {
        let counted = |came: &Result<(i32, u32), Refused>| came.map_or_else(|refused| refused.number, |_| 0) == number;
        *place = by_first_route().filter(counted).count() as u32;
    }
    let results: Vec<i32> = by_first_route().flatten().map(|(result, _)| result).collect();
    let values = || results.iter().copied().filter(|&result| result != BLANK);
    let evaluations = |route: usize| outcomes.iter().flat_map(|tried| tried[route]).map(|(_, count)| count).sum();
    Ok(Totals {
        blank: results.iter().filter(|&&result| result == BLANK).count() as u32,
        least: values().min().unwrap_or(BLANK),
        greatest: values().max().unwrap_or(BLANK),
        sum: values().map(i64::from).sum(),
        first: evaluations(0),
        second: evaluations(1),
        third: evaluations(2),
    })
}

/// The figures of two batches together, and their moves counted by number in `by_number`. A batch that was refused has no
/// figures: the first such refusal is the answer.
///
/// # Errors
/// That refusal; refusal 1 for a short buffer, counts that together leave 32 bits, and sums beyond half of 64.
pub fn merge(
    parts: [Result<Totals, Refused>; 2],
    counted: [&[u32]; 2],
    by_number: &mut [u32],
) -> Result<Totals, Refused> {
    let [one, other] = parts;
    let (one, other) = (one?, other?);
    let half = |sum: i64| sum.unsigned_abs() < 1 << 62;
    fits(&[half(one.sum), half(other.sum)])?;
    fits(&[counted[0].len() >= NUMBERS, counted[1].len() >= NUMBERS, by_number.len() >= NUMBERS])?;
    let together = |counts: [u32; 2]| counts[0].checked_add(counts[1]).ok_or(Refused { number: 1, place: 0 });
    let values = |results: [i32; 2]| results.into_iter().filter(|&result| result != BLANK);
    let both = Totals {
        blank: together([one.blank, other.blank])?,
        least: values([one.least, other.least]).min().unwrap_or(BLANK),
        greatest: values([one.greatest, other.greatest]).max().unwrap_or(BLANK),
        sum: one.sum + other.sum,
        first: together([one.first, other.first])?,
        second: together([one.second, other.second])?,
        third: together([one.third, other.third])?,
    };
    let counts: Result<Vec<u32>, Refused> =
        (0..NUMBERS).map(|number| together(counted.map(|counts| counts[number]))).collect();
    by_number[..NUMBERS].copy_from_slice(&counts?);
    Ok(both)
}

/// The moves of a batch, each with as many of its pairs as are lent.
pub(crate) fn moves_of<'a>(batch: &Batch<'a>) -> Vec<Move<'a>> {
    let (mut vars, mut values) = (batch.vars, batch.values);
    let next = |&pairs: &u16| {
        let pairs = usize::from(pairs);
        let (own_vars, own_values);
        (own_vars, vars) = vars.split_at(pairs.min(vars.len()));
        (own_values, values) = values.split_at(pairs.min(values.len()));
        Move { pairs, vars: own_vars, values: own_values }
    };
    batch.pairs[..batch.moves].iter().map(next).collect()
}

/// The asked value and the evaluations of a move by a route, in buffers of its own.
fn tried(
    mut session: Session,
    tables: Tables<'_>,
    bounds: Bounds<'_>,
    state: State<'_>,
    moved: Move<'_>,
    asked: u16,
    route: u32,
) -> Result<(i32, u32), Refused> {
    let room = tables.n.min(MOST_VARIABLES);
    let (mut result, mut values, mut flags) = ([0], vec![0; room], vec![0; room]);
    let tried = Tried { results: &mut result, trial: &mut values, flags: &mut flags, why: &mut [0] };
    let asked = Asked { asked: 1, vars: &[asked] };
    let evaluations = trial(&mut session, tables, bounds, Trial { state, moved, asked, route, tried })?;
    Ok((result[0], evaluations))
}
