//! Many moves tried on the same stored values: each is given what a trial gives it.

use crate::checks::fits;
use crate::figures::moves_of;
use crate::{MOST_ASKED, MOST_VARIABLES, Refused, trial};
use lent::{Bounds, MOST_MOVES, Session, Tables, Trial, Trials, Tried};

/// Tries every move on the same stored values and a copy of the record, and fills the rows with what each is given; gives
/// the evaluations of all.
///
/// # Errors
/// Refusal 1 for more than 1,000 moves, more than 32 asked variables or a short buffer; every other refusal is a move's
/// own.
pub fn trials(session: &Session, tables: Tables<'_>, bounds: Bounds<'_>, lent: Trials<'_>) -> Result<u32, Refused> {
    let Trials { state, batch, asked, route, given } = lent;
    let rooms = [given.numbers.len(), given.places.len(), given.evaluations.len(), batch.pairs.len()];
    let all = batch.moves.saturating_mul(asked.asked);
    fits(&[
        batch.moves <= MOST_MOVES,
        asked.asked <= MOST_ASKED,
        asked.vars.len() >= asked.asked,
        rooms.into_iter().all(|room| room >= batch.moves),
        given.results.len() >= all,
        given.why.len() >= all,
    ])?;
    let room = tables.n.min(MOST_VARIABLES);
    let mut total = 0;
    for (move_, moved) in moves_of(&batch).into_iter().enumerate() {
        let own = move_ * asked.asked..(move_ + 1) * asked.asked;
        let (mut values, mut flags) = (vec![0; room], vec![0; room]);
        let (results, why) = (&mut given.results[own.clone()], &mut given.why[own]);
        let tried = Tried { results, trial: &mut values, flags: &mut flags, why };
        let came = trial(&mut session.clone(), tables, bounds, Trial { state, moved, asked, route, tried });
        let refused = came.err().map_or((0, 0), |refused| (refused.number, refused.place));
        (given.numbers[move_], given.places[move_]) = refused;
        given.evaluations[move_] = came.unwrap_or(0);
        total += given.evaluations[move_];
    }
    Ok(total)
}
