//! Departure boards: windows, and the times that they come to. `tools/departures` writes them.
//!
//! A file has the number of its cases and the bytes of its pool (4 bytes each), the pool (4,200 signed numbers of four
//! bytes, with zeros past those that are written), and the cases. Rows stand in the pool, as parts of it.
//!
//! A case is a board with all that it is lent. Its numbers have two bytes each, but for the number of windows, which
//! has four. From these bytes on stand:
//!
//! - 0: length of the case, length of its name, both in bytes;
//! - 4: where each of three rows starts in the pool and how long it is: starts, ends, headways;
//! - 16: how many places are lent to be filled, which hold 77 before the call, and how many of them are shown;
//! - 20: how many windows;
//! - 24: the name.

use super::answered::answered;
use super::numbers::{Numbers, filled, part};
use super::{Expected, shown};
use crate::{Answer, Call, Case, Engine, Side};

/// The numbers of the pool.
const POOL: usize = 4_200;

/// A board by its name, and how many of its list's places are shown.
struct Board<'a> {
    name: &'a str,
    case: Case,
    shown: usize,
}

/// Answers the cases of a file.
pub(super) fn answer(engine: &dyn Engine, numbers: &mut Numbers<'_>, expected: &mut Expected<'_>) -> usize {
    let [cases, pool] = numbers.words();
    let pool = filled(numbers.take(pool as usize), POOL);
    for place in 1..=cases {
        let length = numbers.half();
        let board = read(numbers.part(length - 2), &pool);
        let what = expected.named(format!("case {place}, {}", board.name));
        expected.hold(&what, &board.line(&answered(engine, &what, &board.case)));
    }
    cases as usize
}

/// The case that these numbers are.
fn read<'a>(mut numbers: Numbers<'a>, pool: &[i32]) -> Board<'a> {
    let named = numbers.half();
    let [starts, ends, headways] = [(); 3].map(|()| part(pool, numbers.halves()));
    let [room, shown] = numbers.halves();
    let [windows] = numbers.words().map(|count| count as usize);
    let name = numbers.text(named);
    assert!(numbers.is_empty(), "{name}: nothing stands behind the name");
    let board = vec![77; room].into();
    Board {
        name,
        case: Case { call: Call::Departures, windows, starts, ends, headways, board, ..Case::default() },
        shown,
    }
}

impl Board<'_> {
    /// The line of a board: number, place and length, and the list as it is left.
    fn line(&self, side: &Side) -> String {
        let Answer { number, place, length, .. } = side.answer;
        let row = shown::first("row", &side.left.board, self.shown);
        format!("{}: {number} {place} {length}{row}", self.name)
    }
}
