//! Recorded sessions: a model file is read, the model is built, and calls are made one after another on what the call
//! before left, with one log. `record` writes them, with the answers of `second`; its own text says what is recorded.
//!
//! A file, little-endian, holds the number of its sessions (4 bytes), and one session after another:
//!
//! | bytes | |
//! |---|---|
//! | 4, 4 | length L of the model file, number C of calls |
//! | 64, 64 | the lowest and the highest allowed numbers of 16 variables, 4 bytes each |
//! | L | the model file, at times damaged |
//! | 48 C | the calls |
//!
//! A trial or a keep is: 1 or 2, route, pairs, asked (4 bytes each), 4 pair variables (2 each), 4 new values (4 each),
//! 4 asked variables (2 each). What lies beyond pairs or asked means nothing; of a keep route and asked are 0. A change
//! of one field of what is lent is: 3, row, place, new field (4 bytes each) and zeros. Row 0 is the record, with its
//! moves kept at place 0 and its number of blanks at place 1; rows 1 to 17 are kinds, made variables, parameters,
//! firsts, counts, entry variables, coefficients, numbers, order, stored values, of the index of readers the starts and
//! the places, of the log the sizes, the variables and the values, and the lowest and the highest allowed numbers. A
//! taking back is 4 and zeros.
//!
//! The lines of a session are `read NUMBER PLACE N M E`; if that is accepted a line `build`; and if that is accepted a
//! line for each call: `trial`, `keep`, `back` or `change ROW PLACE FIELD`. `build`, `trial`, `keep` and `back` go on
//! with `NUMBER PLACE EVALUATIONS` and the record's moves kept, evaluations and number of blanks. If they are accepted,
//! the rows that they leave follow, a bar before each: numbers, order, stored values, and n + 1 starts and e places of
//! the index; results, trial row and flags; stored values, flags, how many moves the log holds and how many pairs each
//! has, and the variables and the values of the latest. A blank is `-`.

use std::fmt::Display;

use lent::{LOG_SIZES, Session};
use second::BLANK;

use super::Expected;
use super::answered::answered;
use super::numbers::Numbers;
use crate::{Answer, Call, Case, Engine, Guarded, Side};

/// The rows and variables that the tables of a session have room for.
pub const ROWS: usize = 16;

/// The entries that they have room for.
pub const ENTRIES: usize = 64;

/// The pairs or asked variables of a call.
pub const MOST: usize = 4;

/// The bytes of a recorded call.
pub const CALL: usize = 48;

/// The record before a build.
const BEFORE: Session = Session { kept: 7, evaluations: 9, blanks: 11 };

/// Answers the sessions of a file.
pub(super) fn answer(engine: &dyn Engine, numbers: &mut Numbers<'_>, expected: &mut Expected<'_>) -> usize {
    let [sessions] = numbers.words();
    for place in 1..=sessions {
        let what = expected.named(format!("session {place}"));
        session(engine, &what, numbers, expected);
    }
    sessions as usize
}

/// Answers a session.
fn session(engine: &dyn Engine, what: &str, numbers: &mut Numbers<'_>, expected: &mut Expected<'_>) {
    let [length, calls] = numbers.words().map(|count| count as usize);
    let (lows, highs) = (numbers.row(ROWS).into(), numbers.row(ROWS).into());
    let bytes = numbers.take(length).to_vec().into();
    let file = reading(Case { bytes, lows, highs, ..Case::default() });
    let calls = numbers.part(CALL * calls);

    let Side { answer, left } = answered(engine, what, &file);
    expected.hold(&format!("{what}, read"), &read_line(answer));
    if answer.number != 0 {
        return;
    }
    let Side { answer, left } = answered(engine, what, &building(left, answer));
    expected.hold(&format!("{what}, build"), &build_line(answer, &left));
    if answer.number == 0 {
        make_calls(engine, what, left, calls, expected);
    }
}

/// Makes calls one after another on a model that was built.
fn make_calls(engine: &dyn Engine, what: &str, mut model: Case, mut calls: Numbers<'_>, expected: &mut Expected<'_>) {
    let mut made = 0;
    while !calls.is_empty() {
        made += 1;
        let what = format!("{what}, call {made}");
        let [name, route, pairs, asked] = calls.words();
        let rows = (calls.row(MOST), calls.row(MOST), calls.row(MOST));
        if name == 3 {
            expected.hold(&what, &change_line(route, pairs, asked));
            put_field(&mut model, route, pairs as usize, asked);
            continue;
        }
        let call = call_of(name);
        let (move_vars, move_values, asked_vars) = (rows.0.into(), rows.1.into(), rows.2.into());
        let (pairs, asked) = (pairs as usize, asked as usize);
        let case = Case { call, route, pairs, asked, move_vars, move_values, asked_vars, ..model.clone() };
        let Side { answer, left } = answered(engine, &what, &with_rows(case));
        expected.hold(&what, &call_line(answer, &left));
        model = go_on(model, left);
    }
}

/// The call of a number.
fn call_of(number: u32) -> Call {
    match number {
        1 => Call::Trial,
        2 => Call::Keep,
        4 => Call::TakeBack,
        _ => panic!("no call has the number {number}"),
    }
}

/// The read of a case's file into tables of the length that sessions have.
#[must_use]
pub fn reading(case: Case) -> Case {
    let row = || vec![0; ROWS].into();
    let (params, starts) = (vec![0; ROWS].into(), vec![0; ROWS].into());
    let (vars, coefs) = (vec![0; ENTRIES].into(), vec![0; ENTRIES].into());
    let (kinds, makes, firsts, counts) = (row(), row(), row(), row());
    Case { call: Call::Read, kinds, makes, params, firsts, counts, vars, coefs, starts, ..case }
}

/// The build of a file that was read. The record and the log's sizes before it are not all 0, so that what build makes
/// of them shows.
#[must_use]
pub fn building(read: Case, answer: Answer) -> Case {
    let full = Case { n: ROWS, m: ROWS, e: ENTRIES, ..read }.with_room();
    let [n, m, e] = [answer.n, answer.m, answer.e].map(|count| count as usize);
    let log_sizes = vec![7; LOG_SIZES].into();
    Case { call: Call::Build, session: BEFORE, n, m, e, log_sizes, ..full }.with_log()
}

/// The case with rows of the length that sessions have for a call to fill.
#[must_use]
pub fn with_rows(case: Case) -> Case {
    let (results, why) = (vec![0; MOST].into(), vec![0; MOST].into());
    Case { results, trial: vec![0; ROWS].into(), flags: vec![0; ROWS].into(), why, ..case }
}

/// The model with what a call left of the record, the values, the reasons and the log.
#[must_use]
pub fn go_on(model: Case, left: Case) -> Case {
    let Case { session, stored, reasons, log_sizes, log_vars, log_values, .. } = left;
    Case { session, stored, reasons, log_sizes, log_vars, log_values, ..model }
}

/// Puts a field at a place of a row, and gives the one that was there.
///
/// # Panics
/// If the row has no such place.
pub fn put_field(model: &mut Case, row: u32, place: usize, field: u32) -> u32 {
    match row {
        0 if place == 0 => std::mem::replace(&mut model.session.kept, field),
        0 => std::mem::replace(&mut model.session.blanks, field),
        1 => put16(&mut model.kinds, place, field),
        2 => put16(&mut model.makes, place, field),
        3 => put32(&mut model.params, place, field),
        4 => put16(&mut model.firsts, place, field),
        5 => put16(&mut model.counts, place, field),
        6 => put16(&mut model.vars, place, field),
        7 => std::mem::replace(&mut model.coefs[place], field as u16 as i16) as u16 as u32,
        8 => put16(&mut model.numbers, place, field),
        9 => put16(&mut model.order, place, field),
        10 => put32(&mut model.stored, place, field),
        11 => put16(&mut model.reader_starts, place, field),
        12 => put16(&mut model.reader_places, place, field),
        13 => put16(&mut model.log_sizes, place, field),
        14 => put16(&mut model.log_vars, place, field),
        15 => put32(&mut model.log_values, place, field),
        16 => put32(&mut model.lows, place, field),
        17 => put32(&mut model.highs, place, field),
        _ => panic!("no row {row}"),
    }
}

/// Puts a field of 16 bits, and gives the one that was there.
fn put16(row: &mut Guarded<u16>, place: usize, field: u32) -> u32 {
    std::mem::replace(&mut row[place], field as u16).into()
}

/// Puts a signed field of 32 bits, and gives the one that was there.
fn put32(row: &mut Guarded<i32>, place: usize, field: u32) -> u32 {
    std::mem::replace(&mut row[place], field as i32) as u32
}

/// The line of a read.
#[must_use]
pub fn read_line(answer: Answer) -> String {
    let Answer { number, place, n, m, e, .. } = answer;
    format!("read {number} {place} {n} {m} {e}")
}

/// The line of a build.
#[must_use]
pub fn build_line(answer: Answer, left: &Case) -> String {
    let Case { n, m, e, .. } = *left;
    let index = row(&left.reader_starts[..=n]) + &row(&left.reader_places[..e]);
    told(
        "build",
        answer,
        left.session,
        row(&left.numbers[..n]) + &row(&left.order[..m]) + &values(&left.stored[..n]) + &index,
    )
}

/// The line of a trial, a keep or a taking back.
#[must_use]
pub fn call_line(answer: Answer, left: &Case) -> String {
    let flags = row(&left.flags[..left.n]);
    if left.call == Call::Trial {
        let results = values(&left.results[..left.asked.min(MOST)]);
        return told("trial", answer, left.session, results + &values(&left.trial[..left.n]) + &flags);
    }
    let name = if left.call == Call::Keep { "keep" } else { "back" };
    told(name, answer, left.session, values(&left.stored[..left.n]) + &flags + &log(left))
}

/// The line of a change.
#[must_use]
pub fn change_line(row: u32, place: u32, field: u32) -> String {
    format!("change {row} {place} {field}")
}

/// The line of a call, with what it leaves if it is accepted.
fn told(name: &str, answer: Answer, session: Session, left: String) -> String {
    let Answer { number, place, evaluations, .. } = answer;
    let Session { kept, evaluations: last, blanks } = session;
    let left = if number == 0 { left } else { String::new() };
    format!("{name} {number} {place} {evaluations} {kept} {last} {blanks}{left}")
}

/// The log that an accepted call leaves: how many moves it holds and the pairs of each, and the pairs of the latest.
fn log(case: &Case) -> String {
    let moves = case.logged();
    let pairs = usize::from(case.log_sizes[moves]);
    let first = 64 * moves.saturating_sub(1);
    let latest = if moves == 0 { 0..0 } else { first..(first + pairs).min(case.log_vars.len()) };
    row(&case.log_sizes[..=moves]) + &row(&case.log_vars[latest.clone()]) + &values(&case.log_values[latest])
}

/// A row of numbers behind a bar, a blank before each.
fn row(numbers: &[impl Display]) -> String {
    format!(" |{}", numbers.iter().map(|number| format!(" {number}")).collect::<String>())
}

/// A row of values.
fn values(values: &[i32]) -> String {
    let shown = |&value: &i32| if value == BLANK { "-".to_string() } else { value.to_string() };
    row(&values.iter().map(shown).collect::<Vec<_>>())
}
