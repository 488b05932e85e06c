//! frequencies.txt: files that are read, and windows that are written. `tools/frequencies` writes them.
//!
//! A file has the number of its cases, and the cases; all numbers have four bytes but for the rows'. From these bytes on
//! stand in a case:
//!
//! - 0: the length of what follows in bytes;
//! - 4: 0 for a file that is read, 1 for windows that are written;
//! - 8: the length of the case's name, and of the file or of the text in which names stand;
//! - 16: of a file that is read, how many places are lent of each of eight rows, which hold 77 before the call; of windows,
//!   how many there are, how many bytes are lent, which are full stops before the call, how long each of seven rows is, and
//!   these rows;
//! - then the name, and the file or the text.

use super::answered::answered;
use super::numbers::Numbers;
use super::{Expected, shown};
use crate::{Answer, Call, Case, Engine, Side};

/// Answers the cases of a file.
pub(super) fn answer(engine: &dyn Engine, numbers: &mut Numbers<'_>, expected: &mut Expected<'_>) -> usize {
    let [cases] = numbers.words();
    for place in 1..=cases {
        let [length] = numbers.words();
        let (name, case) = read(numbers.part(length as usize));
        let what = expected.named(format!("case {place}, {name}"));
        expected.hold(&what, &line(name, &answered(engine, &what, &case)));
    }
    cases as usize
}

/// The case that these numbers are, and its name.
fn read(mut numbers: Numbers<'_>) -> (&str, Case) {
    let [kind, named, length] = numbers.words().map(|word| word as usize);
    let mut case = if kind == 0 { rows_of(&mut numbers) } else { windows_of(&mut numbers) };
    let name = numbers.text(named);
    case.bytes = numbers.take(length).to_vec().into();
    assert!(numbers.is_empty(), "{name}: nothing stands behind the bytes");
    (name, case)
}

/// Rows to be filled, of the lengths that come next.
fn rows_of(numbers: &mut Numbers<'_>) -> Case {
    let [places, lengths, doubled, starts, ends, headways, exacts, lines] = numbers.words().map(|word| word as usize);
    Case {
        call: Call::Frequencies,
        name_places: vec![77; places].into(),
        name_lengths: vec![77; lengths].into(),
        name_doubled: vec![77; doubled].into(),
        starts: vec![77; starts].into(),
        ends: vec![77; ends].into(),
        headways: vec![77; headways].into(),
        exacts: vec![77; exacts].into(),
        lines: vec![77; lines].into(),
        ..Case::default()
    }
}

/// Windows to be written, which come next.
fn windows_of(numbers: &mut Numbers<'_>) -> Case {
    let [windows, room] = numbers.words().map(|word| word as usize);
    let [places, lengths, doubled, starts, ends, headways, exacts] = numbers.words().map(|word| word as usize);
    Case {
        call: Call::WriteFrequencies,
        windows,
        file: vec![b'.'; room].into(),
        name_places: numbers.row(places).into(),
        name_lengths: numbers.row(lengths).into(),
        name_doubled: numbers.row(doubled).into(),
        starts: numbers.row(starts).into(),
        ends: numbers.row(ends).into(),
        headways: numbers.row(headways).into(),
        exacts: numbers.row(exacts).into(),
        ..Case::default()
    }
}

/// The line of a case: number, place and length, and the rows or the file as they are left.
fn line(name: &str, Side { answer, left }: &Side) -> String {
    let Answer { number, place, length, .. } = answer;
    let left = if left.call == Call::Frequencies { rows(left) } else { format!("; file {}", left.file.escape_ascii()) };
    format!("{name}: {number} {place} {length}{left}")
}

/// The rows of a read.
fn rows(left: &Case) -> String {
    [
        shown::row("name_places", &left.name_places),
        shown::row("name_lengths", &left.name_lengths),
        shown::row("name_doubled", &left.name_doubled),
        shown::row("starts", &left.starts),
        shown::row("ends", &left.ends),
        shown::row("headways", &left.headways),
        shown::row("exacts", &left.exacts),
        shown::row("lines", &left.lines),
    ]
    .concat()
}
