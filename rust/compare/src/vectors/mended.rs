//! Damaged model files, and what is saved of them. `tools/mended` writes them.
//!
//! A file has the number of its cases, in four bytes, and then the cases. A case is a salvage with all that it is lent.
//! Its numbers have four bytes each, but for the first three and those of the pieces, which have two. From these bytes
//! on stand:
//!
//! - 0: length of the case in bytes, length of its name, number of its pieces;
//! - 6: how many bytes the damaged file has;
//! - 10: how many bytes are lent for the file that is saved;
//! - 14: how many places are lent for the list;
//! - 18: the name, and then the pieces of the damaged file.
//!
//! A piece says how often its unit is laid and how many numbers the unit has; then come the unit, and what is added to
//! each number of a unit to have the next one. Both buffers hold 77 everywhere before the call.

use super::answered::answered;
use super::numbers::Numbers;
use super::{Expected, shown};
use crate::{Answer, Call, Case, Engine, Side};

/// More bytes than this are shown by their checksum.
const MOST_SHOWN: usize = 400;

/// Answers the cases of a file.
pub(super) fn answer(engine: &dyn Engine, numbers: &mut Numbers<'_>, expected: &mut Expected<'_>) -> usize {
    let [cases] = numbers.words();
    for place in 1..=cases {
        let length = numbers.half();
        let (name, case) = read(numbers.part(length - 2));
        let what = expected.named(format!("case {place}, {name}"));
        expected.hold(&what, &line(name, &answered(engine, &what, &case)));
    }
    cases as usize
}

/// The name of a case, and its call.
fn read(mut numbers: Numbers<'_>) -> (&str, Case) {
    let [named, pieces] = numbers.halves();
    let [size, file, list] = numbers.words().map(|count| count as usize);
    let name = numbers.text(named);
    let mut bytes: Vec<u8> = (0..pieces).flat_map(|_| laid(&mut numbers)).collect();
    assert!(numbers.is_empty() && size <= bytes.len(), "{name}: the pieces come to the damaged file");
    bytes.truncate(size);
    let (file, list) = (vec![77; file].into(), vec![77; list].into());
    (name, Case { call: Call::Salvage, bytes: bytes.into(), file, list, ..Case::default() })
}

/// The bytes that a piece comes to.
fn laid(numbers: &mut Numbers<'_>) -> Vec<u8> {
    let [often, count] = numbers.halves();
    let mut unit: Vec<u16> = numbers.row(count);
    let step: Vec<u16> = numbers.row(count);
    let mut bytes = Vec::new();
    for _ in 0..often {
        bytes.extend(unit.iter().flat_map(|number| number.to_le_bytes()));
        unit.iter_mut().zip(&step).for_each(|(number, step)| *number = number.wrapping_add(*step));
    }
    bytes
}

/// The line of a case: number and place, if it is accepted the length of the file and how many rows and start values
/// are listed, and both buffers as they are left.
fn line(name: &str, side: &Side) -> String {
    let Answer { number, place, length, rows, values, .. } = side.answer;
    let saved = if number == 0 { format!(" {length} {rows} {values}") } else { String::new() };
    let list = shown::row("list", &side.left.list);
    format!("{name}: {number} {place}{saved}{list}; {}", bytes(&side.left.file))
}

/// What is shown of bytes: all of them if they are few, and else their checksum, in which each counts by its place.
fn bytes(bytes: &[u8]) -> String {
    if bytes.len() > MOST_SHOWN {
        let mixed = |sum: u32, &byte: &u8| sum.wrapping_mul(16_777_619).wrapping_add(byte.into());
        return format!("checksum {}", bytes.iter().fold(0, mixed));
    }
    format!("file {}", bytes.iter().map(|byte| format!("{byte:02x}")).collect::<String>())
}
