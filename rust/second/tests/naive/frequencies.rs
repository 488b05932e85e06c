//! frequencies.txt by its definitions, `crates/frequencies/specs`: what stands from a place on, worked out from the last byte
//! to the first, and every number checked over all rows.

use compare::{Answer, Call, Case};

use super::{Check, first, fixed, places};

/// Where in a field a byte stands.
#[derive(Clone, Copy, PartialEq)]
enum Mode {
    Front,
    Plain,
    Inside,
    Behind,
}

/// Where the byte behind this one stands.
fn after(mode: Mode, byte: u8) -> Mode {
    match (mode, byte == b'"') {
        (Mode::Front, true) | (Mode::Behind, true) | (Mode::Inside, false) => Mode::Inside,
        (Mode::Inside, true) => Mode::Behind,
        _ => Mode::Plain,
    }
}

#[derive(Clone)]
struct Field {
    at: usize,
    raw: Vec<u8>,
}

#[derive(Clone)]
struct Row {
    line: usize,
    fields: Vec<Field>,
}

/// Without the line ends at its end.
fn trimmed(bytes: &[u8]) -> &[u8] {
    let only_ends = |mut rest: &[u8]| {
        while let [b'\n', behind @ ..] | [b'\r', b'\n', behind @ ..] = rest {
            rest = behind;
        }
        rest.is_empty()
    };
    let end = (0..bytes.len()).find(|&place| only_ends(&bytes[place..])).unwrap_or(bytes.len());
    &bytes[..end]
}

/// The rows of a file, the last one first, and the fields of a row likewise.
fn rows_of(bytes: &[u8]) -> Vec<Row> {
    let mark = if bytes.starts_with(&[239, 187, 191]) { 3 } else { 0 };
    let bytes = trimmed(&bytes[mark..]);
    let (mut mode, mut line, mut stands) = (Mode::Front, 1, Vec::new());
    for (place, &byte) in bytes.iter().enumerate() {
        let outside = mode != Mode::Inside;
        let returns = byte == b'\r' && bytes.get(place + 1) == Some(&b'\n');
        stands.push((outside, returns, line));
        line += usize::from(byte == b'\n');
        if outside && (byte == b',' || byte == b'\n') {
            mode = Mode::Front;
        } else if !(outside && returns) {
            mode = after(mode, byte);
        }
    }
    let mut rows = vec![Row { line, fields: vec![Field { at: mark + bytes.len(), raw: Vec::new() }] }];
    for place in (0..bytes.len()).rev() {
        let ((outside, returns, line), at) = (stands[place], mark + place);
        let row = rows.last_mut().expect("a row");
        row.line = if outside && bytes[place] == b'\n' { row.line } else { line };
        match bytes[place] {
            b',' if outside => row.fields.push(Field { at, raw: Vec::new() }),
            b'\n' if outside => rows.push(Row { line, fields: vec![Field { at, raw: Vec::new() }] }),
            byte => {
                let first = row.fields.last_mut().expect("a field");
                first.at = at;
                if !(outside && returns) {
                    first.raw.insert(0, byte);
                }
            }
        }
    }
    rows.iter_mut().for_each(|row| row.fields.reverse());
    rows.reverse();
    rows
}

/// What stands between its quotes, if it begins with one.
fn body(raw: &[u8]) -> Vec<u8> {
    if raw.first() == Some(&b'"') {
        raw.iter().skip(1).take(raw.len().saturating_sub(2)).copied().collect()
    } else {
        raw.to_vec()
    }
}

/// Each quote is one of two, or the last byte alone is none, as `alone` has it.
fn pairs(bytes: &[u8], alone: bool) -> bool {
    let mut one = false;
    for &byte in bytes {
        if one && byte != b'"' {
            return false;
        }
        one = !one && byte == b'"';
    }
    one == alone
}

fn quotes_right(raw: &[u8]) -> bool {
    match raw {
        [] => true,
        [b'"', rest @ ..] => pairs(rest, true),
        [_, rest @ ..] => !rest.contains(&b'"'),
    }
}

fn number(digits: &[u8]) -> Option<u128> {
    let said = |front: u128, &digit: &u8| (10 * front + u128::from(digit - 48)).min(1 << 100);
    digits.iter().all(|digit| (48..=57).contains(digit)).then(|| digits.iter().fold(0, said))
}

fn as_value(number: u128) -> Option<i32> {
    (number <= 2_147_483_647).then_some(number as i32)
}

fn time(bytes: &[u8]) -> Option<i32> {
    let k = bytes.len().checked_sub(6).filter(|&k| k > 0)?;
    let colons = bytes[k] == 58 && bytes[k + 3] == 58;
    let sixtieth = |at: usize| (48..=53).contains(&bytes[at]) && (48..=57).contains(&bytes[at + 1]);
    let good = colons && sixtieth(k + 1) && sixtieth(k + 4);
    let [hours, minutes, seconds] = [&bytes[..k], &bytes[k + 1..k + 3], &bytes[k + 4..]].map(number);
    if good { as_value(3600 * hours? + 60 * minutes? + seconds?) } else { None }
}

fn headway(bytes: &[u8]) -> Option<i32> {
    number(bytes).filter(|&number| number > 0).and_then(as_value)
}

fn exact(bytes: &[u8]) -> u8 {
    match bytes {
        [] | [48] => 0,
        [49] => 1,
        _ => 2,
    }
}

/// The lines of the rows that are not good.
fn check(number: u32, rows: &[Row], good: impl Fn(&Row) -> bool) -> Check {
    (number, rows.iter().filter(|row| !good(row)).map(|row| row.line).collect())
}

fn frequencies(case: &mut Case) -> Answer {
    let all = rows_of(&case.bytes);
    let (header, rows) = (all[0].clone(), &all[1..]);
    let counts = |name: &str| header.fields.iter().filter(|field| body(&field.raw) == name.as_bytes()).count();
    let column = |name: &str| header.fields.iter().position(|field| body(&field.raw) == name.as_bytes());
    let none = Field { at: 0, raw: Vec::new() };
    let field = |row: &Row, name: &str| row.fields.get(column(name).unwrap_or(usize::MAX)).unwrap_or(&none).clone();
    let text = |row: &Row, name: &str| body(&field(row, name).raw);
    let words = [&case.name_places, &case.name_lengths, &case.lines].map(|row| row.len());
    let numbers = [&case.starts, &case.ends, &case.headways].map(|row| row.len());
    let flags = [&case.name_doubled, &case.exacts].map(|row| row.len());
    let room = words.iter().chain(&numbers).chain(&flags).all(|&length| length >= rows.len());
    let required = ["trip_id", "start_time", "end_time", "headway_secs"];
    let named = required.iter().all(|name| counts(name) == 1) && counts("exact_times") <= 1;
    let refused = first([
        fixed(1, room && case.bytes.len() <= 2_147_483_647),
        check(2, &all[..1], |_| named),
        check(3, rows, |row| row.fields.len() == header.fields.len()),
        check(4, &all, |row| row.fields.iter().all(|field| quotes_right(&field.raw))),
        check(5, rows, |row| time(&text(row, "start_time")).and(time(&text(row, "end_time"))).is_some()),
        check(6, rows, |row| headway(&text(row, "headway_secs")).is_some()),
        check(7, rows, |row| exact(&text(row, "exact_times")) < 2),
        check(8, rows, |row| !text(row, "trip_id").is_empty()),
    ]);
    if let Some(refused) = refused {
        return Answer::refused(refused);
    }
    for (i, row) in rows.iter().enumerate() {
        let trip = field(row, "trip_id");
        case.name_places[i] = (trip.at + usize::from(trip.raw.first() == Some(&b'"'))) as u32;
        case.name_lengths[i] = body(&trip.raw).len() as u32;
        case.name_doubled[i] = body(&trip.raw).contains(&b'"').into();
        case.starts[i] = time(&text(row, "start_time")).expect("a time");
        case.ends[i] = time(&text(row, "end_time")).expect("a time");
        case.headways[i] = headway(&text(row, "headway_secs")).expect("a headway");
        case.exacts[i] = exact(&text(row, "exact_times"));
        case.lines[i] = row.line as u32;
    }
    Answer { length: rows.len() as u32, ..Answer::default() }
}

/// Digits of a number, at least so many.
fn digits(number: i32, least: usize) -> Vec<u8> {
    let mut digits = Vec::new();
    let mut rest = number;
    while rest > 0 || digits.len() < least {
        digits.insert(0, 48 + (rest % 10) as u8);
        rest /= 10;
    }
    digits
}

fn write_frequencies(case: &mut Case) -> Answer {
    let count = case.windows;
    let words = [&case.name_places, &case.name_lengths].map(|row| row.len());
    let numbers = [&case.starts, &case.ends, &case.headways].map(|row| row.len());
    let flags = [&case.name_doubled, &case.exacts].map(|row| row.len());
    let room = words.iter().chain(&numbers).chain(&flags).all(|&length| length >= count);
    if let Some(refused) = first([fixed(1, room && count <= 2_147_483_647)]) {
        return Answer::refused(refused);
    }
    let ends = |i: usize| u64::from(case.name_places[i]) + u64::from(case.name_lengths[i]);
    let standing = |i: usize| -> Vec<u8> {
        let (place, length) = (case.name_places[i] as usize, case.name_lengths[i] as usize);
        case.bytes.iter().skip(place).take(length).copied().collect()
    };
    let refused = first([
        places(4, count, |i| case.name_doubled[i] != 0 && !pairs(&standing(i), false)),
        places(5, count, |i| case.starts[i] < 0 || case.ends[i] < 0),
        places(6, count, |i| case.headways[i] <= 0),
        places(7, count, |i| case.exacts[i] > 1),
        places(8, count, |i| case.name_lengths[i] == 0 || ends(i) > case.bytes.len() as u64),
    ]);
    if let Some(refused) = refused {
        return Answer::refused(refused);
    }
    let mut file = b"trip_id,start_time,end_time,headway_secs,exact_times\n".to_vec();
    for i in 0..count {
        let (mut name, mut first_of_two) = (Vec::new(), false);
        for byte in standing(i) {
            first_of_two = case.name_doubled[i] != 0 && byte == b'"' && !first_of_two;
            name.extend((!first_of_two).then_some(byte));
        }
        let quoted = name.iter().any(|&byte| matches!(byte, 44 | 34 | 10 | 13));
        file.extend(quoted.then_some(b'"'));
        name.iter()
            .for_each(|&byte| file.extend_from_slice(if byte == b'"' { b"\"\"" } else { std::slice::from_ref(&byte) }));
        file.extend(quoted.then_some(b'"'));
        for time in [case.starts[i], case.ends[i]] {
            file.push(b',');
            let parts = [time / 3600, time / 60 % 60, time % 60].map(|part| digits(part, 2));
            file.extend(parts.join(&b':'));
        }
        file.push(b',');
        file.extend(digits(case.headways[i], 1));
        file.extend([b',', 48 + case.exacts[i], b'\n']);
    }
    if let Some(refused) = first([fixed(9, file.len() <= case.file.len())]) {
        return Answer::refused(refused);
    }
    case.file[..file.len()].copy_from_slice(&file);
    Answer { length: file.len() as u32, ..Answer::default() }
}

pub fn answer(case: &mut Case) -> Answer {
    if case.call == Call::Frequencies { frequencies(case) } else { write_frequencies(case) }
}
