//! Readers of frequencies.txt as one writes them by hand for speed, in safe Rust. One has the promise of the proved call: it
//! allocates nothing, a refusal has the number and the line that the call gives, and the rows are then as they were. One keeps
//! the windows in memory of its own until all are judged, and so passes the bytes once. And one promises nothing: it fills the
//! rows as it goes, and ends at the first fault.

use crate::frequencies::Rows;

/// What a column is.
#[derive(Clone, Copy, PartialEq)]
enum Column {
    Trip,
    Start,
    End,
    Headway,
    Exact,
    Other,
}

/// A field: where it begins and ends without its quotes, whether quotes stand double in it and only where they may, where the
/// next field begins, and what follows.
struct Field {
    from: usize,
    to: usize,
    doubled: bool,
    sound: bool,
    next: usize,
    end: End,
}

/// What follows a field.
#[derive(Clone, Copy, PartialEq)]
enum End {
    Comma,
    Line,
    File,
}

/// The field that begins at a place; lines are counted on.
#[inline]
fn field(bytes: &[u8], from: usize, line: &mut u32) -> Field {
    if bytes.get(from) == Some(&b'"') {
        return quoted(bytes, from, line);
    }
    let rest = &bytes[from..];
    let length = rest.iter().position(|byte| matches!(byte, b',' | b'\n' | b'"')).unwrap_or(rest.len());
    let at = from + length;
    match bytes.get(at) {
        None => Field { from, to: at, doubled: false, sound: true, next: at, end: End::File },
        Some(b',') => Field { from, to: at, doubled: false, sound: true, next: at + 1, end: End::Comma },
        Some(b'\n') => {
            let to = at - usize::from(length > 0 && bytes[at - 1] == b'\r');
            Field { from, to, doubled: false, sound: true, next: at + 1, end: End::Line }
        }
        Some(_) => Field { from, sound: false, ..bare(bytes, at, from) },
    }
}

/// A field in quotes.
fn quoted(bytes: &[u8], from: usize, line: &mut u32) -> Field {
    let (mut at, mut doubled) = (from + 1, false);
    loop {
        match bytes.get(at) {
            None => return Field { from, to: at, doubled, sound: false, next: at, end: End::File },
            Some(b'"') if bytes.get(at + 1) == Some(&b'"') => {
                doubled = true;
                at += 2;
            }
            Some(b'"') => break,
            Some(byte) => {
                *line += u32::from(*byte == b'\n');
                at += 1;
            }
        }
    }
    let rest = bare(bytes, at + 1, at + 1);
    Field { from: from + 1, sound: rest.to == at + 1, to: at, doubled, ..rest }
}

/// The rest of a field outside quotes, from `at` on; it begins at `from`.
fn bare(bytes: &[u8], at: usize, from: usize) -> Field {
    let rest = &bytes[at..];
    let after = at + rest.iter().position(|byte| matches!(byte, b',' | b'\n')).unwrap_or(rest.len());
    let field = |to, next, end| Field { from, to, doubled: false, sound: true, next, end };
    match bytes.get(after) {
        None => field(after, after, End::File),
        Some(b',') => field(after, after + 1, End::Comma),
        Some(_) if after > from && bytes[after - 1] == b'\r' => field(after - 1, after + 1, End::Line),
        Some(_) => field(after, after + 1, End::Line),
    }
}

/// The number that decimal digits say.
#[inline]
fn number(digits: &[u8]) -> Option<i32> {
    let mut said: i64 = 0;
    for &digit in digits {
        let value = digit.wrapping_sub(b'0');
        if value > 9 {
            return None;
        }
        said = (10 * said + i64::from(value)).min(1 << 40);
    }
    i32::try_from(said).ok()
}

#[inline]
fn time(bytes: &[u8]) -> Option<i32> {
    let (hours, [c, m, n, d, s, t]) = bytes.split_last_chunk::<6>()?;
    let small = |tens: &u8, ones: &u8| tens.wrapping_sub(b'0') < 6 && ones.wrapping_sub(b'0') < 10;
    if hours.is_empty() || *c != b':' || *d != b':' || !small(m, n) || !small(s, t) {
        return None;
    }
    let two = |tens: &u8, ones: &u8| i64::from(*tens - b'0') * 10 + i64::from(*ones - b'0');
    let time = i64::from(number(hours)?) * 3600 + 60 * two(m, n) + two(s, t);
    i32::try_from(time).ok()
}

#[inline]
fn exact(bytes: &[u8]) -> Option<u8> {
    match bytes {
        b"" | b"0" => Some(0),
        b"1" => Some(1),
        _ => None,
    }
}

/// The file without its mark and the line ends at its end: where it begins, and its bytes to the end.
fn trimmed(bytes: &[u8]) -> (usize, &[u8]) {
    let begins = if bytes.starts_with(b"\xEF\xBB\xBF") { 3 } else { 0 };
    let mut end = bytes.len();
    while end > 0 && bytes[end - 1] == b'\n' {
        end -= 1 + usize::from(end > 1 && bytes[end - 2] == b'\r');
    }
    (begins, &bytes[..end])
}

/// The header: its columns, whether it names each as often as it has to, whether its quotes are right, where the first row
/// begins, and what stands before that.
fn header(bytes: &[u8], mut at: usize, line: &mut u32) -> (Vec<Column>, bool, bool, usize, End) {
    let (mut columns, mut sound) = (Vec::new(), true);
    loop {
        let field = field(bytes, at, line);
        columns.push(match &bytes[field.from..field.to] {
            b"trip_id" => Column::Trip,
            b"start_time" => Column::Start,
            b"end_time" => Column::End,
            b"headway_secs" => Column::Headway,
            b"exact_times" => Column::Exact,
            _ => Column::Other,
        });
        sound &= field.sound;
        at = field.next;
        if field.end != End::Comma {
            let count = |wanted: Column| columns.iter().filter(|&&column| column == wanted).count();
            let required = [Column::Trip, Column::Start, Column::End, Column::Headway];
            let named = required.iter().all(|&column| count(column) == 1) && count(Column::Exact) <= 1;
            return (columns, named, sound, at, field.end);
        }
    }
}

/// A window that was read.
struct Window {
    name_place: u32,
    name_length: u32,
    name_doubled: u8,
    start: i32,
    end: i32,
    headway: i32,
    exact: u8,
    line: u32,
}

/// One pass over a file: each window is handed on with its place. Gives how many there are, and of each number the least line
/// that offends, 0 where none does.
#[inline]
fn pass(bytes: &[u8], mut each: impl FnMut(usize, Window)) -> (usize, [u32; 9]) {
    let (begins, bytes) = trimmed(bytes);
    let (mut line, mut count) = (1, 0);
    let (columns, named, sound, mut at, mut ends) = header(bytes, begins, &mut line);
    let mut least = [0; 9];
    (least[2], least[4]) = (u32::from(!named), u32::from(!sound));
    while ends == End::Line {
        line += 1;
        let begins = line;
        let mut fault = |number: usize| least[number] = if least[number] == 0 { begins } else { least[number] };
        let mut window =
            Window { name_place: 0, name_length: 0, name_doubled: 0, start: 0, end: 0, headway: 0, exact: 0, line };
        let mut width = 0;
        loop {
            let field = field(bytes, at, &mut line);
            let held = &bytes[field.from..field.to];
            if !field.sound {
                fault(4);
            }
            match columns.get(width).copied().unwrap_or(Column::Other) {
                Column::Trip => {
                    window.name_place = field.from as u32;
                    window.name_length = held.len() as u32;
                    window.name_doubled = field.doubled.into();
                }
                Column::Start => window.start = time(held).unwrap_or(i32::MIN),
                Column::End => window.end = time(held).unwrap_or(i32::MIN),
                Column::Headway => window.headway = number(held).unwrap_or(0),
                Column::Exact => window.exact = exact(held).unwrap_or(2),
                Column::Other => {}
            }
            width += 1;
            (at, ends) = (field.next, field.end);
            if ends != End::Comma {
                break;
            }
        }
        for (number, wrong) in [
            (3, width != columns.len()),
            (5, window.start == i32::MIN || window.end == i32::MIN),
            (6, window.headway == 0),
            (7, window.exact == 2),
            (8, window.name_length == 0),
        ] {
            if wrong {
                fault(number);
            }
        }
        each(count, window);
        count += 1;
    }
    (count, least)
}

/// The answer by what was found.
fn judged(count: usize, least: [u32; 9], rows: &Rows) -> Result<usize, (u32, u32)> {
    if rows.lines.len() < count {
        return Err((1, 0));
    }
    match (2..9).find(|&number| least[number] != 0) {
        Some(number) => Err((number as u32, least[number])),
        None => Ok(count),
    }
}

/// Puts a window at its place.
#[inline]
fn put(rows: &mut Rows, place: usize, window: &Window) {
    rows.name_places[place] = window.name_place;
    rows.name_lengths[place] = window.name_length;
    rows.name_doubled[place] = window.name_doubled;
    rows.starts[place] = window.start;
    rows.ends[place] = window.end;
    rows.headways[place] = window.headway;
    rows.exacts[place] = window.exact;
    rows.lines[place] = window.line;
}

/// Reads a file: how many windows there are, or the number and the line of its refusal; the rows are then as they were. Nothing
/// is allocated but for the header, so the bytes are passed twice.
pub fn read(bytes: &[u8], rows: &mut Rows) -> Result<usize, (u32, u32)> {
    let (count, least) = pass(bytes, |_, _| {});
    let answer = judged(count, least, rows)?;
    pass(bytes, |place, window| put(rows, place, &window));
    Ok(answer)
}

/// The same in one pass, with the windows in memory of its own until all are judged.
pub fn read_with_memory(bytes: &[u8], rows: &mut Rows) -> Result<usize, (u32, u32)> {
    let mut windows: Vec<Window> = Vec::with_capacity(rows.lines.len());
    let (count, least) = pass(bytes, |_, window| windows.push(window));
    let answer = judged(count, least, rows)?;
    windows.iter().enumerate().for_each(|(place, window)| put(rows, place, window));
    Ok(answer)
}

/// Reads a file into the rows as it goes: how many windows there are, or the line of the first fault.
pub fn read_as_it_goes(bytes: &[u8], rows: &mut Rows) -> Result<usize, u32> {
    let (begins, bytes) = trimmed(bytes);
    let (mut line, mut count) = (1, 0);
    let (columns, named, sound, mut at, mut ends) = header(bytes, begins, &mut line);
    if !named || !sound {
        return Err(1);
    }
    while ends == End::Line {
        line += 1;
        let begins = line;
        *rows.lines.get_mut(count).ok_or(0u32)? = begins;
        rows.exacts[count] = 0;
        ends = End::Comma;
        for &column in &columns {
            let field = field(bytes, at, &mut line);
            let held = &bytes[field.from..field.to];
            if !field.sound || ends != End::Comma {
                return Err(begins);
            }
            match column {
                Column::Trip if held.is_empty() => return Err(begins),
                Column::Trip => {
                    rows.name_places[count] = field.from as u32;
                    rows.name_lengths[count] = held.len() as u32;
                    rows.name_doubled[count] = field.doubled.into();
                }
                Column::Start => rows.starts[count] = time(held).ok_or(begins)?,
                Column::End => rows.ends[count] = time(held).ok_or(begins)?,
                Column::Headway => rows.headways[count] = number(held).filter(|&headway| headway > 0).ok_or(begins)?,
                Column::Exact => rows.exacts[count] = exact(held).ok_or(begins)?,
                Column::Other => {}
            }
            (at, ends) = (field.next, field.end);
        }
        if ends == End::Comma {
            return Err(begins);
        }
        count += 1;
    }
    Ok(count)
}
