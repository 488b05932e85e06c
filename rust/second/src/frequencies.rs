//! frequencies.txt, by the GTFS Schedule Reference and RFC 4180: the file is cut into fields first, and then judged.

use crate::Refused;
use crate::checks::{first, fits, require};
use lent::{NamedWindows, WindowRows};

/// The most bytes of a file.
const MOST: usize = 2_147_483_647;

/// The fields that a header has to name, and the one that it may.
const REQUIRED: [&[u8]; 4] = [b"trip_id", b"start_time", b"end_time", b"headway_secs"];
const OPTIONAL: &[u8] = b"exact_times";

/// A field: where it begins, its bytes with the quotes, and whether these stand where they may.
struct Field<'a> {
    begins: usize,
    raw: &'a [u8],
    sound: bool,
}

impl<'a> Field<'a> {
    /// What stands in it: without the first and the last byte, if the first is a quote.
    fn inner(&self) -> &'a [u8] {
        match self.raw {
            [b'"', inner @ .., _] => inner,
            [b'"'] => &[],
            raw => raw,
        }
    }
}

/// A row: the line on which it begins, and its fields.
struct Row<'a> {
    line: usize,
    fields: Vec<Field<'a>>,
}

impl<'a> Row<'a> {
    /// What stands in a column, nothing where there is none.
    fn cell(&self, column: Option<usize>) -> &'a [u8] {
        column.map_or(&[], |column| self.fields[column].inner())
    }
}

/// The columns of a file; exact_times may have none.
struct Columns {
    trip: usize,
    start: usize,
    end: usize,
    headway: usize,
    exact: Option<usize>,
}

/// What a row says, as far as it can be understood.
struct Window<'a> {
    line: usize,
    place: usize,
    name: &'a [u8],
    times: Option<(i32, i32)>,
    headway: Option<i32>,
    exact: Option<u8>,
}

/// The first quote behind `from` that is not one of two, if the field has one.
fn closing(bytes: &[u8], mut from: usize) -> Option<usize> {
    loop {
        let quote = from + bytes[from..].iter().position(|&byte| byte == b'"')?;
        if bytes.get(quote + 1) != Some(&b'"') {
            return Some(quote);
        }
        from = quote + 2;
    }
}

/// The field that begins at a place, and where what parts it from the next one stands, if one follows.
fn field_at(bytes: &[u8], begins: usize) -> (Field<'_>, Option<usize>) {
    let quoted = bytes.get(begins) == Some(&b'"');
    let closed = if quoted { closing(bytes, begins + 1) } else { None };
    if quoted && closed.is_none() {
        return (Field { begins, raw: &bytes[begins..], sound: false }, None);
    }
    let bare = closed.map_or(begins, |quote| quote + 1);
    let parts = bytes[bare..].iter().position(|&byte| byte == b',' || byte == b'\n').map(|after| bare + after);
    let mut ends = parts.unwrap_or(bytes.len());
    if parts.is_some_and(|place| bytes[place] == b'\n' && place > bare && bytes[place - 1] == b'\r') {
        ends -= 1;
    }
    let sound = if quoted { ends == bare } else { !bytes[begins..ends].contains(&b'"') };
    (Field { begins, raw: &bytes[begins..ends], sound }, parts)
}

/// The file without the line ends at its end.
fn trimmed(mut bytes: &[u8]) -> &[u8] {
    while let Some(rest) = bytes.strip_suffix(b"\n") {
        bytes = rest.strip_suffix(b"\r").unwrap_or(rest);
    }
    bytes
}

/// The rows of a file, the header first.
fn rows(bytes: &[u8]) -> Vec<Row<'_>> {
    let mut at = if bytes.starts_with(b"\xEF\xBB\xBF") { 3 } else { 0 };
    let bytes = trimmed(bytes);
    let mut line = 1;
    let mut rows = vec![Row { line, fields: Vec::new() }];
    loop {
        let (field, parts) = field_at(bytes, at);
        line += field.raw.iter().filter(|&&byte| byte == b'\n').count();
        rows.last_mut().expect("a row").fields.push(field);
        let Some(place) = parts else { return rows };
        at = place + 1;
        if bytes[place] == b'\n' {
            line += 1;
            rows.push(Row { line, fields: Vec::new() });
        }
    }
}

/// The columns that a header names, if it names each as often as it has to.
fn columns(header: &Row<'_>) -> Option<Columns> {
    let named = |name: &[u8]| -> Vec<usize> {
        (0..header.fields.len()).filter(|&column| header.fields[column].inner() == name).collect()
    };
    let [trip, start, end, headway] = REQUIRED.map(|name| <[usize; 1]>::try_from(named(name)).ok());
    let exact = named(OPTIONAL);
    if exact.len() > 1 {
        return None;
    }
    Some(Columns {
        trip: trip?[0],
        start: start?[0],
        end: end?[0],
        headway: headway?[0],
        exact: exact.first().copied(),
    })
}

/// The number that decimal digits say, at most `u64::MAX`; none if there is no digit or another byte.
fn number(digits: &[u8]) -> Option<u64> {
    let decimal = !digits.is_empty() && digits.iter().all(u8::is_ascii_digit);
    decimal.then(|| {
        digits.iter().fold(0, |said: u64, &digit| said.saturating_mul(10).saturating_add((digit - b'0').into()))
    })
}

/// A Time of the reference in seconds.
fn time(bytes: &[u8]) -> Option<i32> {
    let parts: Vec<&[u8]> = bytes.split(|&byte| byte == b':').collect();
    let [hours, minutes, seconds] = parts[..] else { return None };
    let sixtieth = |digits: &[u8]| number(digits).filter(|&said| digits.len() == 2 && said < 60);
    let (minutes, seconds) = (sixtieth(minutes)?, sixtieth(seconds)?);
    let time = number(hours)?.saturating_mul(3600).saturating_add(60 * minutes + seconds);
    i32::try_from(time).ok()
}

/// A Positive integer of the reference.
fn positive(bytes: &[u8]) -> Option<i32> {
    i32::try_from(number(bytes)?).ok().filter(|&said| said > 0)
}

/// exact_times.
fn exactly(bytes: &[u8]) -> Option<u8> {
    match bytes {
        b"" | b"0" => Some(0),
        b"1" => Some(1),
        _ => None,
    }
}

/// What a row says.
fn window<'a>(row: &Row<'a>, columns: &Columns) -> Window<'a> {
    let field = &row.fields[columns.trip];
    Window {
        line: row.line,
        place: field.begins + usize::from(field.raw.starts_with(b"\"")),
        name: field.inner(),
        times: time(row.cell(Some(columns.start))).zip(time(row.cell(Some(columns.end)))),
        headway: positive(row.cell(Some(columns.headway))),
        exact: exactly(row.cell(columns.exact)),
    }
}

/// Checks 5 to 8.
fn understood(windows: &[Window<'_>]) -> Result<(), Refused> {
    let line = |wrong: fn(&Window<'_>) -> bool| windows.iter().find(|window| wrong(window)).map(|window| window.line);
    first(5, line(|window| window.times.is_none()))?;
    first(6, line(|window| window.headway.is_none()))?;
    first(7, line(|window| window.exact.is_none()))?;
    first(8, line(|window| window.name.is_empty()))
}

/// Fills rows with the windows of a frequencies.txt; gives how many there are.
///
/// # Errors
/// Refusal 1 with place 0 for a file that is too long or short rows; then with the least line that offends as place 2 for
/// a header that does not name what it has to, 3 for another number of fields, 4 for quotes that stand where none may or
/// are not closed, 5 for a time, 6 for a headway, 7 for exact_times, 8 for a trip without a name.
pub fn frequencies(bytes: &[u8], lent: WindowRows<'_>) -> Result<usize, Refused> {
    let rows = rows(bytes);
    let (header, rest) = rows.split_first().expect("a header");
    let lengths = [lent.name_places.len(), lent.name_lengths.len(), lent.name_doubled.len(), lent.starts.len()];
    let others = [lent.ends.len(), lent.headways.len(), lent.exacts.len(), lent.lines.len()];
    fits(&[bytes.len() <= MOST, lengths.iter().chain(&others).all(|&length| length >= rest.len())])?;
    let columns = columns(header).ok_or(Refused { number: 2, place: 1 })?;
    let line = |row: Option<&Row<'_>>| row.map(|row| row.line);
    first(3, line(rest.iter().find(|row| row.fields.len() != header.fields.len())))?;
    first(4, line(rows.iter().find(|row| row.fields.iter().any(|field| !field.sound))))?;
    let windows: Vec<Window<'_>> = rest.iter().map(|row| window(row, &columns)).collect();
    understood(&windows)?;
    for (place, window) in windows.iter().enumerate() {
        let ((start, end), headway) = window.times.zip(window.headway).expect("a window that was understood");
        lent.name_places[place] = window.place as u32;
        lent.name_lengths[place] = window.name.len() as u32;
        lent.name_doubled[place] = window.name.contains(&b'"').into();
        (lent.starts[place], lent.ends[place], lent.headways[place]) = (start, end, headway);
        lent.exacts[place] = window.exact.unwrap_or(0);
        lent.lines[place] = window.line as u32;
    }
    Ok(windows.len())
}

/// The bytes of a name as they stand in the text, as far as they do.
fn standing<'a>(lent: &NamedWindows<'a>, window: usize) -> &'a [u8] {
    let (place, length) = (lent.name_places[window] as usize, lent.name_lengths[window] as usize);
    let rest = lent.text.get(place..).unwrap_or(&[]);
    &rest[..length.min(rest.len())]
}

/// Whether every quote is one of two next to each other.
fn paired(name: &[u8]) -> bool {
    name.split(|&byte| byte != b'"').all(|quotes| quotes.len() % 2 == 0)
}

/// The bytes with each of some bytes replaced by others.
fn replaced(bytes: &[u8], old: &str, new: &str) -> Vec<u8> {
    let mut left = Vec::with_capacity(bytes.len());
    let mut rest = bytes;
    while let Some((&byte, behind)) = rest.split_first() {
        if let Some(behind) = rest.strip_prefix(old.as_bytes()) {
            left.extend_from_slice(new.as_bytes());
            rest = behind;
        } else {
            left.push(byte);
            rest = behind;
        }
    }
    left
}

/// The line of a window.
fn line_of(lent: &NamedWindows<'_>, window: usize) -> Vec<u8> {
    let bytes = standing(lent, window);
    let name = if lent.name_doubled[window] == 0 { bytes.to_vec() } else { replaced(bytes, "\"\"", "\"") };
    let quoted = name.iter().any(|byte| b",\"\r\n".contains(byte));
    let mut line = if quoted { [b"\"", &replaced(&name, "\"", "\"\"")[..], b"\""].concat() } else { name };
    let clock = |time: i32| format!("{:02}:{:02}:{:02}", time / 3600, time / 60 % 60, time % 60);
    let (start, end) = (clock(lent.starts[window]), clock(lent.ends[window]));
    line.extend(format!(",{start},{end},{},{}\n", lent.headways[window], lent.exacts[window]).bytes());
    line
}

/// Fills the front of `bytes` with the frequencies.txt of windows and the names of their trips; gives how long it is.
///
/// # Errors
/// Refusal 1 for too many windows or short rows; then with the least window that offends 4 for a quote that is not one of
/// two where quotes are said to stand double, 5 for a time below 0, 6 for a headway of 0 or less, 7 for exact_times above
/// 1, 8 for a name of no bytes or beyond the text; and 9 for too few bytes.
pub fn write_frequencies(lent: NamedWindows<'_>, bytes: &mut [u8]) -> Result<usize, Refused> {
    let count = lent.windows;
    let lengths = [lent.name_places.len(), lent.name_lengths.len(), lent.name_doubled.len(), lent.starts.len()];
    let others = [lent.ends.len(), lent.headways.len(), lent.exacts.len()];
    fits(&[count <= MOST, lengths.iter().chain(&others).all(|&length| length >= count)])?;
    let check = |number: u32, good: &dyn Fn(usize) -> bool| first(number, (0..count).find(|&window| !good(window)));
    check(4, &|window| lent.name_doubled[window] == 0 || paired(standing(&lent, window)))?;
    check(5, &|window| lent.starts[window].min(lent.ends[window]) >= 0)?;
    check(6, &|window| lent.headways[window] > 0)?;
    check(7, &|window| lent.exacts[window] <= 1)?;
    check(8, &|window| {
        let length = lent.name_lengths[window] as usize;
        length > 0 && standing(&lent, window).len() == length
    })?;
    let mut file = [&REQUIRED.join(&b","[..])[..], b",", OPTIONAL, b"\n"].concat();
    (0..count).for_each(|window| file.extend(line_of(&lent, window)));
    require(file.len() <= bytes.len().min(MOST), 9)?;
    bytes[..file.len()].copy_from_slice(&file);
    Ok(file.len())
}
