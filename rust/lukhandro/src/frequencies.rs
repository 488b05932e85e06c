//! frequencies.txt of a GTFS feed, read and written by proved calls.
//!
//! ```
//! use lukhandro::frequencies::{read, windows_of, write};
//!
//! let file = b"trip_id,headway_secs,start_time,end_time\nSTBA,1800,6:00:00,22:00:00\n\"CITY, 1\",600,8:00:00,9:59:59\n";
//! let windows = read(file)?;
//! assert_eq!((&*windows[1].trip, windows[1].start, windows[1].line), (&b"CITY, 1"[..], 28800, 3));
//!
//! // Every departure of a trip, in time order.
//! let mut list = [0; 2000];
//! let length = lukhandro::departures(&windows_of(&windows, b"STBA"), &mut list).expect("windows that do not overlap");
//! assert_eq!((length, list[length - 1]), (32, 77400));
//!
//! // What is written is read to the same windows.
//! let written = write(&windows)?;
//! assert!(written.ends_with(b"STBA,06:00:00,22:00:00,1800,0\n\"CITY, 1\",08:00:00,09:59:59,600,0\n"));
//!
//! // What is wrong is said with its line, and what to do.
//! let refused = read(b"trip_id,start_time,end_time,headway_secs\nSTBA,6:00:00,22:60:00,1800\n").unwrap_err();
//! assert_eq!(
//!     refused.to_string(),
//!     "frequencies.txt refused 5 2: line 2 has the end_time \"22:60:00\", which is no time up to 596523:14:07: write \
//!      it as 6:00:00, minutes and seconds from 00 to 59"
//! );
//! # Ok::<(), lukhandro::frequencies::Refused>(())
//! ```

use std::borrow::Cow;
use std::fmt;

use crate::lent::{self, NamedWindows, WindowRows};

/// The most bytes of a file.
pub const MOST_BYTES: usize = 2_147_483_647;

/// A window of frequencies.txt.
#[derive(Clone, Debug, PartialEq, Eq)]
pub struct Window<'a> {
    /// The name of its trip, a part of the file's bytes unless quotes stand double in it.
    pub trip: Cow<'a, [u8]>,
    /// The first departure, in seconds since noon minus 12 hours of the service day, if it is before the end.
    pub start: i32,
    /// When service ends or another headway begins; nothing departs at that time any more.
    pub end: i32,
    /// The seconds from one departure to the next.
    pub headway: i32,
    /// exact_times: whether the times are a timetable.
    pub exact: bool,
    /// The line on which it was read, counted from 1; writing does not look at it.
    pub line: u32,
}

impl Window<'_> {
    /// The name of its trip as text; bytes that are none are shown as such.
    #[must_use]
    pub fn trip_text(&self) -> Cow<'_, str> {
        String::from_utf8_lossy(&self.trip)
    }
}

/// The windows of one trip, as the [board](crate::departures) takes them.
#[must_use]
pub fn windows_of(windows: &[Window<'_>], trip: &[u8]) -> Vec<crate::Window> {
    let of_trip = windows.iter().filter(|window| *window.trip == *trip);
    of_trip.map(|&Window { start, end, headway, .. }| crate::Window { start, end, headway }).collect()
}

/// Why a file was not read, or windows not written. Two refusals are equal if their numbers and places are.
#[derive(Clone, Debug)]
#[non_exhaustive]
pub struct Refused {
    /// Which check refused, 1 to 8 of a file that is read, 1 and 4 to 9 of windows that are written.
    pub number: u32,
    /// The least line that offends, counted from 1; of windows the least window, counted from 0; or 0.
    pub place: u32,
    said: String,
}

impl PartialEq for Refused {
    fn eq(&self, other: &Refused) -> bool {
        (self.number, self.place) == (other.number, other.place)
    }
}

impl Eq for Refused {}

impl fmt::Display for Refused {
    fn fmt(&self, f: &mut fmt::Formatter<'_>) -> fmt::Result {
        write!(f, "frequencies.txt refused {} {}: {}", self.number, self.place, self.said)
    }
}

impl std::error::Error for Refused {}

/// The windows of a frequencies.txt, in the order of its lines.
///
/// # Errors
/// Refusals 1 to 8 with the least line that offends: a file of more than [`MOST_BYTES`]; a header that lacks a required
/// field or names one twice; a line with another number of fields; quotes; times; headways; exact_times; a trip without a
/// name.
pub fn read(bytes: &[u8]) -> Result<Vec<Window<'_>>, Refused> {
    let most = bytes.iter().filter(|&&byte| byte == b'\n').count();
    let (mut places, mut lengths, mut lines) = (vec![0; most], vec![0; most], vec![0; most]);
    let (mut starts, mut ends, mut headways) = (vec![0; most], vec![0; most], vec![0; most]);
    let (mut doubled, mut exacts) = (vec![0; most], vec![0; most]);
    let rows = WindowRows {
        name_places: &mut places,
        name_lengths: &mut lengths,
        name_doubled: &mut doubled,
        starts: &mut starts,
        ends: &mut ends,
        headways: &mut headways,
        exacts: &mut exacts,
        lines: &mut lines,
    };
    let outcome = lent::frequencies(bytes, rows);
    if outcome.number != 0 {
        let said = said_of_line(bytes, outcome.number, outcome.place as usize);
        return Err(Refused { number: outcome.number, place: outcome.place, said });
    }
    let window = |i: usize| {
        let name = &bytes[places[i] as usize..][..lengths[i] as usize];
        Window {
            trip: if doubled[i] == 0 { Cow::Borrowed(name) } else { Cow::Owned(halved(name)) },
            start: starts[i],
            end: ends[i],
            headway: headways[i],
            exact: exacts[i] == 1,
            line: lines[i],
        }
    };
    Ok((0..outcome.length).map(window).collect())
}

/// The frequencies.txt of windows: the reference's fields in its order, quoted only where they must be.
///
/// # Errors
/// Refusals with the least window that offends: 5 a time below 0, 6 a headway of 0 or less, 8 a trip without a name; and 9
/// a file of more than [`MOST_BYTES`].
pub fn write(windows: &[Window<'_>]) -> Result<Vec<u8>, Refused> {
    let text: Vec<u8> = windows.iter().flat_map(|window| window.trip.iter().copied()).collect();
    let narrow = |length: usize| u32::try_from(length).unwrap_or(u32::MAX);
    let lengths: Vec<u32> = windows.iter().map(|window| narrow(window.trip.len())).collect();
    let places = windows.iter().scan(0, |ends, window| {
        *ends += window.trip.len();
        Some(narrow(*ends - window.trip.len()))
    });
    let places: Vec<u32> = places.collect();
    let row = |number: fn(&Window<'_>) -> i32| windows.iter().map(number).collect::<Vec<i32>>();
    let (starts, ends) = (row(|window| window.start), row(|window| window.end));
    let headways = row(|window| window.headway);
    let exacts: Vec<u8> = windows.iter().map(|window| window.exact.into()).collect();
    let lent = NamedWindows {
        windows: windows.len(),
        text: &text,
        name_places: &places,
        name_lengths: &lengths,
        name_doubled: &vec![0; windows.len()],
        starts: &starts,
        ends: &ends,
        headways: &headways,
        exacts: &exacts,
    };
    // the header, and of each window two quotes, its name with each byte twice, two times, a headway and what parts them
    let mut file = vec![0; 53 + 2 * text.len() + 42 * windows.len()];
    let outcome = lent::write_frequencies(lent, &mut file);
    if outcome.number != 0 {
        let said = said_of_window(windows, outcome.number, outcome.place as usize);
        return Err(Refused { number: outcome.number, place: outcome.place, said });
    }
    file.truncate(outcome.length);
    Ok(file)
}

/// A name in which quotes stand double, with each two of them one.
fn halved(name: &[u8]) -> Vec<u8> {
    let mut second = false;
    let once = |&byte: &u8| {
        second = byte == b'"' && !second;
        (byte != b'"' || second).then_some(byte)
    };
    name.iter().filter_map(once).collect()
}

// ── what a refusal says: the words are found by looking at the line that it names ──

/// What stands in a field, and whether its quotes are closed.
struct Shown<'a> {
    raw: &'a [u8],
    closed: bool,
}

impl Shown<'_> {
    /// As text in quotes, with what is no text escaped.
    fn text(&self) -> String {
        let inner = self.raw.strip_prefix(b"\"").and_then(|rest| rest.strip_suffix(b"\"")).unwrap_or(self.raw);
        format!("\"{}\"", inner.escape_ascii())
    }
}

/// The fields of the row that begins with a line, counted from 1.
fn fields(bytes: &[u8], line: usize) -> Vec<Shown<'_>> {
    let bytes = bytes.strip_prefix(b"\xEF\xBB\xBF").unwrap_or(bytes);
    let before: usize = bytes.split_inclusive(|&byte| byte == b'\n').take(line.max(1) - 1).map(<[u8]>::len).sum();
    let (row, mut found, mut begins, mut inside) = (&bytes[before..], Vec::new(), 0, false);
    for at in 0..=row.len() {
        let byte = row.get(at);
        if byte == Some(&b'"') && (inside || at == begins || row[begins] == b'"') {
            inside = !inside;
        }
        if byte.is_none() || (!inside && matches!(byte, Some(b',' | b'\n'))) {
            let raw = &row[begins..at];
            let raw = if byte == Some(&b',') { raw } else { raw.strip_suffix(b"\r").unwrap_or(raw) };
            found.push(Shown { raw, closed: !inside });
            begins = at + 1;
            if byte != Some(&b',') {
                return found;
            }
        }
    }
    found
}

/// Whether a field is a time: the library is asked.
fn is_time(field: &Shown<'_>) -> bool {
    let file = [b"trip_id,end_time,headway_secs,start_time\nx,0:00:00,1,", field.raw].concat();
    let rows = WindowRows {
        name_places: &mut [0],
        name_lengths: &mut [0],
        name_doubled: &mut [0],
        starts: &mut [0],
        ends: &mut [0],
        headways: &mut [0],
        exacts: &mut [0],
        lines: &mut [0],
    };
    lent::frequencies(&file, rows).number == 0
}

/// What is wrong in a line, and what to do about it.
fn said_of_line(bytes: &[u8], number: u32, line: usize) -> String {
    let (header, row) = (fields(bytes, 1), fields(bytes, line));
    let places = |name: &str| -> Vec<usize> {
        let quoted = format!("\"{name}\"");
        (0..header.len()).filter(|&place| header[place].text() == quoted).collect()
    };
    let field = |name: &str| places(name).first().and_then(|&place| row.get(place));
    let shown = |name: &str| field(name).map_or("\"\"".to_string(), Shown::text);
    match number {
        1 => format!("the file has {} bytes, and {MOST_BYTES} is the most", bytes.len()),
        2 => {
            let required = ["trip_id", "start_time", "end_time", "headway_secs"];
            let wrong = |name: &&str| places(name).len() != 1;
            let name = required.iter().copied().find(wrong).unwrap_or("exact_times");
            let what =
                if places(name).is_empty() { format!("does not name {name}") } else { format!("names {name} twice") };
            format!(
                "line 1 {what}: it names trip_id, start_time, end_time and headway_secs once each, and exact_times at most once"
            )
        }
        3 if row.len() == 1 && row[0].raw.is_empty() => {
            format!("line {line} is empty, and there are lines below it: take it away")
        }
        3 => format!(
            "line {line} has {} field{} and the first line {}: count its commas; a quote that is not closed takes in the lines below it",
            row.len(),
            if row.len() == 1 { "" } else { "s" },
            header.len()
        ),
        4 if row.iter().any(|field| !field.closed) => {
            format!("line {line} has a quote that is not closed: close it at the end of its field")
        }
        4 => format!(
            "line {line} has a quote where none may stand: put the whole field into quotes, and double each quote in it"
        ),
        5 => {
            let name = if field("start_time").is_some_and(is_time) { "end_time" } else { "start_time" };
            format!(
                "line {line} has the {name} {}, which is no time up to 596523:14:07: write it as 6:00:00, minutes and seconds from 00 to 59",
                shown(name)
            )
        }
        6 => format!(
            "line {line} has the headway_secs {}: write a whole number of seconds from 1 to 2147483647",
            shown("headway_secs")
        ),
        7 => format!("line {line} has the exact_times {}: write 0 or 1, or nothing", shown("exact_times")),
        8 => format!("line {line} names no trip: give it the trip_id of trips.txt"),
        _ => "no check has this number".to_string(),
    }
}

/// What is wrong with a window that is to be written.
fn said_of_window(windows: &[Window<'_>], number: u32, place: usize) -> String {
    let named = |number: fn(&Window<'_>) -> i32| windows.get(place).map_or(0, number);
    match number {
        1 => "there are more than 2147483647 windows".to_string(),
        5 => format!(
            "window {place} is from {} to {}: a time is 0 or more",
            named(|window| window.start),
            named(|window| window.end)
        ),
        6 => format!("window {place} has the headway {}: give it one above 0", named(|window| window.headway)),
        8 => format!("window {place} has a trip without a name: name it"),
        9 => format!("the file would have more than {MOST_BYTES} bytes: write fewer windows"),
        _ => "no check of what is written so has this number".to_string(),
    }
}
