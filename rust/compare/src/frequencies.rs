//! frequencies.txt, read and written, as tests of any engine: the sample feed and the edges of the format, both sides of
//! the edge of each refusal, the page that shows them, and random files, whole, damaged and mutated.

use second::{BLANK, HIGHEST};

use crate::runs::{gives, with};
use crate::{
    Call, Case, Difference, Engine, Guarded, Random, Second, Side, Test, agreed, lengthen, one_short, seed, shorten,
    shrink,
};

/// How many files are drawn at random: 20,000, or as many as `LUKHANDRO_FILES` says.
fn files_drawn() -> usize {
    std::env::var("LUKHANDRO_FILES").map_or(20_000, |files| files.parse().expect("LUKHANDRO_FILES is a number"))
}

/// The header of a file that is written.
const HEADER: &str = "trip_id,start_time,end_time,headway_secs,exact_times\n";

/// The page that shows the format.
const PAGE: &str = include_str!("../../../docs/FREQUENCIES.md");

/// The sample feed's.
const SAMPLE: &[u8] = include_bytes!("../../../examples/feed/frequencies.txt");

/// A window as it is read: its trip's name, start, end, headway, exact_times and line.
type Window<'a> = (&'a str, i32, i32, i32, u8, u32);

/// A window with its name: start, end, headway and exact_times.
pub(crate) type Named = (Vec<u8>, i32, i32, i32, u8);

/// How many windows a file has, told by the fewest places that the second implementation finds enough.
pub(crate) fn windows_in(bytes: &[u8]) -> usize {
    let enough = |&windows: &usize| Second.answer(&mut lent_rows(bytes, windows)).number != 1;
    let (mut few, mut most) = (0, bytes.iter().filter(|&&byte| byte == b'\n').count());
    while few < most {
        let middle = few.midpoint(most);
        (few, most) = if enough(&middle) { (few, middle) } else { (middle + 1, most) };
    }
    most
}

/// How many bytes the file of a case's windows has, as far as there are so many.
pub(crate) fn length_of(case: &Case) -> usize {
    let most = HEADER.len() + case.windows.min(1 << 20) * (64 + 2 * case.bytes.len());
    let mut case = Case { file: vec![0; most.min(1 << 24)].into(), ..case.clone() };
    Second.answer(&mut case).length as usize
}

/// A file read into rows of so many places.
fn lent_rows(bytes: &[u8], windows: usize) -> Case {
    let (words, numbers, flags) = (vec![0x0EEE; windows], vec![-7; windows], vec![7; windows]);
    Case {
        call: Call::Frequencies,
        bytes: bytes.to_vec().into(),
        name_places: words.clone().into(),
        name_lengths: words.clone().into(),
        lines: words.into(),
        starts: numbers.clone().into(),
        ends: numbers.clone().into(),
        headways: numbers.into(),
        name_doubled: flags.clone().into(),
        exacts: flags.into(),
        ..Case::default()
    }
}

/// A file read into rows that are just as long as it has windows.
#[must_use]
pub fn reading(bytes: &[u8]) -> Case {
    lent_rows(bytes, windows_in(bytes))
}

/// A read of a file of so many windows, whose names are long and have quotes, commas and line ends.
pub(crate) fn long_feed(windows: usize) -> Case {
    let row = format!("\"{}\",596523:14:07,25:10:00,2147483647\r\n", "a \"\"b\"\",\n".repeat(16));
    lent_rows(&file_of(&row.repeat(windows)), windows)
}

/// The windows that a read left, written into just as many bytes as their file has.
#[must_use]
pub fn writing(read: &Case, windows: usize) -> Case {
    let mut case = Case {
        call: Call::WriteFrequencies,
        windows,
        lines: Guarded::default(),
        file: Guarded::default(),
        ..read.clone()
    };
    case.file = vec![0xEE; length_of(&case)].into();
    case
}

/// The name of a window's trip, as it stands among a case's bytes, with each two quotes one where they stand double.
fn name(case: &Case, window: usize) -> Vec<u8> {
    let (place, length) = (case.name_places[window] as usize, case.name_lengths[window] as usize);
    let mut quotes = 0;
    let once = |byte: &&u8| {
        quotes += usize::from(**byte == b'"');
        case.name_doubled[window] == 0 || **byte != b'"' || quotes % 2 == 1
    };
    case.bytes[place..place + length].iter().filter(once).copied().collect()
}

/// The windows of a read, but for their lines.
pub(crate) fn windows(case: &Case, count: usize) -> Vec<Named> {
    let window = |i: usize| (name(case, i), case.starts[i], case.ends[i], case.headways[i], case.exacts[i]);
    (0..count).map(window).collect()
}

/// Asserts the windows of a file that is accepted; nothing but the rows changes, and those beyond the windows do not.
fn reads(engine: &dyn Engine, file: &[u8], expected: &[Window<'_>]) {
    let case = lent_rows(file, expected.len() + 2);
    let Side { answer, left } = Side::of(engine, &case);
    let text = file.escape_ascii();
    assert_eq!((answer.number, answer.place, answer.length as usize), (0, 0, expected.len()), "{text}");
    for (i, &(trip, start, end, headway, exact, line)) in expected.iter().enumerate() {
        let read = (left.starts[i], left.ends[i], left.headways[i], left.exacts[i], left.lines[i]);
        assert_eq!(name(&left, i), trip.as_bytes(), "{text}");
        assert_eq!(read, (start, end, headway, exact, line), "{text}");
    }
    let count = expected.len();
    assert!(left.lines[count..] == [0x0EEE; 2] && left.exacts[count..] == [7; 2], "beyond the windows");
    assert_eq!(left.bytes, case.bytes);
    gives(engine, "rows that are just as long", &lent_rows(file, count), 0, 0);
}

/// Asserts a refusal at a line.
fn refuses(engine: &dyn Engine, file: &[u8], number: u32, line: u32) {
    gives(engine, &file.escape_ascii().to_string(), &reading(file), number, line);
}

/// A file of four columns with these rows.
fn file_of(rows: &str) -> Vec<u8> {
    format!("trip_id,start_time,end_time,headway_secs\n{rows}").into_bytes()
}

fn the_sample_feed(engine: &dyn Engine) {
    const AM: i32 = 3600;
    let peaks = [(6, 8, 1800), (8, 10, 600), (10, 16, 1800), (16, 19, 600)];
    let mut expected: Vec<Window<'_>> = vec![("STBA", 6 * AM, 22 * AM, 1800, 0, 2)];
    for (start, end, headway) in peaks {
        for trip in ["CITY1", "CITY2"] {
            expected.push((trip, start * AM, end * AM - 1, headway, 0, expected.len() as u32 + 2));
        }
    }
    for trip in ["CITY1", "CITY2"] {
        expected.push((trip, 19 * AM, 22 * AM, 1800, 0, expected.len() as u32 + 2));
    }
    reads(engine, SAMPLE, &expected);
    let six: Vec<u8> = SAMPLE.split_inclusive(|&byte| byte == b'\n').take(7).flatten().copied().collect();
    reads(engine, &six, &expected[..6]);
}

fn times(engine: &dyn Engine) {
    for (text, seconds) in [
        ("0:00:00", 0),
        ("6:00:00", 21600),
        ("06:00:00", 21600),
        ("23:59:59", 86399),
        ("24:00:00", 86400),
        ("25:10:00", 90600),
        ("100:00:01", 360_001),
        ("0000000006:00:00", 21600),
        ("596523:14:07", HIGHEST),
        ("\"7:00:00\"", 25200),
    ] {
        reads(engine, &file_of(&format!("A,{text},{text},60\n")), &[("A", seconds, seconds, 60, 0, 2)]);
    }
    for text in [
        "",
        "6:00",
        "6:00:0",
        "6:0:00",
        "6:60:00",
        "6:00:60",
        "6:99:00",
        ":00:00",
        "6:00:00 ",
        " 6:00:00",
        "-6:00:00",
        "+6:00:00",
        "6;00:00",
        "6:00.00",
        "6:00:00:00",
        "a:00:00",
        "6:0a:00",
        "6:00:/0",
        "6::0000",
        "596523:14:08",
        "596524:00:00",
        "4294967296:00:00",
        "18446744073709551616:00:00",
        "99999999999999999999999:00:00",
        "\"6:00\"\":00\"",
    ] {
        for (start, end) in [(text, "7:00:00"), ("6:00:00", text)] {
            refuses(engine, &file_of(&format!("A,6:00:00,7:00:00,60\nB,{start},{end},60\n")), 5, 3);
        }
    }
}

fn headways_and_exact_times(engine: &dyn Engine) {
    for (text, headway) in [("1", 1), ("600", 600), ("00600", 600), ("2147483647", HIGHEST), ("\"60\"", 60)] {
        reads(engine, &file_of(&format!("A,6:00:00,7:00:00,{text}")), &[("A", 21600, 25200, headway, 0, 2)]);
    }
    for text in [
        "",
        "0",
        "000",
        "-1",
        "+1",
        "60 ",
        " 60",
        "6.0",
        "1e3",
        "2147483648",
        "9999999999999999999999",
        "60s",
        "/",
        ":",
    ] {
        refuses(engine, &file_of(&format!("A,6:00:00,7:00:00,{text}\n")), 6, 2);
    }
    let exact = |text: &str| format!("{HEADER}A,6:00:00,7:00:00,60,{text}\n").into_bytes();
    for (text, exact_times) in [("", 0), ("0", 0), ("1", 1), ("\"1\"", 1), ("\"\"", 0)] {
        reads(engine, &exact(text), &[("A", 21600, 25200, 60, exact_times, 2)]);
    }
    for text in ["2", "00", "01", " ", "1 ", "/", "yes"] {
        refuses(engine, &exact(text), 7, 2);
    }
}

fn line_ends_and_marks(engine: &dyn Engine) {
    let one: [Window<'_>; 1] = [("A", 21600, 25200, 60, 0, 2)];
    let lines = ["trip_id,start_time,end_time,headway_secs", "A,6:00:00,7:00:00,60"];
    for end in ["\n", "\r\n"] {
        for last in ["", "\n", "\r\n", "\n\n", "\r\n\r\n", "\n\r\n\n"] {
            let file = format!("{}{last}", lines.join(end));
            reads(engine, file.as_bytes(), &one);
            reads(engine, format!("\u{FEFF}{file}").as_bytes(), &one);
            reads(engine, format!("{}{last}", lines[0]).as_bytes(), &[]);
        }
    }
    refuses(engine, format!("{}\r", lines.join("\n")).as_bytes(), 6, 2);
    refuses(engine, format!("{}\r\r\n", lines.join("\n")).as_bytes(), 6, 2);
    refuses(engine, format!("\u{FEFF}\u{FEFF}{}", lines.join("\n")).as_bytes(), 2, 1);
    refuses(engine, lines.join("\r").as_bytes(), 2, 1);
    reads(engine, &file_of("A\r,6:00:00,7:00:00,60\n"), &[("A\r", 21600, 25200, 60, 0, 2)]);
    for (empty, line) in [("\n", 2), ("\r\n", 2), ("A,6:00:00,7:00:00,60\n\n", 3)] {
        refuses(engine, &file_of(&format!("{empty}A,6:00:00,7:00:00,60\n")), 3, line);
    }
    for nothing in ["", "\n", "\r\n", "\n\n\n", "\r", "\u{FEFF}", "\u{FEFF}\n"] {
        refuses(engine, nothing.as_bytes(), 2, 1);
    }
    refuses(engine, format!("\n{}", lines.join("\n")).as_bytes(), 2, 1);
}

fn columns(engine: &dyn Engine) {
    let expected: [Window<'_>; 1] = [("A", 21600, 25200, 60, 1, 2)];
    for (header, row) in [
        ("exact_times,headway_secs,end_time,start_time,trip_id", "1,60,7:00:00,6:00:00,A"),
        ("end_time,trip_id,exact_times,start_time,headway_secs", "7:00:00,A,1,6:00:00,60"),
        (
            "note,trip_id,note,start_time,end_time,headway_secs,,exact_times,",
            "x,A,\"y,\"\"\n\",6:00:00,7:00:00,60,,1,z",
        ),
        ("\"trip_id\",\"start_time\",end_time,\"headway_secs\",exact_times", "A,6:00:00,7:00:00,60,1"),
    ] {
        reads(engine, format!("{header}\n{row}\n").as_bytes(), &expected);
    }
    for header in [
        "start_time,end_time,headway_secs",
        "trip_id,start_time,end_time,headway",
        "trip_id,start_time,end_time,headway_secs,trip_id",
        "trip_id,start_time,start_time,end_time,headway_secs",
        "trip_id,start_time,end_time,headway_secs,exact_times,exact_times",
        "trip_id, start_time,end_time,headway_secs",
        "Trip_id,start_time,end_time,headway_secs",
        "trip_id;start_time;end_time;headway_secs",
        "\"trip_id,start_time,end_time,headway_secs\"",
        "trip_ids,start_time,end_time,headway_secs",
        "\"trip_id\"\"\",start_time,end_time,headway_secs",
    ] {
        refuses(engine, header.as_bytes(), 2, 1);
        refuses(engine, format!("{header}\nA,6:00:00,7:00:00,60\n").as_bytes(), 2, 1);
    }
}

fn quotes(engine: &dyn Engine) {
    for (field, trip) in [
        ("\"A\"", "A"),
        ("\"a, b\"", "a, b"),
        ("\"say \"\"hi\"\"\"", "say \"hi\""),
        ("\"\"\"\"", "\""),
        ("\"\"\"\"\"\"", "\"\""),
        ("\"one\ntwo\"", "one\ntwo"),
        ("\"one\r\ntwo\r\"", "one\r\ntwo\r"),
        (" A ", " A "),
        ("Zürich", "Zürich"),
    ] {
        let below = 3 + field.matches('\n').count() as u32;
        reads(
            engine,
            &file_of(&format!("{field},6:00:00,7:00:00,60\r\nB,6:00:00,7:00:00,90")),
            &[(trip, 21600, 25200, 60, 0, 2), ("B", 21600, 25200, 90, 0, below)],
        );
    }
    for field in
        ["A\"", "A\"B\"", " \"A\"", "\"A\" ", "\"A\"B", "\"A\"B\"", "\"A\"\"B\"C", "\"A\"\r", "\"\"A\"\"", "\"\"\"A"]
    {
        let closed = field.matches('"').count() % 2 == 0 || !field.starts_with('"');
        let file = file_of(&format!("B,6:00:00,7:00:00,60\n{field},6:00:00,7:00:00,60\n"));
        refuses(engine, &file, if closed || field == "\"A\"B\"" { 4 } else { 3 }, 3);
    }
    refuses(engine, &file_of("A,6:00:00,7:00:00,60\nA,6:00:00,7:00:00,\"60\nA,6:00:00,7:00:00,60\n"), 4, 3);
    refuses(engine, &file_of("A,6:00:00,7:00:00,\"60"), 4, 2);
    refuses(engine, &file_of("A,6:00:00,7:00:00,\""), 4, 2);
    refuses(engine, b"trip_id,start_time,end_time,headway_secs,no\"te", 4, 1);
}

fn reading_1(engine: &dyn Engine) {
    let bad = file_of("\"A,6,7,8\n");
    for file in [SAMPLE, &file_of("A,6:00:00,7:00:00,60"), &bad, b"a,\"\n\"\nc"] {
        for short in one_short(&reading(file)) {
            if short.starts.len() + short.lines.len() + short.exacts.len() > 0 || windows_in(file) > 0 {
                gives(engine, "a row one short", &short, if windows_in(file) > 0 { 1 } else { 0 }, 0);
            }
        }
    }
    gives(engine, "no window needs no row", &lent_rows(&file_of(""), 0), 0, 0);
    gives(engine, "no header needs no row", &lent_rows(b"", 0), 2, 1);
    gives(engine, "one place and a header that is wrong", &lent_rows(b"a\nb", 1), 2, 1);
    gives(engine, "no place and a header that is wrong", &lent_rows(b"a\nb", 0), 1, 0);
}

/// Each number over the whole file before the next, and of one number the least line.
fn each_number_before_the_next(engine: &dyn Engine) {
    let wrong = [
        ("A,6:00:00,7:00:00", 3),
        ("A\",6:00:00,7:00:00,60,0", 4),
        ("A,6:00,7:00:00,60,0", 5),
        ("A,6:00:00,7:00:00,0,0", 6),
        ("A,6:00:00,7:00:00,60,2", 7),
        (",6:00:00,7:00:00,60,0", 8),
    ];
    for first in 0..wrong.len() {
        let rows: Vec<&str> = wrong[first..].iter().rev().map(|(row, _)| *row).collect();
        let file = format!("{HEADER}B,6:00:00,7:00:00,60,1\n{}\n{}\n", rows.join("\n"), wrong[first].0);
        refuses(engine, file.as_bytes(), wrong[first].1, 2 + rows.len() as u32);
        let all = "\",6:00,7:00:00,0,2";
        let expected = if wrong[first].1 == 3 { (3, 3) } else { (4, 2) };
        let file = format!("{HEADER}\"\"x{all}\n{}\n", wrong[first].0);
        refuses(engine, file.as_bytes(), expected.0, expected.1);
    }
    refuses(engine, format!("{HEADER},6:00:00,7:00:00,60,2\n,6:00,7:00:00,0,0\n").as_bytes(), 5, 3);
    refuses(engine, format!("{HEADER}\"\",6:00:00,7:00:00,60,1\n").as_bytes(), 8, 2);
}

/// Windows of names, to be written.
fn named(windows: &[(&str, i32, i32, i32, u8)]) -> Case {
    let text: String = windows.iter().map(|window| window.0).collect();
    let places = windows.iter().scan(0, |place, window| {
        *place += window.0.len() as u32;
        Some(*place - window.0.len() as u32)
    });
    let mut case = Case {
        call: Call::WriteFrequencies,
        windows: windows.len(),
        bytes: text.into_bytes().into(),
        name_places: places.collect::<Vec<u32>>().into(),
        name_lengths: windows.iter().map(|window| window.0.len() as u32).collect::<Vec<u32>>().into(),
        name_doubled: vec![0; windows.len()].into(),
        starts: windows.iter().map(|window| window.1).collect::<Vec<i32>>().into(),
        ends: windows.iter().map(|window| window.2).collect::<Vec<i32>>().into(),
        headways: windows.iter().map(|window| window.3).collect::<Vec<i32>>().into(),
        exacts: windows.iter().map(|window| window.4).collect::<Vec<u8>>().into(),
        ..Case::default()
    };
    case.file = vec![0xEE; length_of(&case)].into();
    case
}

/// Asserts the file of windows; nothing but the buffer changes, and no byte beyond the file.
fn writes(engine: &dyn Engine, case: &Case, rows: &str) {
    let file = format!("{HEADER}{rows}");
    let case = with(case, |case| case.file = vec![0xEE; file.len() + 3].into());
    let Side { answer, left } = Side::of(engine, &case);
    assert_eq!(left.file[..file.len()].escape_ascii().to_string(), file.as_bytes().escape_ascii().to_string());
    assert_eq!((answer.number, answer.place, answer.length as usize), (0, 0, file.len()), "{rows}");
    assert_eq!(left.file[file.len()..], [0xEE; 3], "beyond the file");
    assert_eq!(left, Case { file: left.file.clone(), ..case }, "nothing but the file changes");
}

fn written(engine: &dyn Engine) {
    writes(engine, &named(&[]), "");
    writes(engine, &named(&[("STBA", 21600, 79200, 1800, 0)]), "STBA,06:00:00,22:00:00,1800,0\n");
    let names = [("a,b", 0, 0, 1, 1), ("say \"hi\"", 359_999, 360_000, HIGHEST, 0), ("\n", HIGHEST, 59, 10, 1)];
    let rows = "\"a,b\",00:00:00,00:00:00,1,1\n\"say \"\"hi\"\"\",99:59:59,100:00:00,2147483647,0\n\"\n\",596523:14:07,00:00:59,10,1\n";
    writes(engine, &named(&names), rows);
    writes(
        engine,
        &named(&[("\r", 1, 2, 3, 0), (" ", 60, 3600, 99, 0)]),
        "\"\r\",00:00:01,00:00:02,3,0\n ,00:01:00,01:00:00,99,0\n",
    );
    let doubled = with(&named(&[("a\"\"b", 0, 1, 1, 0), ("\"\"\"\"", 0, 1, 1, 0)]), |case| case.name_doubled.fill(255));
    writes(engine, &doubled, "\"a\"\"b\",00:00:00,00:00:01,1,0\n\"\"\"\"\"\",00:00:00,00:00:01,1,0\n");
    let shared = with(&named(&[("CITY1", 0, 1, 1, 0), ("X", 0, 1, 1, 0)]), |case| {
        case.name_places.copy_from_slice(&[0, 0]);
        case.name_lengths.copy_from_slice(&[4, 6]);
    });
    writes(engine, &shared, "CITY,00:00:00,00:00:01,1,0\nCITY1X,00:00:00,00:00:01,1,0\n");
}

fn writing_refused(engine: &dyn Engine) {
    let good = named(&[("A", 0, 1, 1, 0), ("B\"", 2, 3, 1, 1), ("C", 4, 5, 1, 0)]);
    gives(engine, "three windows", &good, 0, 0);
    gives(engine, "fewer windows than places", &with(&good, |case| case.windows = 2), 0, 0);
    for windows in [4, usize::MAX, 1 << 31, 1 << 62] {
        gives(engine, "more windows than places", &with(&good, |case| case.windows = windows), 1, 0);
    }
    for (which, short) in one_short(&good).iter().enumerate() {
        gives(engine, "a row one short", short, if which == 7 { 9 } else { 1 }, 0);
    }
    for place in 0..3usize {
        let at = place as u32;
        let refused = |what: &str, number: u32, change: &dyn Fn(&mut Case)| {
            gives(engine, what, &with(&good, |case| change(case)), number, at);
        };
        refused("a start below 0", 5, &|case| case.starts[place..].fill(-1));
        refused("an end below 0", 5, &|case| case.ends[place..].fill(BLANK));
        refused("a headway of 0", 6, &|case| case.headways[place..].fill(0));
        refused("a headway below 0", 6, &|case| case.headways[place..].fill(-5));
        refused("exact_times of 2", 7, &|case| case.exacts[place..].fill(2));
        refused("a name of no bytes", 8, &|case| case.name_lengths[place..].fill(0));
        refused("a name beyond the text", 8, &|case| case.name_places[place..].fill(4));
        refused("a name that is too long", 8, &|case| case.name_lengths[place..].fill(5));
        refused("a name far out", 8, &|case| case.name_places[place..].fill(u32::MAX));
        refused("5 before 6", 5, &|case| (case.headways[0], case.starts[place]) = (0, -1));
        refused("6 before 7", 6, &|case| (case.exacts[0], case.headways[place]) = (2, 0));
        refused("7 before 8", 7, &|case| (case.name_lengths[0], case.exacts[place]) = (0, 2));
        refused("8 before 9", 8, &|case| (case.file, case.name_lengths[place]) = (Guarded::default(), 0));
    }
    let one = with(&good, |case| case.name_doubled.fill(1));
    gives(engine, "one quote that is said to be two", &one, 4, 1);
    gives(engine, "4 before 5", &with(&one, |case| case.starts[0] = -1), 4, 1);
    gives(engine, "no room", &with(&good, |case| case.file = Guarded::default()), 9, 0);
    gives(engine, "no room for no window", &with(&named(&[]), |case| case.file = Guarded::default()), 9, 0);
    gives(engine, "nothing but room", &named(&[]), 0, 0);
}

/// From the bytes of the sample feed to every departure of a trip.
fn from_bytes_to_departures(engine: &dyn Engine) {
    let Side { answer, left } = Side::of(engine, &reading(SAMPLE));
    for (trip, departures, last) in [("STBA", 32, 77_400), ("CITY1", 52, 77_400)] {
        let of_trip = |&i: &usize| name(&left, i) == trip.as_bytes();
        let rows = (0..answer.length as usize).filter(of_trip);
        let windows: Vec<(i32, i32, i32)> = rows.map(|i| (left.starts[i], left.ends[i], left.headways[i])).collect();
        let board = Side::of(engine, &crate::boards::board(&windows));
        assert_eq!((board.answer.number, board.answer.length), (0, departures), "{trip}");
        assert_eq!(board.left.board.last(), Some(&last), "{trip}");
    }
}

/// The bytes that a text of the page stands for: `\n` and the like are one byte.
fn unescaped(text: &str) -> Vec<u8> {
    let mut bytes = Vec::new();
    let mut rest = text.bytes();
    while let Some(byte) = rest.next() {
        let escaped = if byte == b'\\' { rest.next() } else { None };
        match escaped {
            None => bytes.push(byte),
            Some(b'n') => bytes.push(b'\n'),
            Some(b'r') => bytes.push(b'\r'),
            Some(b'x') => {
                let digits: String = rest.by_ref().take(2).map(char::from).collect();
                bytes.push(u8::from_str_radix(&digits, 16).expect("two digits"));
            }
            Some(other) => panic!("the page has no \\{}", char::from(other)),
        }
    }
    bytes
}

/// What the page says of an answer: the windows of a file, or its refusal.
fn told(side: &Side) -> String {
    let Side { answer, left } = side;
    if answer.number != 0 {
        return format!("refused {} {}", answer.number, answer.place);
    }
    let clock = |time: i32| format!("{}:{:02}:{:02}", time / 3600, time / 60 % 60, time % 60);
    let window = |i: usize| {
        let (start, end) = (clock(left.starts[i]), clock(left.ends[i]));
        format!("{} {start} {end} {} {}", name(left, i).escape_ascii(), left.headways[i], left.exacts[i])
    };
    let windows: Vec<String> = (0..answer.length as usize).map(window).collect();
    if windows.is_empty() { "no windows".to_string() } else { windows.join("; ") }
}

/// Every row of the page's table of edges.
///
/// # Panics
/// If a file is read otherwise than the page says, or the page has no such table.
pub fn page(engine: &dyn Engine) {
    let table = PAGE.split("## Edges").nth(1).expect("the page has its edges");
    let rows = table.lines().filter_map(|line| line.strip_prefix("| `")?.strip_suffix("` |"));
    let mut shown = 0;
    for row in rows {
        let (text, answer) = row.split_once("` | `").unwrap_or_else(|| panic!("not a row: {row}"));
        let header = "trip_id,start_time,end_time,headway_secs\\n";
        let side = Side::of(engine, &reading(&unescaped(&text.replace("HEAD", header))));
        assert_eq!(told(&side), answer, "{text}");
        shown += 1;
    }
    assert!(shown > 30, "{shown} rows");
}

/// All tests by name.
pub const FREQUENCIES: &[Test] = &[
    ("the sample feed", the_sample_feed),
    ("times", times),
    ("headways and exact_times", headways_and_exact_times),
    ("line ends and marks", line_ends_and_marks),
    ("columns", columns),
    ("quotes", quotes),
    ("reading: 1", reading_1),
    ("each number before the next", each_number_before_the_next),
    ("written", written),
    ("writing refused", writing_refused),
    ("from bytes to departures", from_bytes_to_departures),
    ("the page", page),
];

/// Random files, whole, damaged and mutated: read, and if they can be, written and read again.
///
/// # Panics
/// If the engine differs from the second implementation, if what was read and written is not read to the same windows, or
/// if an answer hardly ever came back.
pub fn random_frequencies(engine: &dyn Engine) {
    let (seed, files) = (seed(), files_drawn());
    println!("seed {seed}, {files} files");
    let mut random = Random::new(seed);
    let (mut by_number, mut written) = ([0; 9], [0; 10]);
    for _ in 0..files {
        let mut case = reading(&draw(&mut random));
        match random.below(12) {
            0 => shorten(&mut random, &mut case),
            1 | 2 => lengthen(&mut random, &mut case),
            _ => {}
        }
        let read = agree(engine, &case, seed);
        by_number[read.answer.number as usize] += 1;
        if read.answer.number == 0 {
            written[write_and_read(engine, &mut random, &read, seed) as usize] += 1;
        }
    }
    println!("{by_number:?} {written:?}");
    assert!(by_number.iter().all(|&came| came > files / 200), "every answer comes back: {by_number:?}");
    let numbers = [0, 1, 4, 5, 6, 7, 8, 9];
    assert!(numbers.iter().all(|&number| written[number] > files / 2000), "every answer comes back: {written:?}");
}

/// What both make of a case.
fn agree(engine: &dyn Engine, case: &Case, seed: u64) -> Side {
    let differs = |found: Box<Difference>| panic!("seed {seed}\n{}", shrink(engine, &Second, found));
    agreed(engine, &Second, case).unwrap_or_else(differs)
}

/// Writes what was read, as it is or with something wrong; what is written is read to the same windows. Gives the number of
/// the answer.
fn write_and_read(engine: &dyn Engine, random: &mut Random, read: &Side, seed: u64) -> u32 {
    let mut case = writing(&read.left, read.answer.length as usize);
    match random.below(3) {
        0 => spoil(random, &mut case),
        1 if random.once_in(3) => shorten(random, &mut case),
        1 => lengthen(random, &mut case),
        _ => {}
    }
    let (wrote, count) = (agree(engine, &case, seed), case.windows);
    if wrote.answer.number == 0 {
        let file = &wrote.left.file[..wrote.answer.length as usize];
        let again = agree(engine, &reading(file), seed);
        assert_eq!((again.answer.number, again.answer.length as usize), (0, count), "{}", file.escape_ascii());
        assert_eq!(windows(&again.left, count), windows(&case, count), "{}", file.escape_ascii());
    }
    wrote.answer.number
}

/// Another number in a window that is written, another part of the text as its name, or another count.
fn spoil(random: &mut Random, case: &mut Case) {
    let (place, length) = (random.below(case.windows), case.bytes.len());
    let number = random.pick(&[0, -1, 1, BLANK, HIGHEST, 359_999, 360_000]);
    match random.below(10) {
        0 => case.starts.put(place, number),
        1 => case.ends.put(place, number),
        2 => case.headways.put(place, number),
        3 | 4 => case.exacts.put(place, random.pick(&[0, 1, 2, 255])),
        5 | 6 => {
            let begins = random.below(length);
            case.name_places.put(place, begins as u32);
            case.name_lengths.put(place, random.below(length - begins + 2) as u32);
        }
        7 => case.name_lengths.put(place, random.pick(&[0, 1, length as u32, u32::MAX])),
        8 => case.name_doubled.put(place, random.pick(&[0, 1, 2, 255])),
        _ => case.windows = random.pick(&[case.windows.saturating_sub(1), case.windows + 1, usize::MAX]),
    }
    case.file = vec![0xEE; length_of(case)].into();
}

/// A file: a header with its columns in any order and others among them, and a few rows, now and then with something wrong;
/// half of the files are then mutated.
fn draw(random: &mut Random) -> Vec<u8> {
    let mut columns = vec!["trip_id", "start_time", "end_time", "headway_secs"];
    if random.once_in(2) {
        columns.push("exact_times");
    }
    for _ in 0..random.below(3) {
        columns.push(random.pick(&["note", "", "trip_headsign", "start_time2", "a,b"]));
    }
    if random.once_in(3) {
        random.shuffle(&mut columns);
    }
    let mut named = columns.clone();
    if random.once_in(30) {
        let place = random.below(named.len());
        let other = random.pick(&["trip_id", "exact_times", "Trip_id", " start_time", "headway"]);
        named[place] = other;
    }
    let end = random.pick(&["\n", "\n", "\r\n"]);
    let mut lines = vec![line(random, &named)];
    let most = if random.once_in(20) { 40 } else { 6 };
    for _ in 0..random.below(most) {
        let mut row: Vec<&str> = columns.iter().map(|column| value(random, column)).collect();
        if random.once_in(60) {
            let place = random.below(row.len());
            row.remove(place);
        }
        lines.push(line(random, &row));
        if random.once_in(60) {
            lines.push(String::new());
        }
    }
    let mut file = lines.join(end);
    file.push_str(random.pick(&["", end, end, "\n", "\r\n", "\n\n", "\r\n\n", "\r"]));
    if random.once_in(8) {
        file.insert(0, '\u{FEFF}');
    }
    let mut bytes = file.into_bytes();
    if random.once_in(2) {
        for _ in 0..1 + random.below(3) {
            mutate(random, &mut bytes);
        }
    }
    bytes
}

/// A row: a field has quotes where it must have them, and now and then where it need not.
fn line(random: &mut Random, fields: &[&str]) -> String {
    let quoted = |field: &&str| {
        let must = field.contains([',', '"', '\n', '\r']);
        if must || random.once_in(8) { format!("\"{}\"", field.replace('"', "\"\"")) } else { (*field).to_string() }
    };
    fields.iter().map(quoted).collect::<Vec<String>>().join(",")
}

/// What stands in a column, now and then something wrong.
fn value(random: &mut Random, column: &str) -> &'static str {
    let wrong = random.once_in(50);
    match column {
        "trip_id" if wrong => "",
        "trip_id" => random.pick(&[
            "STBA",
            "CITY1",
            "A",
            "a,b",
            "say \"hi\"",
            "\"",
            "two\nlines",
            "a\r\nb",
            " ",
            "Zürich",
            "a\rb",
        ]),
        "start_time" | "end_time" if wrong => random.pick(&[
            "",
            "6:00",
            "6:60:00",
            "6:00:60",
            " 6:00:00",
            "6:00:00 ",
            "-1:00:00",
            "596523:14:08",
            "9999999999999:00:00",
        ]),
        "start_time" | "end_time" => random.pick(&[
            "6:00:00",
            "07:59:59",
            "25:10:00",
            "0:00:00",
            "596523:14:07",
            "000010:20:30",
            "123:45:56",
            "99:59:59",
        ]),
        "headway_secs" if wrong => random.pick(&["", "0", "-1", "60 ", "2147483648", "99999999999999999999", "6a"]),
        "headway_secs" => random.pick(&["600", "1800", "1", "2147483647", "0060"]),
        "exact_times" if wrong => random.pick(&["2", "01", " ", "yes"]),
        "exact_times" => random.pick(&["", "0", "1"]),
        _ => random.pick(&["", "x", "a,b", "\"", "\n", "trip_id"]),
    }
}

/// A byte put in, taken away, changed or doubled, or the file cut.
fn mutate(random: &mut Random, bytes: &mut Vec<u8>) {
    let place = random.below(bytes.len() + 1);
    let byte = random.pick(b"\"\",,\r\n\n:0159 a\xEF");
    match random.below(8) {
        0..=2 => bytes.insert(place, byte),
        3 | 4 if place < bytes.len() => {
            bytes.remove(place);
        }
        5 if place < bytes.len() => bytes[place] = byte,
        6 => {
            let end = (place + random.below(12)).min(bytes.len());
            let stretch = bytes[place..end].to_vec();
            let at = random.below(bytes.len() + 1);
            bytes.splice(at..at, stretch);
        }
        _ if random.once_in(3) => bytes.truncate(place),
        _ => {}
    }
}
