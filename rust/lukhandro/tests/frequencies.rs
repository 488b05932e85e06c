//! frequencies.txt read and written, and what its refusals say.

use std::borrow::Cow;

use lukhandro::frequencies::{MOST_BYTES, Refused, Window, read, windows_of, write};
use lukhandro::{HIGHEST, departures};

const SAMPLE: &[u8] = include_bytes!("../../../examples/feed/frequencies.txt");
const HEADER: &str = include_str!("../../../include/lukhandro.h");
const MODEL: &str = include_str!("../../../include/lukhandro_model.h");

/// The page on the format, and this file, in which the page's program stands between two marks.
const PAGE: &str = include_str!("../../../docs/FREQUENCIES.md");
const HERE: &str = include_str!("frequencies.rs");

/// A file of four columns with these rows.
fn file(rows: &str) -> Vec<u8> {
    format!("trip_id,start_time,end_time,headway_secs\n{rows}").into_bytes()
}

fn says<T: std::fmt::Debug>(result: Result<T, Refused>, number: u32, place: u32, sentence: &str) {
    let refused = result.expect_err("a refusal");
    assert_eq!((refused.number, refused.place), (number, place));
    assert_eq!(refused.to_string(), format!("frequencies.txt refused {number} {place}: {sentence}"));
}

#[test]
fn from_bytes_to_departures() {
    let windows = read(SAMPLE).expect("the sample feed");
    assert_eq!(windows.len(), 11);
    let stba = Window { trip: Cow::Borrowed(b"STBA"), start: 21600, end: 79200, headway: 1800, exact: false, line: 2 };
    assert_eq!(windows[0], stba);
    assert_eq!((windows[5].trip_text(), windows[5].line), (Cow::Borrowed("CITY1"), 7));
    let mut list = [0; 2000];
    for (trip, count, last) in [("STBA", 32, 77400), ("CITY1", 52, 77400), ("none", 0, 0)] {
        let length = departures(&windows_of(&windows, trip.as_bytes()), &mut list).expect("a board");
        assert_eq!((length, list[..length].last().copied().unwrap_or(0)), (count, last), "{trip}");
    }
}

#[test]
fn the_program_of_the_page_runs() {
    // [page
    use lukhandro::frequencies::read;

    let windows = read(b"trip_id,start_time,end_time,headway_secs\nSTBA,6:00:00,22:00:00,1800\n").unwrap();
    assert_eq!((&windows[0].trip[..], windows[0].start, windows[0].line), (&b"STBA"[..], 21600, 2));
    let refused = read(b"trip_id,start_time,end_time,headway_secs\nSTBA,6:00:00,1800\n").unwrap_err();
    assert_eq!(refused.number, 3);
    // page]
    let program = HERE.split("    // [page\n").nth(1).and_then(|rest| rest.split("    // page]\n").next());
    assert!(PAGE.contains(program.expect("the program between its marks")), "the page has the same");
}

#[test]
fn names() {
    let bytes = "\u{FEFF}exact_times,trip_id,start_time,end_time,headway_secs\r\n1,\"say \"\"hi\"\", \nthen\",25:00:00,26:00:00,60\r\n0,Zürich,0:00:00,0:00:01,1";
    let windows = read(bytes.as_bytes()).expect("two windows");
    assert_eq!(&*windows[0].trip, b"say \"hi\", \nthen");
    assert!(matches!(windows[1].trip, Cow::Borrowed(_)), "a part of the file");
    assert_eq!((windows[0].exact, windows[0].line, windows[0].start), (true, 2, 90000));
    assert_eq!((windows[1].exact, windows[1].line, windows[1].trip_text()), (false, 4, Cow::Borrowed("Zürich")));
    let written = write(&windows).expect("a file");
    let again = read(&written).expect("what was written");
    let without_lines = |windows: &[Window<'_>]| -> Vec<Window<'static>> {
        let of = |window: &Window<'_>| {
            let &Window { start, end, headway, exact, .. } = window;
            Window { trip: Cow::Owned(window.trip.to_vec()), start, end, headway, exact, line: 0 }
        };
        windows.iter().map(of).collect()
    };
    assert_eq!(without_lines(&again), without_lines(&windows));
    assert_eq!(write(&again).expect("a file"), written, "the same bytes from then on");
}

#[test]
fn nothing_and_much() {
    assert_eq!(read(&file("")), Ok(Vec::new()));
    let header = b"trip_id,start_time,end_time,headway_secs,exact_times\n";
    assert_eq!(write(&[]).expect("a header"), header);
    let longest =
        Window { trip: Cow::Borrowed(b"\"\"\""), start: HIGHEST, end: HIGHEST, headway: HIGHEST, exact: true, line: 0 };
    let written = write(&[longest.clone(), longest]).expect("room for any");
    assert_eq!(written.len(), 53 + 2 * (2 * 3 + 42));
    assert_eq!(read(&written).expect("two windows").len(), 2);
}

#[test]
fn refusals_of_a_file() {
    let named = "it names trip_id, start_time, end_time and headway_secs once each, and exact_times at most once";
    says(read(b""), 2, 1, &format!("line 1 does not name trip_id: {named}"));
    says(read(b"trip_id,start_time,end_time\n"), 2, 1, &format!("line 1 does not name headway_secs: {named}"));
    says(
        read(b"trip_id,start_time,end_time,headway_secs,\"trip_id\"\n"),
        2,
        1,
        &format!("line 1 names trip_id twice: {named}"),
    );
    let exact = b"exact_times,exact_times,trip_id,start_time,end_time,headway_secs\n";
    says(read(exact), 2, 1, &format!("line 1 names exact_times twice: {named}"));
    let fields = "count its commas; a quote that is not closed takes in the lines below it";
    says(read(&file("A,6:00:00\n")), 3, 2, &format!("line 2 has 2 fields and the first line 4: {fields}"));
    says(read(&file("A\n")), 3, 2, &format!("line 2 has 1 field and the first line 4: {fields}"));
    let open = "\"A\nB\",6:00:00,7:00:00,60\n\"A,6:00:00,7:00:00,60\nB,6:00:00,7:00:00,60\n";
    says(read(&file(open)), 3, 4, &format!("line 4 has 1 field and the first line 4: {fields}"));
    says(read(&file("\nA,6:00:00,7:00:00,60\n")), 3, 2, "line 2 is empty, and there are lines below it: take it away");
    says(
        read(&file("A,6:00:00,7:00:00,\"60\n")),
        4,
        2,
        "line 2 has a quote that is not closed: close it at the end of its field",
    );
    says(
        read(&file("A\"B,6:00:00,7:00:00,60\n")),
        4,
        2,
        "line 2 has a quote where none may stand: put the whole field into quotes, and double each quote in it",
    );
    let time = "which is no time up to 596523:14:07: write it as 6:00:00, minutes and seconds from 00 to 59";
    says(read(&file("A,6:00,7:00:00,60")), 5, 2, &format!("line 2 has the start_time \"6:00\", {time}"));
    says(read(&file("A,6:00:00,,60\r\n")), 5, 2, &format!("line 2 has the end_time \"\", {time}"));
    says(
        read(&file("A,6:00:00,7:00:00,-60\r\n")),
        6,
        2,
        "line 2 has the headway_secs \"-60\": write a whole number of seconds from 1 to 2147483647",
    );
    says(
        read(b"trip_id,start_time,end_time,headway_secs,exact_times\nA,6:00:00,7:00:00,60,\"2\""),
        7,
        2,
        "line 2 has the exact_times \"2\": write 0 or 1, or nothing",
    );
    says(read(&file(",6:00:00,7:00:00,60")), 8, 2, "line 2 names no trip: give it the trip_id of trips.txt");
    assert_eq!(MOST_BYTES, 2_147_483_647);
}

#[test]
fn refusals_of_windows() {
    let good = Window { trip: Cow::Borrowed(b"A"), start: 0, end: 1, headway: 1, exact: false, line: 0 };
    let second = |change: fn(&mut Window<'_>)| {
        let mut other = good.clone();
        change(&mut other);
        write(&[good.clone(), other])
    };
    says(second(|window| window.start = -1), 5, 1, "window 1 is from -1 to 1: a time is 0 or more");
    says(second(|window| window.end = -5), 5, 1, "window 1 is from 0 to -5: a time is 0 or more");
    says(second(|window| window.headway = 0), 6, 1, "window 1 has the headway 0: give it one above 0");
    says(second(|window| window.trip = Cow::Borrowed(b"")), 8, 1, "window 1 has a trip without a name: name it");
}

#[test]
fn every_number_of_the_header_has_a_name_and_a_sentence() {
    let names = HEADER.lines().filter_map(|line| line.strip_prefix("#define LUKHANDRO_FREQUENCIES_"));
    let numbers: Vec<usize> = names.filter_map(|line| line.split_once(' ')?.1.parse().ok()).collect();
    assert_eq!(numbers, (1..=9).collect::<Vec<_>>());
    let said = MODEL.split("lukhandro_frequencies_sentence(").nth(1).expect("the sentences");
    for number in 0..=9 {
        assert!(said.contains(&format!("    case {number}: return \"")), "{number}");
    }
    assert!(HEADER.contains(&format!("#define LUKHANDRO_MOST_FREQUENCIES_BYTES {MOST_BYTES}\n")));
}
