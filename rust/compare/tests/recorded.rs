//! The recording in `rust/vectors/replay` is what `record` writes today, and misses no case.

use std::collections::BTreeSet;
use std::path::Path;
use std::process::Command;
use std::{env, fs, process};

use compare::vectors::REPLAY;

/// A session of the recording: the bounds, the model file, the calls, and the lines of the read, the build and each call.
struct Session {
    bounds: Vec<i32>,
    model: Vec<u8>,
    calls: Vec<Vec<u8>>,
    lines: Vec<String>,
}

impl Session {
    /// The kinds of the rows, if the model is built.
    fn kinds(&self) -> Vec<u16> {
        if !self.lines.get(1).is_some_and(|line| line.starts_with("build 0 ")) {
            return Vec::new();
        }
        let (n, m) = (half(&self.model, 2), half(&self.model, 4));
        let rows = self.model[24 + 4 * usize::from(n)..].chunks_exact(12);
        rows.take(m.into()).map(|row| half(row, 0)).collect()
    }

    /// The second number of each call whose line starts so: the route of a trial, the row of a change.
    fn second_numbers(&self, start: &str) -> Vec<u16> {
        let made = self.calls.iter().zip(self.lines.iter().skip(2));
        made.filter(|(_, line)| line.starts_with(start)).map(|(call, _)| half(call, 4)).collect()
    }
}

/// The number of two bytes at a place.
fn half(bytes: &[u8], at: usize) -> u16 {
    u16::from_le_bytes([bytes[at], bytes[at + 1]])
}

/// The number of four bytes in front of others, and these.
fn word(bytes: &[u8]) -> (usize, &[u8]) {
    let (front, rest) = bytes.split_first_chunk().expect("four bytes");
    (u32::from_le_bytes(*front) as usize, rest)
}

/// The files of a recording, by name, with what they hold: the sessions, and then their lines.
fn files(folder: &Path) -> Vec<(String, Vec<u8>)> {
    let names = |part: &str| {
        let files = fs::read_dir(folder.join(part)).expect("a folder of the recording");
        let mut names: Vec<String> =
            files.map(|file| format!("{part}/{}", file.expect("a file").file_name().display())).collect();
        names.sort();
        names
    };
    let held = |name: &String| fs::read(folder.join(name)).expect("a file of the recording");
    ["data", "expected"].map(names).concat().iter().map(|name| (name.clone(), held(name))).collect()
}

/// The sessions of the recording.
fn sessions() -> Vec<Session> {
    let files = files(&REPLAY.folder());
    let (data, expected) = files.split_at(files.len() / 2);
    let mut sessions = Vec::new();
    for ((_, data), (_, text)) in data.iter().zip(expected) {
        let lines: Vec<String> = String::from_utf8_lossy(text).lines().map(String::from).collect();
        let mut lines = lines.chunk_by(|_, line| !line.starts_with("read "));
        let (count, mut bytes) = word(data);
        for _ in 0..count {
            let (length, rest) = word(bytes);
            let (calls, rest) = word(rest);
            let (bounds, rest) = rest.split_at(128);
            let (model, rest) = rest.split_at(length);
            let (calls, rest) = rest.split_at(48 * calls);
            bytes = rest;
            let calls = calls.chunks(48).map(<[u8]>::to_vec).collect();
            let lines = lines.next().expect("the lines of the session").to_vec();
            let bounds = bounds.as_chunks().0.iter().map(|&bound| i32::from_le_bytes(bound)).collect();
            sessions.push(Session { bounds, model: model.to_vec(), calls, lines });
        }
        assert!(bytes.is_empty() && lines.next().is_none(), "sessions and lines end together");
    }
    sessions
}

/// The numbers that the lines of a call give.
fn numbers(call: &str) -> BTreeSet<u32> {
    let number = |line: &String| line.strip_prefix(call)?.split_whitespace().next()?.parse().ok();
    sessions().iter().flat_map(|session| &session.lines).filter_map(number).collect()
}

#[test]
fn is_up_to_date() {
    let folder = env::temp_dir().join(format!("recording-{}", process::id()));
    let status = Command::new(env!("CARGO_BIN_EXE_record")).arg(&folder).status().expect("record runs");
    assert!(status.success());
    let [written, stands] = [&folder, &REPLAY.folder()].map(|folder| files(folder));
    fs::remove_dir_all(&folder).expect("the folder is there");
    assert!(written == stands, "rust/vectors/replay is out of date: run tools/record");
}

#[test]
fn has_every_number_of_every_call() {
    assert_eq!(numbers("read "), [0, 1, 14].into());
    assert_eq!(numbers("build "), [0, 2, 3, 4, 5, 6, 7, 20].into());
    assert_eq!(numbers("trial "), [0, 1, 2, 3, 4, 5, 7, 8, 9, 10, 11, 12, 13, 17, 19, 20, 21].into());
    assert_eq!(numbers("keep "), [0, 1, 2, 3, 4, 5, 7, 8, 10, 11, 12, 16, 17, 19, 20, 21].into());
    assert_eq!(numbers("back "), [0, 2, 3, 4, 5, 7, 8, 15, 16, 19, 20, 21].into());
}

impl Session {
    /// Whether the model is built and has a closed chain: whether rows are left when again and again all are taken away that
    /// read nothing which a row that is left makes.
    fn has_closed_chain(&self) -> bool {
        let mut left: Vec<(u16, Vec<u16>)> = if self.kinds().is_empty() { Vec::new() } else { self.rows() };
        loop {
            let made: Vec<u16> = left.iter().map(|(made, _)| *made).collect();
            let before = left.len();
            left.retain(|(_, inputs)| inputs.iter().any(|input| made.contains(input)));
            if left.len() == before {
                return before > 0;
            }
        }
    }

    /// The variable that each row makes, and its inputs.
    fn rows(&self) -> Vec<(u16, Vec<u16>)> {
        let (n, m) = (usize::from(half(&self.model, 2)), usize::from(half(&self.model, 4)));
        let (rows, entries) = self.model[24 + 4 * n..].split_at(12 * m);
        let inputs = |row: &[u8]| {
            let first = usize::from(half(row, 8));
            (first..first + usize::from(half(row, 10))).map(|entry| half(entries, 4 * entry)).collect()
        };
        rows.chunks_exact(12).map(|row| (half(row, 2), inputs(row))).collect()
    }
}

#[test]
fn has_closed_chains() {
    let sessions: Vec<Session> = sessions().into_iter().filter(Session::has_closed_chain).collect();
    assert!(sessions.len() > 60, "{}", sessions.len());
    let lines = |start: &str| sessions.iter().map(|session| session.lines_that_start(start)).sum::<usize>();
    for (start, least) in [
        ("trial 0 ", 50),
        ("keep 0 ", 40),
        ("back 0 ", 20),
        ("trial 8 ", 5),
        ("keep 8 ", 5),
        ("back 8 ", 5),
        ("trial 20 ", 5),
        ("keep 20 ", 5),
        ("back 20 ", 1),
        ("trial 21 ", 5),
        ("keep 21 ", 5),
        ("back 21 ", 2),
    ] {
        assert!(lines(start) >= least, "{start}: {}", lines(start));
    }
}

#[test]
fn has_every_kind_route_and_row() {
    let sessions = sessions();
    let kinds: BTreeSet<u16> = sessions.iter().flat_map(Session::kinds).collect();
    let routes: BTreeSet<u16> = sessions.iter().flat_map(|session| session.second_numbers("trial 0 ")).collect();
    let rows: BTreeSet<u16> = sessions.iter().flat_map(|session| session.second_numbers("change ")).collect();
    assert_eq!(kinds, (1..=9).collect());
    assert_eq!(routes, (1..=3).collect());
    assert_eq!(rows, (0..=17).collect());
}

/// How often a line that starts in one of these ways is followed by one that starts in one of those.
fn followed(these: &[&str], those: &[&str]) -> usize {
    let starts = |line: &str, ways: &[&str]| ways.iter().any(|way| line.starts_with(way));
    let both = |lines: &&[String]| starts(&lines[0], these) && starts(&lines[1], those);
    sessions().iter().map(|session| session.lines.windows(2).filter(both).count()).sum()
}

#[test]
fn has_trials_after_keeps() {
    assert!(followed(&["keep 0 "], &["trial 0 "]) > 20);
}

#[test]
fn has_takings_back_after_keeps_and_after_one_another() {
    assert!(followed(&["keep 0 "], &["back 0 "]) > 20);
    assert!(followed(&["back 0 "], &["back 0 "]) > 20);
    assert!(followed(&["back 0 "], &["keep 0 "]) > 5);
}

/// The numbers behind the second bar from the last of a line, which are how many moves the log holds and the pairs of each.
fn log_sizes(line: &str) -> Vec<u32> {
    let sizes = line.rsplit(" |").nth(2).unwrap_or("");
    sizes.split_whitespace().filter_map(|size| size.parse().ok()).collect()
}

#[test]
fn has_full_logs_that_are_taken_back_to_the_last_move() {
    for session in sessions().iter().rev().take(4) {
        let full = session.lines.iter().filter(|line| line.starts_with("keep 0 ") && log_sizes(line)[0] == 64);
        assert!(full.count() > 5, "moves are pushed out");
        assert!(session.lines.iter().any(|line| line.starts_with("back 0 ") && log_sizes(line) == [0]));
    }
    let spent = sessions().iter().flat_map(|session| &session.lines).any(|line| line.starts_with("back 15 "));
    assert!(spent, "nothing is left to take back");
}

/// The record's number of blanks in the line of a call.
fn blanks(line: &str) -> Option<u32> {
    line.split(" |").next()?.split_whitespace().nth(6)?.parse().ok()
}

#[test]
fn has_blanks_that_come_and_go() {
    for call in ["keep 0 ", "back 0 "] {
        let (mut more, mut fewer) = (0, 0);
        for session in sessions() {
            for lines in session.lines.windows(2).filter(|lines| lines[1].starts_with(call)) {
                let (before, after) = (blanks(&lines[0]), blanks(&lines[1]));
                more += usize::from(before.is_some() && before < after);
                fewer += usize::from(before > after);
            }
        }
        assert!(more > 20 && fewer > 20, "{call}: {more} and {fewer}");
    }
}

#[test]
fn has_calls_refused_for_the_number_of_blanks() {
    let refused = ["trial 19 ", "keep 19 ", "back 19 "];
    assert!(followed(&["change 0 1 "], &refused) > 20);
    assert!(followed(&["change 10 "], &refused) > 5);
    assert!(followed(&["change 0 1 "], &["trial 7 ", "keep 7 ", "back 7 "]) > 5, "a blank search variable, counted");
}

#[test]
fn has_calls_refused_for_the_log() {
    assert!(followed(&["change 13 ", "change 14 ", "change 15 "], &["keep 16 ", "back 16 "]) > 20);
}

impl Session {
    /// How many variables have bounds that are not full.
    fn narrow(&self) -> usize {
        let (lows, highs) = self.bounds.split_at(16);
        lows.iter().zip(highs).filter(|&bounds| bounds != (&-i32::MAX, &i32::MAX)).count()
    }

    /// How many lines start so.
    fn lines_that_start(&self, start: &str) -> usize {
        self.lines.iter().filter(|line| line.starts_with(start)).count()
    }
}

#[test]
fn has_keeps_and_takings_back_within_narrow_bounds() {
    let sessions = sessions();
    let (narrow, full): (Vec<&Session>, Vec<&Session>) = sessions.iter().partition(|session| session.narrow() > 0);
    assert!(narrow.len() > 80 && full.len() > 80, "{} and {}", narrow.len(), full.len());
    for start in ["trial 0 ", "keep 0 ", "back 0 "] {
        assert!(narrow.iter().map(|session| session.lines_that_start(start)).sum::<usize>() > 50, "{start}");
    }
    let long = sessions.iter().rev().take(4).filter(|session| session.narrow() >= 3);
    assert_eq!(long.map(|session| session.lines_that_start("back 0 ")).filter(|&backs| backs > 64).count(), 2);
}

#[test]
fn has_calls_refused_for_the_bounds() {
    for start in ["trial 17 ", "keep 17 "] {
        assert!(sessions().iter().map(|session| session.lines_that_start(start)).sum::<usize>() > 10, "{start}");
    }
    let bounds = ["change 16 ", "change 17 "];
    assert!(followed(&bounds, &["trial 4 ", "keep 4 ", "back 4 "]) > 10);
    assert!(followed(&bounds, &["trial 7 ", "keep 7 ", "back 7 "]) > 5);
    assert!(followed(&["change 10 "], &["trial 7 ", "keep 7 ", "back 7 "]) > 10, "a stored value outside");
    assert!(followed(&["change 15 "], &["keep 16 ", "back 16 "]) > 10);
}

#[test]
fn has_calls_refused_for_the_index() {
    assert!(followed(&["change 11 ", "change 12 "], &["trial 8 ", "keep 8 ", "back 8 "]) > 20);
}
