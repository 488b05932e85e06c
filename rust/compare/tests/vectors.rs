//! The second implementation on the vectors; and what is wrong in vectors or in an engine is found, with the file, the
//! case and both lines named.

use std::fs;
use std::panic::{AssertUnwindSafe, catch_unwind};

use compare::vectors::{DEPARTURES, EDGES, FREQUENCIES, MENDED, REPLAY, Vectors};
use compare::{Answer, Call, Case, Engine, Second};

compare::vectors_of!(Second);

/// One file of each of the vectors.
const FILES: [(Vectors, &str); 7] = [
    (EDGES, "keeps"),
    (EDGES, "full_batches"),
    (REPLAY, "sessions-41"),
    (MENDED, "rooms"),
    (DEPARTURES, "rooms"),
    (FREQUENCIES, "rooms"),
    (FREQUENCIES, "refused_windows"),
];

/// The cases and the lines of a file.
fn held(vectors: &Vectors, name: &str) -> (Vec<u8>, String) {
    let folder = vectors.folder();
    let cases = fs::read(folder.join("data").join(name)).expect("the cases");
    (cases, fs::read_to_string(folder.join("expected").join(name)).expect("the lines"))
}

/// What is said of an engine, of cases or of lines that are not right.
fn found(engine: &dyn Engine, vectors: &Vectors, name: &str, cases: &[u8], text: &str) -> String {
    let held = catch_unwind(AssertUnwindSafe(|| vectors.hold_file(engine, name, cases, text)));
    let said = held.expect_err("a damage that nobody finds");
    said.downcast_ref::<String>()
        .cloned()
        .or_else(|| said.downcast_ref::<&str>().map(ToString::to_string))
        .expect("text")
}

/// The lines with something else in the place of one.
fn with_line(text: &str, place: usize, other: &[&str]) -> String {
    let mut lines: Vec<&str> = text.lines().collect();
    lines.splice(place..=place, other.iter().copied());
    lines.join("\n")
}

#[test]
fn every_other_line_is_found() {
    for (vectors, name) in FILES {
        let (cases, text) = held(&vectors, name);
        for (place, line) in text.lines().enumerate() {
            let other = format!("{line} 1");
            let said = found(&Second, &vectors, name, &cases, &with_line(&text, place, &[&other]));
            let both = format!("expected: {other}\n    came out: {line}");
            assert!(said.contains(&format!("/{name}, ")) && said.contains(&both), "{said}");
        }
    }
}

#[test]
fn a_line_too_many_or_too_few_is_found() {
    for (vectors, name) in FILES {
        let (cases, text) = held(&vectors, name);
        let last = text.lines().count() - 1;
        let line = text.lines().last().expect("a line");
        let said = found(&Second, &vectors, name, &cases, &with_line(&text, last, &[line, line]));
        assert!(said.contains("a line is left"), "{said}");
        let said = found(&Second, &vectors, name, &cases, &with_line(&text, last, &[]));
        assert!(said.contains("no line is left"), "{said}");
        assert!(found(&Second, &vectors, name, &cases, &format!("{text}\n")).contains("a line is left"));
    }
}

#[test]
fn files_without_cases_cut_off_or_with_more_behind_are_found() {
    for (vectors, name) in FILES {
        let (cases, text) = held(&vectors, name);
        assert!(found(&Second, &vectors, name, &[0; 16], "").contains("no case"));
        let longer = [&cases[..], &[0]].concat();
        assert!(found(&Second, &vectors, name, &longer, &text).contains("bytes are left"));
        assert!(found(&Second, &vectors, name, &cases[..cases.len() - 1], &text).contains("does not break off"));
    }
}

/// An engine that does something to an answer and to what a call leaves.
struct Wrong(fn(&mut Answer, &mut Case));

impl Engine for Wrong {
    fn answer(&self, case: &mut Case) -> Answer {
        let mut answer = Second.answer(case);
        (self.0)(&mut answer, case);
        answer
    }
}

#[test]
fn a_wrong_engine_is_found() {
    let numbers = Wrong(|answer, _| answer.number += 1);
    let places = Wrong(|answer, _| answer.place += 1);
    let more = Wrong(|answer, case| {
        if answer.number == 0 {
            case.lows.edit(|lows| lows.push(1));
        }
    });
    let refused = Wrong(|answer, case| {
        if answer.number != 0 {
            case.session.evaluations += 1;
        }
    });
    let values = Wrong(|answer, case| {
        if answer.number == 0 && case.call != Call::Read {
            case.stored.iter_mut().for_each(|value| *value ^= 1);
            case.results.iter_mut().for_each(|value| *value ^= 1);
            case.file.iter_mut().for_each(|value| *value ^= 1);
            case.list.iter_mut().for_each(|value| *value ^= 1);
            case.by_number.iter_mut().for_each(|value| *value ^= 1);
            case.board.iter_mut().for_each(|value| *value ^= 1);
            case.lines.iter_mut().for_each(|value| *value ^= 1);
        }
    });
    let beside = Wrong(|_, case| {
        let (_, kinds) = &mut case.buffers_mut()[0];
        let mut bytes = Vec::new();
        kinds.send(&mut bytes);
        bytes[0] ^= 1;
        kinds.receive(&bytes);
    });
    for (vectors, name) in FILES {
        let (cases, text) = held(&vectors, name);
        for (engine, what) in [
            (&beside, "a guard is hurt"),
            (&numbers, ""),
            (&places, "came out"),
            (&more, "more is changed"),
            (&refused, "a refused call changes something"),
            (&values, ""),
        ] {
            let said = found(engine, &vectors, name, &cases, &text);
            assert!(said.contains(&format!("/{name}, ")) && said.contains(what), "{said}");
        }
    }
}
