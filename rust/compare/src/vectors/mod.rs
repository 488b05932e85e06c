//! Vectors: files of cases, each with the lines that must come out of it.
//!
//! `rust/vectors/NAME/data/FILE` holds cases, and `rust/vectors/NAME/expected/FILE` the lines, as the tools have worked
//! them out that wrote both; these share no code with the engine. [`Vectors::hold`] has an engine answer every case,
//! and holds what comes out to the lines, one by one. [`vectors_of!`](crate::vectors_of) is all of that as tests of an
//! engine.

mod answered;
mod departures;
mod edges;
mod frequencies;
mod mended;
mod numbers;
pub mod replay;
mod shown;

use std::fmt::Display;
use std::fs;
use std::path::{Path, PathBuf};
use std::str::Lines;

use crate::Engine;
use numbers::Numbers;

/// What answers the cases of a file, and tells their lines; gives how many cases there are.
type Reader = fn(&dyn Engine, &mut Numbers<'_>, &mut Expected<'_>) -> usize;

/// The vectors of a name.
#[derive(Clone, Copy, Debug)]
pub struct Vectors {
    name: &'static str,
    answer: Reader,
}

/// Builds, trials, keeps and takings back on both sides of every edge, and batches in figures.
pub const EDGES: Vectors = Vectors { name: "edges", answer: edges::answer };

/// Recorded sessions: a read, a build, and calls one after another.
pub const REPLAY: Vectors = Vectors { name: "replay", answer: replay::answer };

/// Damaged files that are saved.
pub const MENDED: Vectors = Vectors { name: "mended", answer: mended::answer };

/// Departure boards.
pub const DEPARTURES: Vectors = Vectors { name: "departures", answer: departures::answer };

/// frequencies.txt, read and written.
pub const FREQUENCIES: Vectors = Vectors { name: "frequencies", answer: frequencies::answer };

/// The lines that must come out of a file's cases.
#[derive(Debug)]
pub(crate) struct Expected<'a> {
    file: &'a str,
    lines: Lines<'a>,
}

impl Expected<'_> {
    /// A case of the file, by the file's name and its own.
    fn named(&self, case: impl Display) -> String {
        format!("{}, {case}", self.file)
    }

    /// Holds a line that came out of a case to the next one.
    ///
    /// # Panics
    /// If it is another, or if there is none.
    fn hold(&mut self, named: &str, line: &str) {
        let Some(expected) = self.lines.next() else {
            panic!("{named}: no line is left\n    came out: {line}");
        };
        assert!(expected == line, "{named}:\n    expected: {expected}\n    came out: {line}");
    }
}

impl Vectors {
    /// Holds an engine to every file of the vectors.
    ///
    /// # Panics
    /// If another line comes out than must, if a call writes what it is not lent to fill, or if a file has no case, a
    /// line too few or a line too many.
    pub fn hold(&self, engine: &dyn Engine) {
        let folder = self.folder();
        let [data, expected] = ["data", "expected"].map(|part| names(&folder.join(part)));
        assert!(!data.is_empty(), "{}: no file", self.name);
        assert_eq!(data, expected, "{}: each file of cases has its lines", self.name);
        for name in data {
            let bytes = fs::read(folder.join("data").join(&name)).expect("the cases");
            let text = fs::read_to_string(folder.join("expected").join(&name)).expect("the lines");
            let cases = self.hold_file(engine, &name, &bytes, &text);
            println!("{}/{name}: {cases} cases", self.name);
        }
    }

    /// Holds an engine to one file: its cases, and the lines that must come out. Gives how many cases there are.
    ///
    /// # Panics
    /// As [`Vectors::hold`] does.
    pub fn hold_file(&self, engine: &dyn Engine, name: &str, cases: &[u8], text: &str) -> usize {
        let file = format!("{}/{name}", self.name);
        let (mut numbers, mut expected) = (Numbers::of(cases), Expected { file: &file, lines: text.lines() });
        let cases = (self.answer)(engine, &mut numbers, &mut expected);
        assert!(cases > 0, "{file}: no case");
        assert!(numbers.is_empty(), "{file}: bytes are left behind the last case");
        assert_eq!(expected.lines.next(), None, "{file}: a line is left behind those of the last case");
        cases
    }

    /// The folder of the vectors.
    #[must_use]
    pub fn folder(&self) -> PathBuf {
        Path::new(env!("CARGO_MANIFEST_DIR")).join("../vectors").join(self.name)
    }
}

/// The names of a folder's files.
fn names(folder: &Path) -> Vec<String> {
    let files = fs::read_dir(folder).unwrap_or_else(|error| panic!("{}: {error}", folder.display()));
    let mut names: Vec<String> = files.map(|file| file.expect("a file").file_name().display().to_string()).collect();
    names.sort();
    names
}

/// The vectors as tests of an engine.
#[macro_export]
macro_rules! vectors_of {
    ($engine:expr) => {
        #[test]
        fn vectors_of_edges() {
            $crate::vectors::EDGES.hold(&$engine);
        }

        #[test]
        fn vectors_of_recorded_sessions() {
            $crate::vectors::REPLAY.hold(&$engine);
        }

        #[test]
        fn vectors_of_damaged_files() {
            $crate::vectors::MENDED.hold(&$engine);
        }

        #[test]
        fn vectors_of_departures() {
            $crate::vectors::DEPARTURES.hold(&$engine);
        }

        #[test]
        fn vectors_of_frequencies() {
            $crate::vectors::FREQUENCIES.hold(&$engine);
        }
    };
}
