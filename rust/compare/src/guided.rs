//! Bytes that a fuzzer chooses, as calls: reading, salvage, a build, a session of calls, and frequencies.txt. The engine and the second
//! implementation answer each, and must agree. `tools/fuzz` lets coverage choose the bytes; what it once found is kept
//! in `kept.txt`, and every run of the tests tries it first.

use lent::NUMBERS;
use second::{BLANK, HIGHEST, LOWEST};

use crate::frequencies;
use crate::fuzz::{digits_of, reading};
use crate::salvages;
use crate::versions::{moving, reading_bounded};
use crate::{Call, Case, Difference, Engine, Row, Second, Side, agreed, of_rows, one_short, shrink};

/// What takes bytes, by its name.
pub type Target = (&'static str, fn(&dyn Engine, &[u8]));

/// Everything that takes bytes.
pub const TARGETS: [Target; 5] =
    [("read", read), ("salvage", salvage), ("build", build), ("session", session), ("frequencies", frequencies)];

/// The bytes as a model file of either version: read, built and written back, and moved to the other version.
///
/// # Panics
/// If the engine differs from the second implementation, or a file that was read is not written back.
pub fn read(engine: &dyn Engine, bytes: &[u8]) {
    let name = &|| format!("read {}", digits_of(bytes));
    let room = bytes.len() + 8 * count_at(bytes, 2).min(4096) + 4;
    for call in [Call::ToVersion2, Call::ToVersion1] {
        for room in [room, bytes.len() / 2] {
            agree(engine, &moving(call, bytes, room), name);
        }
    }
    for (reading, write) in [(reading(bytes), Call::Write), (reading_bounded(bytes), Call::WriteBounded)] {
        let Some(read) = accepted(engine, &reading, name) else {
            continue;
        };
        let writing = Case { call: write, bytes: vec![0xEE; bytes.len()].into(), ..read.clone() };
        let written = accepted(engine, &writing, name).expect("what was read is written");
        assert_eq!(*written.bytes, *bytes, "{}: what was read is written back", name());
        accepted(engine, &Case { call: Call::Build, ..read }.with_room(), name);
    }
}

/// The bytes as a damaged model file; what is saved of it is read and built.
///
/// # Panics
/// If the engine differs from the second implementation, or what is saved is not accepted.
pub fn salvage(engine: &dyn Engine, bytes: &[u8]) {
    let name = &|| format!("salvage {}", digits_of(bytes));
    let Some(saved) = accepted(engine, &salvages::salvage_of(bytes), name) else {
        return;
    };
    let read = accepted(engine, &reading(&saved.file), name);
    let built = read.and_then(|read| accepted(engine, &Case { call: Call::Build, ..read }.with_room(), name));
    assert!(built.is_some(), "{}: what is saved is read and built", name());
    let again = Side::of(engine, &salvages::salvage_of(&saved.file));
    assert_eq!(*again.left.file, *saved.file, "{}: what is saved is saved as it is", name());
}

/// The bytes as rows, start values and bounds: a build, and its row's inputs.
///
/// # Panics
/// If the engine differs from the second implementation.
pub fn build(engine: &dyn Engine, bytes: &[u8]) {
    let name = &|| format!("build {}", digits_of(bytes));
    let mut chosen = Chosen(bytes);
    let case = chosen.model();
    accepted(engine, &case, name);
    let row = chosen.below(case.m + 2);
    agree(engine, &Case { call: Call::InputsOfRow, row, ..case }, name);
}

/// The bytes as a build and then calls, one after another, over what the last accepted one left.
///
/// # Panics
/// If the engine differs from the second implementation.
pub fn session(engine: &dyn Engine, bytes: &[u8]) {
    let name = &|| format!("session {}", digits_of(bytes));
    let mut chosen = Chosen(bytes);
    let build = chosen.model();
    let Some(built) = accepted(engine, &build, name) else {
        return;
    };
    let mut model = Case { flags: vec![7; built.n].into(), ..built.with_log() };
    let mut calls = 0;
    while !chosen.0.is_empty() && calls < 200 {
        let call = chosen.call(&model);
        let left = accepted(engine, &call, name);
        model = left.filter(|left| left.call != Call::Figures).unwrap_or(model);
        calls += 1;
    }
}

/// The bytes as a frequencies.txt, which is read, written and read again; and as a text in which names stand.
///
/// # Panics
/// If the engine differs from the second implementation, or what was read and written is not read to the same windows.
pub fn frequencies(engine: &dyn Engine, bytes: &[u8]) {
    let name = &|| format!("frequencies {}", digits_of(bytes));
    let reading = frequencies::reading(bytes);
    for short in one_short(&reading) {
        agree(engine, &short, name);
    }
    let read = agree(engine, &reading, name);
    if read.answer.number == 0 {
        let (length, read) = (read.answer.length as usize, read.left);
        let writing = frequencies::writing(&read, length);
        for short in one_short(&writing) {
            agree(engine, &short, name);
        }
        let written = accepted(engine, &writing, name).expect("what was read is written");
        let again = accepted(engine, &frequencies::reading(&written.file), name).expect("what was written is read");
        assert!(
            frequencies::windows(&again, length) == frequencies::windows(&read, length),
            "{}: the same windows",
            name()
        );
    }
    let mut chosen = Chosen(bytes);
    let numbers = [chosen.number(), chosen.number(), chosen.number()].map(|number| vec![number].into());
    let [starts, ends, headways] = numbers;
    let part = [chosen.byte(), chosen.byte()].map(|byte| vec![u32::from(byte)].into());
    let [name_places, name_lengths] = part;
    let flags = [chosen.byte(), chosen.byte()].map(|byte| vec![byte & 3].into());
    let [name_doubled, exacts] = flags;
    let windows = Case { name_places, name_lengths, name_doubled, starts, ends, headways, exacts, ..reading };
    agree(engine, &frequencies::writing(&windows, 1), name);
}

/// What both make of a case.
///
/// # Panics
/// If they differ.
fn agree(engine: &dyn Engine, case: &Case, name: &dyn Fn() -> String) -> Side {
    let differs = |found: Box<Difference>| panic!("{}\n{}", name(), shrink(engine, &Second, found));
    agreed(engine, &Second, case).unwrap_or_else(differs)
}

/// What an accepted call leaves, with the counts that a read gave.
fn accepted(engine: &dyn Engine, case: &Case, name: &dyn Fn() -> String) -> Option<Case> {
    let Side { answer, left } = agree(engine, case, name);
    let read = matches!(case.call, Call::Read | Call::ReadBounded);
    let counts =
        if read { [answer.n, answer.m, answer.e].map(|count| count as usize) } else { [left.n, left.m, left.e] };
    let [n, m, e] = counts;
    (answer.number == 0).then_some(Case { n, m, e, ..left })
}

/// The count at a place of a header; 0 if the header is shorter.
fn count_at(bytes: &[u8], at: usize) -> usize {
    bytes.get(at..at + 2).map_or(0, |field| usize::from(field[0]) | usize::from(field[1]) << 8)
}

/// Bytes that choose, one after another; at their end 0.
struct Chosen<'a>(&'a [u8]);

impl Chosen<'_> {
    fn byte(&mut self) -> u8 {
        let Some((&first, rest)) = self.0.split_first() else {
            return 0;
        };
        self.0 = rest;
        first
    }

    fn below(&mut self, end: usize) -> usize {
        usize::from(self.byte()) % end.max(1)
    }

    /// A number: small, a time, an edge of the range, or any.
    fn number(&mut self) -> i32 {
        match self.byte() {
            byte @ 0..=127 => i32::from(byte) - 16,
            byte @ 128..=223 => 900 * (i32::from(byte) - 128),
            byte @ 224..=239 => {
                [HIGHEST, LOWEST, HIGHEST - 1, LOWEST + 1, BLANK, 1_000_000_000, -1_000_000_000, 1_000_000_001]
                    [usize::from(byte) % 8]
            }
            _ => i32::from_le_bytes([self.byte(), self.byte(), self.byte(), self.byte()]),
        }
    }

    /// A variable, now and then one that is not there.
    fn variable(&mut self, n: usize) -> u16 {
        match self.byte() {
            255 => n as u16,
            byte => u16::from(byte) % n as u16,
        }
    }

    /// A build of up to 40 variables; most of what the first checks refuse takes a byte of its own.
    fn model(&mut self) -> Case {
        let n = 1 + self.below(40);
        let m = self.below(n + 1);
        let rows: Vec<Row> = (0..m).map(|_| self.row(n)).collect();
        let mut starts: Vec<i32> = (0..n).map(|_| self.number()).collect();
        let right = self.byte();
        for row in rows.iter().filter(|_| right & 1 == 0) {
            if let Some(start) = starts.get_mut(usize::from(row.makes)) {
                *start = 0;
            }
        }
        let mut case = of_rows(starts, &rows);
        if right & 6 == 6 {
            for variable in 0..n {
                let (one, other) = (self.number(), self.number());
                let made = rows.iter().any(|row| usize::from(row.makes) == variable);
                let full = made || self.byte() & 3 != 0;
                let bounds = if full { (LOWEST, HIGHEST) } else { (one.min(other), one.max(other)) };
                (case.lows[variable], case.highs[variable]) = bounds;
            }
        }
        if right & 0xF8 == 0xF8 && m > 0 {
            let row = self.below(m);
            case.firsts[row] = case.firsts[row].wrapping_add(u16::from(self.byte()));
        }
        case
    }

    fn row(&mut self, n: usize) -> Row {
        let kind = match self.byte() {
            255 => u16::from(self.byte()),
            byte => 1 + u16::from(byte) % 9,
        };
        let makes = self.variable(n);
        let count = match kind {
            7 => 2,
            8 | 9 => 3,
            4 => 2 + self.below(5),
            _ => 1 + self.below(6),
        };
        let parameter = if matches!(kind, 1 | 6) { self.number() } else { 0 };
        let coefficient = |chosen: &mut Self| if kind == 1 { i16::from(chosen.byte() as i8) } else { 1 };
        let entries = (0..count).map(|_| (self.variable(n), coefficient(self))).collect();
        Row { kind, makes, parameter, entries }
    }

    /// A call over a model that was built: a trial, a keep, a taking back, or a batch.
    fn call(&mut self, model: &Case) -> Case {
        let call = self.byte();
        match call % 8 {
            0..=2 => {
                let asked: Vec<u16> = (0..self.below(5)).map(|_| self.variable(model.n)).collect();
                let route = if call > 250 { u32::from(self.byte()) } else { 1 + u32::from(call / 8) % 3 };
                let tried = Case {
                    call: Call::Trial,
                    asked: asked.len(),
                    results: vec![7; asked.len()].into(),
                    why: vec![7; asked.len()].into(),
                    trial: vec![7; model.n].into(),
                    asked_vars: asked.into(),
                    route,
                    ..model.clone()
                };
                self.moved(tried)
            }
            3 | 4 => self.moved(Case { call: Call::Keep, ..model.clone() }),
            5 | 6 => Case { call: Call::TakeBack, ..model.clone() },
            _ => {
                let moves: Vec<Vec<(u16, i32)>> = (0..self.below(4)).map(|_| self.pairs(model.n)).collect();
                let (vars, values): (Vec<u16>, Vec<i32>) = moves.iter().flatten().copied().unzip();
                Case {
                    call: Call::Figures,
                    moves: moves.len(),
                    move_pairs: moves.iter().map(|pairs| pairs.len() as u16).collect::<Vec<u16>>().into(),
                    move_vars: vars.into(),
                    move_values: values.into(),
                    asked: self.variable(model.n).into(),
                    by_number: vec![77; NUMBERS].into(),
                    ..model.clone()
                }
            }
        }
    }

    fn pairs(&mut self, n: usize) -> Vec<(u16, i32)> {
        (0..self.below(4)).map(|_| (self.variable(n), self.number())).collect()
    }

    /// The case with a move.
    fn moved(&mut self, case: Case) -> Case {
        let (vars, values): (Vec<u16>, Vec<i32>) = self.pairs(case.n).into_iter().unzip();
        Case { pairs: vars.len(), move_vars: vars.into(), move_values: values.into(), ..case }
    }
}

#[cfg(test)]
mod tests {
    use std::panic::{AssertUnwindSafe, catch_unwind};

    use super::*;
    use crate::fuzz::file_of;
    use crate::runs::model_a;
    use crate::{Answer, Engine};

    /// The second implementation, wrong by one where it accepts one of the calls.
    struct Wrong(Call);

    impl Engine for Wrong {
        fn answer(&self, case: &mut Case) -> Answer {
            let answer = Second.answer(case);
            let wrong = case.call == self.0 && answer.number == 0;
            Answer { evaluations: answer.evaluations + u32::from(wrong), ..answer }
        }
    }

    #[test]
    fn every_target_reaches_its_calls_and_finds_a_wrong_one() {
        let (file, bounded) = (file_of(&model_a()), file_of_version_2());
        // one variable, and of each call one
        let calls = [0, 0, 16, 0, 0, 1, 0, 1, 0, 20, 3, 1, 0, 30, 5, 7, 1, 1, 0, 25, 0];
        let feed = b"trip_id,start_time,end_time,headway_secs\n\"A\",6:00:00,7:00:00,60\n";
        let reached: [(&str, &[u8], &[Call]); 6] = [
            ("read", &file, &[Call::Read, Call::Write, Call::Build, Call::ToVersion2]),
            ("read", &bounded, &[Call::ReadBounded, Call::WriteBounded, Call::Build, Call::ToVersion1]),
            ("salvage", &file[..100], &[Call::Salvage, Call::Read, Call::Build]),
            ("build", &calls, &[Call::Build, Call::InputsOfRow]),
            ("session", &calls, &[Call::Build, Call::Trial, Call::Keep, Call::TakeBack, Call::Figures]),
            ("frequencies", feed, &[Call::Frequencies, Call::WriteFrequencies]),
        ];
        for (name, bytes, calls) in reached {
            let (_, target) = TARGETS.iter().find(|(target, _)| *target == name).expect("a target");
            target(&Second, bytes);
            for &call in calls {
                let found = catch_unwind(AssertUnwindSafe(|| target(&Wrong(call), bytes)));
                assert!(found.is_err(), "{name} does not find a wrong {call:?}");
            }
        }
        assert!(TARGETS.iter().all(|(target, _)| reached.iter().any(|(name, ..)| name == target)));
    }

    /// Model A as a file of version 2.
    fn file_of_version_2() -> Vec<u8> {
        let model = model_a();
        let bytes = vec![0; 28 + 12 * model.n + 12 * model.m + 4 * model.e];
        let mut case = Case { call: Call::WriteBounded, bytes: bytes.into(), ..model };
        assert_eq!(Second.answer(&mut case).number, 0);
        case.bytes.to_vec()
    }
}
