//! Salvage step by step: rows are found one by one, each judged as a model of its own, and the rest by build's checks.

use compare::{Answer, Case, Row, of_rows};
use second::Refused;

use super::{Model, check_2, check_3, check_4, file, first};

/// Everything is placed by the header's counts; what is missing in the file is none.
struct Found {
    bytes: Vec<u8>,
    n: usize,
    m: usize,
    e: usize,
}

impl Found {
    fn number(&self, at: usize, width: usize) -> Option<usize> {
        (0..width).map(|i| Some(usize::from(*self.bytes.get(at + i)?) << (8 * i))).sum()
    }

    fn start(&self, variable: usize) -> Option<i32> {
        Some(self.number(24 + 4 * variable, 4)? as u32 as i32)
    }

    fn entry(&self, entry: usize) -> Option<(u16, i16)> {
        let at = 24 + 4 * self.n + 12 * self.m + 4 * entry;
        let there = entry < self.e;
        Some((self.number(at, 2)? as u16, self.number(at + 2, 2)? as u16 as i16)).filter(|_| there)
    }

    fn row(&self, row: usize) -> Option<Row> {
        let at = 24 + 4 * self.n + 12 * row;
        let [kind, makes, first, count] = [0, 2, 8, 10].map(|field| self.number(at + field, 2));
        let entries = (0..count?).map(|place| self.entry(first? + place)).collect::<Option<Vec<_>>>()?;
        let parameter = self.number(at + 4, 4)? as u32 as i32;
        Some(Row { kind: kind? as u16, makes: makes? as u16, parameter, entries })
    }

    /// Whether a row passes checks 2 to 4 in a model of its own.
    fn good(&self, row: &Row) -> bool {
        let alone = of_rows(vec![0; self.n], std::slice::from_ref(row));
        first([check_2(&alone), check_3(&alone)]).is_none() && first([check_4(&Model::of(&alone))]).is_none()
    }
}

/// The header's fields in turn, then the rows, then the start values, then the room.
pub fn salvage(case: &mut Case) -> Answer {
    let bytes = case.bytes.to_vec();
    if bytes.len() < 24 {
        return Answer::refused(Refused { number: 14, place: bytes.len() as u32 });
    }
    let field = |at: usize| usize::from(bytes[at]) + 256 * usize::from(bytes[at + 1]);
    let (n, m, e) = (field(2), field(4), field(6));
    let fields = [(0, field(0) == 1), (2, (1..=4096).contains(&n)), (4, m <= n), (6, e <= 16384)];
    if let Some(&(place, _)) = fields.iter().find(|(_, right)| !right) {
        return Answer::refused(Refused { number: 14, place });
    }
    let found = Found { bytes, n, m, e };
    let (kept, dropped) = rows(&found);
    let starts: Vec<Option<i32>> = (0..n).map(|variable| found.start(variable)).collect();
    let mut saved = of_rows(starts.iter().map(|start| start.unwrap_or(0)).collect(), &kept);
    let (_, offending) = Model::of(&saved).check_7(&saved);
    offending.iter().for_each(|&variable| saved.starts[variable] = 0);
    let listed = |variable: &usize| starts[*variable].is_none() || offending.contains(variable);
    let reset: Vec<usize> = (0..n).filter(listed).collect();
    let list: Vec<u16> = dropped.iter().chain(&reset).map(|&named| named as u16).collect();
    let written = file(&saved);
    if case.file.len() < written.len() || case.list.len() < list.len() {
        return Answer::refused(Refused { number: 1, place: 0 });
    }
    case.file[..written.len()].copy_from_slice(&written);
    case.list[..list.len()].copy_from_slice(&list);
    Answer { length: written.len() as u32, rows: dropped.len() as u32, values: reset.len() as u32, ..Answer::default() }
}

/// The rows that are saved, and the numbers of the others.
fn rows(found: &Found) -> (Vec<Row>, Vec<usize>) {
    let mut kept: Vec<(usize, Row)> = Vec::new();
    for row in 0..found.m {
        let Some(whole) = found.row(row).filter(|whole| found.good(whole)) else { continue };
        let made = kept.iter().any(|(_, earlier)| earlier.makes == whole.makes);
        let entries: usize = kept.iter().map(|(_, earlier)| earlier.entries.len()).sum();
        if !made && entries + whole.entries.len() <= 16384 {
            kept.push((row, whole));
        }
    }
    let all: Vec<Row> = kept.iter().map(|(_, whole)| whole.clone()).collect();
    let model = Model::of(&of_rows(vec![0; found.n], &all));
    kept.retain(|(_, whole)| !model.leads_round(whole.makes.into()));
    let dropped = (0..found.m).filter(|row| kept.iter().all(|(stays, _)| stays != row)).collect();
    (kept.into_iter().map(|(_, whole)| whole).collect(), dropped)
}
