//! Salvage of damaged files, as tests of any engine: both sides of the edge of every rule, and random damage. What is saved
//! is read and built, and an undamaged file comes back the same.

use second::{BLANK, MOST_ENTRIES, MOST_VARIABLES};

use crate::fuzz::{digits_of, file_of, put, reading};
use crate::{
    Answer, Call, Case, Difference, Engine, Random, Row, Second, Side, Sizes, Test, chain, compare, lengthen, model,
    of_rows, one_short, seed, shorten, shrink,
};

/// How many files are damaged at random.
const DAMAGED: usize = 20_000;

/// The most bytes of a model file.
const MOST_BYTES: usize = 24 + 16 * MOST_VARIABLES + 4 * MOST_ENTRIES;

/// How long the file and the list are that are saved of these bytes; 0 and 0 if they are refused.
pub(crate) fn room_for(bytes: &[u8]) -> (usize, usize) {
    let (mut file, mut list) = (vec![0; MOST_BYTES], vec![0; 2 * MOST_VARIABLES]);
    second::salvage(bytes, &mut file, &mut list).map_or((0, 0), |(length, rows, values)| (length, rows + values))
}

/// The salvage of these bytes, with buffers that are just as long as what goes into them.
#[must_use]
pub fn salvage_of(bytes: &[u8]) -> Case {
    let (file, list) = room_for(bytes);
    Case {
        call: Call::Salvage,
        bytes: bytes.to_vec().into(),
        file: vec![0xEE; file].into(),
        list: vec![0xEEEE; list].into(),
        ..Case::default()
    }
}

/// The answer on which the engine and the second implementation agree.
///
/// # Panics
/// If they differ.
pub fn agree(engine: &dyn Engine, case: &Case) -> Answer {
    let differs = |found: Box<Difference>| -> Answer {
        let found = shrink(engine, &Second, found);
        panic!("salvage {}\n{found}", digits_of(&found.case.bytes))
    };
    compare(engine, &Second, case).unwrap_or_else(differs)
}

/// Whether the engine reads a file and builds its model.
fn builds(engine: &dyn Engine, file: &[u8]) -> bool {
    let Side { answer, left } = Side::of(engine, &reading(file));
    let (n, m, e) = (answer.n as usize, answer.m as usize, answer.e as usize);
    let build = Case { call: Call::Build, n, m, e, ..left }.with_room();
    answer.number == 0 && Side::of(engine, &build).answer.number == 0
}

/// What came of random damage.
#[derive(Clone, Copy, Debug, Default)]
struct Tally {
    /// Files of which something was saved, and those refused with 14 and with 1.
    saved: usize,
    refused: [usize; 2],
    /// Files saved with nothing listed, with rows dropped, with start values missing or reset.
    same: usize,
    rows: usize,
    values: usize,
    /// Files saved with some rows dropped and others kept.
    some: usize,
    /// Files saved with as many entries as a model may have.
    full: usize,
}

impl Tally {
    fn note(&mut self, answer: Answer, file: &[u8]) {
        let count =
            |at: usize| file.get(at..at + 2).map_or(0, |field| usize::from(field[0]) | usize::from(field[1]) << 8);
        let Answer { number, rows, values, .. } = answer;
        self.saved += usize::from(number == 0);
        self.refused[0] += usize::from(number == 14);
        self.refused[1] += usize::from(number == 1);
        self.same += usize::from(number == 0 && (rows, values) == (0, 0));
        self.rows += usize::from(rows > 0);
        self.values += usize::from(values > 0);
        self.some += usize::from(rows > 0 && count(4) > 0);
        self.full += usize::from(count(6) == MOST_ENTRIES);
    }

    fn assert_wide(&self) {
        println!("{self:?}");
        let Tally { saved, refused, same, rows, values, some, .. } = *self;
        assert!(saved > DAMAGED / 2 && refused.iter().all(|&files| files > 100), "saved and refused: {self:?}");
        assert!([same, rows, values, some].iter().all(|&files| files > DAMAGED / 20), "every list: {self:?}");
    }
}

/// Files damaged at random, saved by the engine and by the second implementation; what is saved is read and built, and
/// saving it again gives the same.
///
/// # Panics
/// If the engine differs from the second implementation, or saves what it does not build.
pub fn damaged_files(engine: &dyn Engine) {
    let tally = save_damaged(engine, |random| match random.below(20) {
        0 => crowded(random),
        1 => Sizes::any_model(random),
        _ => model(random, Sizes::TINY),
    });
    tally.assert_wide();
    assert!(tally.full > 20, "as many entries as there may be: {tally:?}");
}

/// The same over tiny models only, for an engine that takes its time.
///
/// # Panics
/// If the engine differs from the second implementation, or saves what it does not build.
pub fn tiny_damaged_files(engine: &dyn Engine) {
    save_damaged(engine, |random| model(random, Sizes::TINY)).assert_wide();
}

fn save_damaged(engine: &dyn Engine, draw: impl Fn(&mut Random) -> Case) -> Tally {
    let seed = seed();
    println!("seed {seed}");
    let mut random = Random::new(seed);
    let mut tally = Tally::default();
    for _ in 0..DAMAGED {
        let model = draw(&mut random);
        let mut case = salvage_of(&damaged_file(&mut random, model));
        match random.below(4) {
            0 => lengthen(&mut random, &mut case),
            1 if random.once_in(4) => shorten(&mut random, &mut case),
            _ => {}
        }
        let answer = agree(engine, &case);
        let mut left = case;
        Second.answer(&mut left);
        let file = &left.file[..answer.length as usize];
        if answer.number == 0 {
            assert!(builds(engine, file), "saved and not built: salvage {}", digits_of(&left.bytes));
            comes_back(engine, file);
        }
        tally.note(answer, file);
    }
    tally
}

/// An undamaged file comes back the same, with nothing listed.
fn comes_back(engine: &dyn Engine, file: &[u8]) {
    let case = Case { file: vec![0; file.len()].into(), list: Vec::new().into(), ..salvage_of(file) };
    let Side { answer, left } = Side::of(engine, &case);
    assert_eq!(answer, Answer { length: file.len() as u32, ..Answer::default() }, "an undamaged file");
    assert!(*left.file == *file && left.intact(), "the same file");
}

/// The file of a model with a few things wrong in it.
fn damaged_file(random: &mut Random, mut case: Case) -> Vec<u8> {
    for _ in 0..random.below(5) {
        damage_tables(random, &mut case);
    }
    let mut bytes = file_of(&case);
    for _ in 0..random.below(3) {
        damage_bytes(random, &mut bytes);
    }
    bytes
}

/// Rows whose parts overlap, so that they have together just about as many entries as a model may have.
fn crowded(random: &mut Random) -> Case {
    let m = 64 + random.below(6);
    let e = 256 + random.below(3);
    let mut counts = vec![256; m];
    for _ in 0..random.below(4) {
        counts[random.below(m)] = random.pick(&[255, 128, 127, 1]);
    }
    let firsts: Vec<u16> = counts.iter().map(|&count| random.below(e + 1 - usize::from(count)) as u16).collect();
    Case {
        call: Call::Build,
        n: m + 1,
        m,
        e,
        kinds: vec![2; m].into(),
        makes: (1..=m as u16).collect::<Vec<u16>>().into(),
        params: vec![0; m].into(),
        firsts: firsts.into(),
        counts: counts.into(),
        vars: vec![0; e].into(),
        coefs: vec![1; e].into(),
        starts: vec![0; m + 1].into(),
        ..Case::default()
    }
}

/// Makes a row, an entry or a start value wrong, or puts it to the edge.
fn damage_tables(random: &mut Random, case: &mut Case) {
    let Case { n, m, e, .. } = *case;
    let (row, other, entry) = (random.below(m), random.below(m), random.below(e));
    let [made, of_other] = [row, other].map(|row| case.makes.get(row).copied().unwrap_or(0));
    let [(first, count), (first_of_other, count_of_other)] = [row, other]
        .map(|row| (case.firsts.get(row).copied().unwrap_or(0), case.counts.get(row).copied().unwrap_or(0)));
    let (last, none) = (n as u16 - 1, n as u16);
    match random.below(12) {
        0 => case.kinds.put(row, random.pick(&[0, 1, 2, 4, 6, 7, 8, 9, 10, u16::MAX])),
        1 => case.makes.put(row, random.pick(&[0, last, none, u16::MAX])),
        2 => case.makes.put(row, of_other),
        3 => case.params.put(row, random.pick(&[0, 1, -1, 1_000_000_000, -1_000_000_000, 1_000_000_001, i32::MIN])),
        4 => {
            case.firsts.put(row, random.pick(&[0, first.wrapping_add(1), first.saturating_sub(1), e as u16, u16::MAX]))
        }
        5 => case.counts.put(row, random.pick(&[0, 1, 2, 3, count.wrapping_add(1), count.saturating_sub(1), 256, 257])),
        6 => {
            case.firsts.put(row, first_of_other);
            case.counts.put(row, count_of_other);
        }
        7 => case.vars.put(entry, random.pick(&[0, last, none, u16::MAX])),
        8 => {
            case.vars.put(usize::from(first), of_other);
            case.vars.put(usize::from(first_of_other), made);
        }
        9 => case.coefs.put(entry, random.pick(&[1, 0, 2, -1, 1000, -1000, 1001, -1001, i16::MIN])),
        10 => case.starts.put(random.below(n), random.pick(&[0, 1, BLANK, i32::MAX, -i32::MAX])),
        _ => case.starts.put(usize::from(made), random.pick(&[0, 1, -1, BLANK])),
    }
}

/// Cuts a file short, makes it longer, or edits its header or any byte.
fn damage_bytes(random: &mut Random, bytes: &mut Vec<u8>) {
    let place = random.below(bytes.len());
    match random.below(8) {
        0..=2 => bytes.truncate(place),
        3 => bytes.extend((0..1 + place % 40).map(|_| random.bits() as u8)),
        4 => put(bytes, 8 + 4 * random.below(4), &(random.bits() as u32).to_le_bytes()),
        5 | 6 => {
            let at = 2 * (1 + random.below(3));
            let count = field(bytes, at);
            let bounds =
                [0, 1, count.wrapping_add(1), count.wrapping_sub(1), count.wrapping_add(2), 4096, 4097, 16384, 16385];
            let most = if random.once_in(20) { bounds.len() } else { 5 };
            set(bytes, at, bounds[random.below(most)]);
        }
        _ => {
            let bit = 1 << random.below(8);
            let flipped = bytes.get(place).map_or(0, |byte| byte ^ bit);
            put(bytes, place, &[flipped]);
        }
    }
}

/// The number of two bytes at a place, 0 if they are not there.
fn field(bytes: &[u8], at: usize) -> u16 {
    bytes.get(at..at + 2).map_or(0, |field| u16::from_le_bytes([field[0], field[1]]))
}

/// Writes a number of two bytes at a place, as far as it is there.
fn set(bytes: &mut [u8], at: usize, number: u16) {
    put(bytes, at, &number.to_le_bytes());
}

/// The file of rows over start values, whatever is wrong with them.
fn file(starts: &[i32], rows: &[Row]) -> Vec<u8> {
    file_of(&of_rows(starts.to_vec(), rows))
}

/// The bytes with another number at a place.
fn with(bytes: &[u8], at: usize, number: u16) -> Vec<u8> {
    let mut bytes = bytes.to_vec();
    set(&mut bytes, at, number);
    bytes
}

/// Asserts which rows are dropped and which start values are missing or reset, and that the rest is built; gives the file.
fn saves(engine: &dyn Engine, what: &str, bytes: &[u8], rows: &[u16], values: &[u16]) -> Vec<u8> {
    let Side { answer, left } = Side::of(engine, &salvage_of(bytes));
    let (length, list) = (left.file.len() as u32, [rows, values].concat());
    let expected = Answer { length, rows: rows.len() as u32, values: values.len() as u32, ..Answer::default() };
    assert_eq!((answer, &*left.list), (expected, &*list), "{what}");
    assert!(left.intact() && builds(engine, &left.file), "{what}: a file that is built");
    left.file.to_vec()
}

/// Asserts a refusal that changes nothing.
fn refuses(engine: &dyn Engine, what: &str, case: &Case, number: u32, place: u32) {
    let Side { answer, left } = Side::of(engine, case);
    assert_eq!(answer, Answer { number, place, ..Answer::default() }, "{what}");
    assert!(left == *case && left.intact(), "{what}: nothing changes");
}

/// Asserts a refusal with 14, also where the buffers are short.
fn refuses_header(engine: &dyn Engine, what: &str, bytes: &[u8], place: u32) {
    let lent = Case { file: vec![7; 200].into(), list: vec![7; 20].into(), ..salvage_of(bytes) };
    refuses(engine, what, &lent, 14, place);
    refuses(engine, what, &salvage_of(bytes), 14, place);
}

fn headers(engine: &dyn Engine) {
    let one = file(&[7], &[]);
    for length in [0, 1, 23] {
        refuses_header(engine, "a header that is cut", &one[..length], length as u32);
    }
    assert_eq!(saves(engine, "only the header", &one[..24], &[], &[0]), file(&[0], &[]));
    for version in [0, 2, 257, u16::MAX] {
        refuses_header(engine, "version", &with(&with(&one, 0, version), 2, 0), 0);
    }
    for n in [0, 4097, u16::MAX] {
        refuses_header(engine, "variables", &with(&with(&one, 2, n), 6, 16385), 2);
    }
    let most: Vec<u16> = (1..4096).collect();
    saves(engine, "4,096 variables", &with(&one, 2, 4096), &[], &most);
    saves(engine, "as many rows as variables", &with(&one, 4, 1), &[0], &[]);
    refuses_header(engine, "more rows than variables", &with(&with(&one, 4, 2), 6, 16385), 4);
    assert_eq!(saves(engine, "16,384 entries", &with(&one, 6, 16384), &[], &[]), one);
    refuses_header(engine, "16,385 entries", &with(&one, 6, 16385), 6);
}

fn offsets_and_surplus(engine: &dyn Engine) {
    let two = file(&[4, 9, 0], &[Row::plain(3, 2, &[0, 1])]);
    for at in 8..24 {
        let mut bytes = two.clone();
        bytes[at] ^= 0xFF;
        assert_eq!(saves(engine, "an offset or the total", &bytes, &[], &[]), two);
    }
    for surplus in [1, 3, 4, 4000, MOST_BYTES] {
        let longer = [&two[..], &vec![1; surplus]].concat();
        assert_eq!(saves(engine, "surplus bytes", &longer, &[], &[]), two);
    }
}

fn cut_at_every_byte(engine: &dyn Engine) {
    let rows = [Row::plain(3, 2, &[0, 1]), Row::plain(2, 3, &[0, 1])];
    let bytes = file(&[4, 9, 0, 0], &rows);
    assert_eq!(bytes.len(), 80);
    for length in 24..=80 {
        let dropped: &[u16] = match length {
            80 => &[],
            72.. => &[1],
            _ => &[0, 1],
        };
        let missing: Vec<u16> = (0..4).filter(|&variable| length < 28 + 4 * usize::from(variable)).collect();
        let saved = saves(engine, "a file that is cut", &bytes[..length], dropped, &missing);
        let start = |variable: u16, start| if missing.contains(&variable) { 0 } else { start };
        assert_eq!(saved, file(&[start(0, 4), start(1, 9), 0, 0], &rows[..2 - dropped.len()]), "length {length}");
    }
}

fn parts(engine: &dyn Engine) {
    let rows = [Row::plain(3, 2, &[0, 1]), Row::plain(2, 3, &[1, 0])];
    let bytes = file(&[4, 9, 0, 0], &rows);
    saves(engine, "a part that ends after e", &with(&bytes, 6, 3), &[1], &[]);
    saves(engine, "a part that ends at e", &with(&bytes, 6, 4), &[], &[]);
    saves(engine, "entries that are not there and that no row has", &with(&bytes, 6, 5), &[], &[]);
    let (first_of_0, first_of_1) = (24 + 16 + 8, 24 + 16 + 12 + 8);
    let shared = with(&bytes, first_of_1, 0);
    let same = file(&[4, 9, 0, 0], &[rows[0].clone(), Row::plain(2, 3, &[0, 1])]);
    assert_eq!(saves(engine, "two rows with one part", &shared, &[], &[]), same);
    let overlapping = file(&[4, 9, 0, 0], &[rows[0].clone(), Row::plain(2, 3, &[1, 1])]);
    assert_eq!(saves(engine, "parts that overlap", &with(&bytes, first_of_1, 1), &[], &[]), overlapping);
    let crossed = with(&with(&bytes, first_of_0, 2), first_of_1, 0);
    let packed = file(&[4, 9, 0, 0], &[Row::plain(3, 2, &[1, 0]), Row::plain(2, 3, &[0, 1])]);
    assert_eq!(saves(engine, "parts in another order", &crossed, &[], &[]), packed);
    saves(engine, "a part that begins too late", &with(&bytes, first_of_1, 3), &[1], &[]);
    saves(engine, "a part that begins far beyond", &with(&bytes, first_of_1, u16::MAX), &[1], &[]);
}

fn checks_2_to_4(engine: &dyn Engine) {
    let judge = |what: &str, kind: u16, makes: u16, parameter: i32, entries: &[(u16, i16)], good: bool| {
        let row = Row { kind, makes, parameter, entries: entries.to_vec() };
        let dropped: &[u16] = if good { &[] } else { &[0] };
        saves(engine, &format!("{what} {row:?}"), &file(&[1, 2, 0], &[row]), dropped, &[]);
    };
    for (kind, good) in
        [(0, false), (1, true), (2, true), (3, true), (5, true), (6, true), (10, false), (u16::MAX, false)]
    {
        judge("kind", kind, 2, 0, &[(0, 1)], good);
    }
    for (makes, good) in [(2, true), (3, false), (u16::MAX, false)] {
        judge("made variable", 2, makes, 0, &[(0, 1)], good);
    }
    for (input, good) in [(1, true), (3, false), (u16::MAX, false)] {
        judge("input", 2, 2, 0, &[(0, 1), (input, 1)], good);
    }
    for (kind, least, most) in [(1, 1, 256), (2, 1, 256), (3, 1, 256), (4, 2, 256), (5, 1, 256), (6, 1, 256)]
        .into_iter()
        .chain([(7, 2, 2), (8, 3, 3), (9, 3, 3)])
    {
        for count in [least - 1, least, most, most + 1] {
            judge("count", kind, 2, 0, &vec![(0, 1); count], (least..=most).contains(&count));
        }
    }
    for kind in 1..=9 {
        let entries = |last: i16| match kind {
            7 => vec![(0, 1), (0, last)],
            _ => vec![(0, 1), (1, 1), (0, last)],
        };
        for coefficient in [1, 0, 2, -1, 1000, -1000, 1001, -1001, i16::MAX, i16::MIN] {
            let good = if kind == 1 { (-1000..=1000).contains(&coefficient) } else { coefficient == 1 };
            judge("coefficient", kind, 2, 0, &entries(coefficient), good);
        }
        for parameter in [0, 1, -1, 1_000_000_000, -1_000_000_000, 1_000_000_001, -1_000_000_001, i32::MAX, i32::MIN] {
            let inside = (-1_000_000_000..=1_000_000_000).contains(&parameter);
            judge(
                "parameter",
                kind,
                2,
                parameter,
                &entries(1),
                if matches!(kind, 1 | 6) { inside } else { parameter == 0 },
            );
        }
    }
}

fn two_makers(engine: &dyn Engine) {
    let [good, other, bad] = [Row::plain(3, 2, &[0]), Row::plain(2, 2, &[1]), Row::plain(7, 2, &[1])];
    let saved = saves(engine, "the later row", &file(&[1, 2, 0], &[good.clone(), other.clone()]), &[1], &[]);
    assert_eq!(saved, file(&[1, 2, 0], std::slice::from_ref(&good)));
    saves(engine, "all later rows", &file(&[1, 2, 0], &[good.clone(), other.clone(), good.clone()]), &[1, 2], &[]);
    saves(engine, "after a row that is not kept", &file(&[1, 2, 0], &[bad, other.clone()]), &[0], &[]);
    let round = Row::plain(3, 2, &[2]);
    saves(engine, "after a row that is dropped last", &file(&[1, 2, 0], &[round, other]), &[0, 1], &[]);
}

/// Rows with so many entries each, all from the first entry on, and what is dropped of them.
fn kept_entries(engine: &dyn Engine) {
    let judge = |what: &str, counts: &[u16], dropped: &[u16]| {
        let m = counts.len();
        let case = Case {
            n: m + 1,
            m,
            e: 256,
            kinds: vec![2; m].into(),
            makes: (1..=m as u16).collect::<Vec<u16>>().into(),
            params: vec![0; m].into(),
            firsts: vec![0; m].into(),
            counts: counts.to_vec().into(),
            vars: vec![0; 256].into(),
            coefs: vec![1; 256].into(),
            starts: vec![0; m + 1].into(),
            ..Case::default()
        };
        let saved = saves(engine, what, &file_of(&case), dropped, &[]);
        let rest = |row: &u16| !dropped.contains(row);
        let entries: u16 = (0..m as u16).filter(rest).map(|row| counts[usize::from(row)]).sum();
        assert_eq!(field(&saved, 6), entries, "{what}");
    };
    judge("16,384 entries", &[256; 64], &[]);
    judge("one more", &[&[256; 64][..], &[1]].concat(), &[64]);
    judge("one short of them, and one", &[&[256; 63][..], &[255, 1, 1]].concat(), &[65]);
    judge("a row that is too long, and a shorter one", &[&[256; 63][..], &[255, 2, 1]].concat(), &[64]);
    judge("many rows too many", &[256; 70], &[64, 65, 66, 67, 68, 69]);
}

fn closed_chains(engine: &dyn Engine) {
    let plain = |makes: u16, inputs: &[u16]| Row::plain(2, makes, inputs);
    let rows = [plain(0, &[1]), plain(1, &[0]), plain(2, &[4, 0]), plain(3, &[4])];
    let saved = saves(engine, "a chain and what depends on it", &file(&[5, 0, 0, 0, 6], &rows), &[0, 1, 2], &[]);
    assert_eq!(saved, file(&[5, 0, 0, 0, 6], &rows[3..]), "start values of what nothing makes now stay");
    saves(engine, "a variable from itself", &file(&[0, 1], &[plain(0, &[0])]), &[0], &[]);
    saves(engine, "every variable made", &file(&[0, 0], &[plain(0, &[1]), plain(1, &[1])]), &[0, 1], &[]);
    let choice = Row::plain(4, 0, &[1, 2, 0]);
    saves(engine, "a candidate that is not chosen", &file(&[0, 0, 7], &[choice]), &[0], &[]);
    let broken = [plain(0, &[1]), Row::plain(10, 1, &[0])];
    let saved = saves(engine, "a chain with a row that is not kept", &file(&[0, 3], &broken), &[1], &[]);
    assert_eq!(saved, file(&[0, 3], &broken[..1]));
    let open = [plain(0, &[1]), plain(1, &[2])];
    assert_eq!(saves(engine, "an open chain", &file(&[0, 0, 3], &open), &[], &[]), file(&[0, 0, 3], &open));
}

fn start_values(engine: &dyn Engine) {
    let row = Row::plain(3, 3, &[0]);
    let judge = |starts: [i32; 4], reset: &[u16]| {
        let saved = saves(engine, &format!("{starts:?}"), &file(&starts, std::slice::from_ref(&row)), &[], reset);
        let mut left = starts;
        reset.iter().for_each(|&variable| left[usize::from(variable)] = 0);
        assert_eq!(saved, file(&left, std::slice::from_ref(&row)));
    };
    judge([i32::MAX, -i32::MAX, 1, 0], &[]);
    judge([BLANK, BLANK + 1, 0, 0], &[0]);
    for start in [1, -1, i32::MAX, BLANK] {
        judge([1, 2, 3, start], &[3]);
    }
    judge([1, BLANK, BLANK, BLANK], &[1, 2, 3]);
    let whole = file(&[1, 2, 3, 4], &[row]);
    saves(engine, "a start value that is cut and one that is missing", &whole[..34], &[0], &[2, 3]);
}

fn buffers(engine: &dyn Engine) {
    let bytes = file(&[1, BLANK, 5], &[Row::plain(3, 2, &[0]), Row::plain(2, 2, &[1])]);
    let case = salvage_of(&bytes);
    assert_eq!((case.file.len(), case.list.len()), (24 + 12 + 12 + 4, 3));
    for short in one_short(&case) {
        refuses(engine, "a buffer that is one short", &short, 1, 0);
    }
    refuses(engine, "no buffers", &Case { file: Vec::new().into(), list: Vec::new().into(), ..case.clone() }, 1, 0);
    let longer = Case { file: vec![0xEE; 60].into(), list: vec![0xEEEE; 5].into(), ..case };
    let Side { answer, left } = Side::of(engine, &longer);
    assert_eq!((answer.number, answer.length, answer.rows, answer.values), (0, 52, 1, 2));
    assert_eq!((&left.list[..], &left.file[52..]), (&[1, 1, 2, 0xEEEE, 0xEEEE][..], &[0xEE; 8][..]));
    assert!(left.intact());
}

fn undamaged_files(engine: &dyn Engine) {
    let mut random = Random::new(7);
    for _ in 0..300 {
        comes_back(engine, &file_of(&Sizes::any_model(&mut random)));
    }
    comes_back(engine, &file_of(&chain(2, 4095, 4, 7)));
    comes_back(engine, &file(&[3; 4096], &[]));
}

fn the_largest_files(engine: &dyn Engine) {
    let rows: Vec<Row> = (0..4096).map(|variable| Row::plain(1, variable, &[4095 - variable; 4])).collect();
    let bytes = file(&[-1; 4096], &rows);
    assert_eq!(bytes.len(), MOST_BYTES);
    let all: Vec<u16> = (0..4096).collect();
    assert_eq!(saves(engine, "chains of two everywhere", &bytes, &all, &[]), file(&[-1; 4096], &[]));
    let mut deep = of_rows(vec![0; 4096], &rows[..4095]);
    deep.vars.iter_mut().zip(0u16..).for_each(|(variable, entry)| *variable = 4095 - entry / 4);
    deep.makes.iter_mut().zip(0u16..).for_each(|(makes, row)| *makes = 4094 - row);
    comes_back(engine, &file_of(&deep));
    deep.vars[0] = 0;
    saves(engine, "one entry closes the deepest chain", &file_of(&deep), &all[..4095], &[]);
}

/// All rules of salvage by name.
pub const SALVAGES: &[Test] = &[
    ("14", headers),
    ("offsets, the total and surplus bytes", offsets_and_surplus),
    ("a file cut at every byte", cut_at_every_byte),
    ("parts", parts),
    ("checks 2 to 4", checks_2_to_4),
    ("two makers", two_makers),
    ("16,384 entries", kept_entries),
    ("closed chains", closed_chains),
    ("start values", start_values),
    ("buffers", buffers),
    ("undamaged files", undamaged_files),
    ("the largest files", the_largest_files),
];
