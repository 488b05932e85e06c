//! Files of version 2, and moves from one version to the other, as tests of any engine: each field byte by byte, both sides of
//! the edge of every refusal, buffers too long and one too short, there and back, and random files of both versions.

use second::{BLANK, HIGHEST, LOWEST};

use crate::fuzz::{digits_of, file_of, put, reading};
use crate::runs::{model_a, model_a_spoilt};
use crate::{
    Answer, Call, Case, Difference, Engine, Guarded, Random, Row, Second, Side, Sizes, Test, compare, lengthen, model,
    of_rows, one_short, seed, shorten, shrink, value,
};

/// How many files are drawn at random.
const FILES: usize = 20_000;

/// The lowest and the highest number that is a value.
const FULL: (i32, i32) = (LOWEST, HIGHEST);

/// The answer on which the engine and the second implementation agree.
///
/// # Panics
/// If they differ.
fn agree(engine: &dyn Engine, case: &Case) -> Answer {
    let differs = |found: Box<Difference>| -> Answer {
        let found = shrink(engine, &Second, found);
        panic!("{:?} {}\n{found}", found.case.call, digits_of(&found.case.bytes))
    };
    compare(engine, &Second, case).unwrap_or_else(differs)
}

/// How many bytes a file of version 2 has.
fn length_of(model: &Case) -> usize {
    28 + 12 * model.n + 12 * model.m + 4 * model.e
}

/// A model with these bounds, to be written with them.
pub(crate) fn writing(model: &Case, bounds: &[(i32, i32)]) -> Case {
    let (lows, highs): (Vec<i32>, Vec<i32>) = bounds.iter().copied().unzip();
    let bytes = vec![0xEE; length_of(model)].into();
    Case { call: Call::WriteBounded, bytes, lows: lows.into(), highs: highs.into(), ..model.clone() }
}

/// A read of these bytes as a file of version 2, into rows as long as the header asks.
pub(crate) fn reading_bounded(bytes: &[u8]) -> Case {
    let read = reading(bytes);
    let (lows, highs) = (vec![7; read.starts.len()].into(), vec![7; read.starts.len()].into());
    Case { call: Call::ReadBounded, lows, highs, ..read }
}

/// A move of these bytes to the other version, into so many bytes.
pub(crate) fn moving(call: Call, bytes: &[u8], room: usize) -> Case {
    Case { call, bytes: bytes.to_vec().into(), file: vec![0xEE; room].into(), ..Case::default() }
}

/// What an accepted call left.
fn accepted(engine: &dyn Engine, case: &Case) -> Case {
    assert_eq!(agree(engine, case).number, 0, "{:?} is accepted", case.call);
    Side::of(engine, case).left
}

/// The refusal of a call, which leaves everything as it was.
fn refused(engine: &dyn Engine, case: &Case) -> (u32, u32) {
    let answer = agree(engine, case);
    assert!(answer.number != 0, "{:?} is refused", case.call);
    assert_eq!(answer, Answer { number: answer.number, place: answer.place, ..Answer::default() });
    assert_eq!(Side::of(engine, case).left, *case, "nothing has changed");
    (answer.number, answer.place)
}

/// The file of version 2 of a model with these bounds.
fn bounded_file(engine: &dyn Engine, model: &Case, bounds: &[(i32, i32)]) -> Vec<u8> {
    accepted(engine, &writing(model, bounds)).bytes.to_vec()
}

/// What a move leaves in a buffer of just the right length, which the answer states.
fn moved(engine: &dyn Engine, call: Call, bytes: &[u8], room: usize) -> Vec<u8> {
    let case = moving(call, bytes, room);
    assert_eq!(agree(engine, &case), Answer { length: room as u32, ..Answer::default() });
    accepted(engine, &case).file.to_vec()
}

fn up(engine: &dyn Engine, bytes: &[u8], n: usize) -> Vec<u8> {
    moved(engine, Call::ToVersion2, bytes, bytes.len() + 8 * n + 4)
}

fn back(engine: &dyn Engine, bytes: &[u8], n: usize) -> Vec<u8> {
    moved(engine, Call::ToVersion1, bytes, bytes.len() - 8 * n - 4)
}

/// Model A with bounds on its window: variable 0 from 7:00 to 7:30, the headway from 5 to 60 minutes.
fn bounds_of_a() -> [(i32, i32); 6] {
    [(25200, 27000), FULL, (300, 3600), FULL, FULL, FULL]
}

/// The bytes of model A with its bounds, field by field.
fn the_file_of_model_a(engine: &dyn Engine) {
    let plain = file_of(&model_a());
    let shorts = |fields: &[u16]| fields.iter().flat_map(|field| field.to_le_bytes()).collect::<Vec<u8>>();
    let longs = |fields: &[u32]| fields.iter().flat_map(|field| field.to_le_bytes()).collect::<Vec<u8>>();
    let full = [0x01, 0x00, 0x00, 0x80, 0xFF, 0xFF, 0xFF, 0x7F];
    let bounds = [longs(&[25200, 27000]), full.to_vec(), longs(&[300, 3600]), full.repeat(3)].concat();
    let expected = [shorts(&[2, 6, 3, 7]), longs(&[28, 52, 88, 164, 116]), plain[24..].to_vec(), bounds].concat();
    assert_eq!(bounded_file(engine, &model_a(), &bounds_of_a()), expected);
    assert_eq!(up(engine, &plain, 6), [&expected[..116], &full.repeat(6)[..]].concat());
}

/// Each lent row and the bytes exact, one too short and longer; what lies beyond stays.
fn rows_on_both_sides(engine: &dyn Engine) {
    let write = writing(&model_a(), &bounds_of_a());
    let read = Case { n: 6, m: 3, e: 7, ..reading_bounded(&bounded_file(engine, &model_a(), &bounds_of_a())) };
    for exact in [&write, &read] {
        accepted(engine, exact);
        for short in one_short(exact) {
            assert_eq!(refused(engine, &short), (1, 0));
        }
        let mut random = Random::new(5);
        for _ in 0..50 {
            let mut long = exact.clone();
            lengthen(&mut random, &mut long);
            if exact.call == Call::WriteBounded || long.bytes == exact.bytes {
                accepted(engine, &long);
            }
        }
    }
    let bytes = vec![0xEE; 170].into();
    assert_eq!(accepted(engine, &Case { bytes, ..write.clone() }).bytes[164..], [0xEE; 6]);
    for (n, m, e) in [(0, 0, 0), (4097, 3, 7), (6, 7, 7), (6, 3, 16385), (usize::MAX, 3, 7)] {
        assert_eq!(refused(engine, &Case { n, m, e, ..write.clone() }), (1, 0));
    }
}

/// Every wrong field of a header, and its place: the first one that is wrong decides.
fn headers_on_both_sides(engine: &dyn Engine) {
    let file = bounded_file(engine, &model_a(), &bounds_of_a());
    let full = bounded_file(engine, &model_a(), &[FULL; 6]);
    let take = |bytes: &[u8]| {
        let read = refused(engine, &reading_bounded(bytes));
        assert_eq!(
            refused(engine, &moving(Call::ToVersion1, bytes, 0)),
            read,
            "a move judges the header as a read does"
        );
        read
    };
    for length in 0..28 {
        assert_eq!(take(&file[..length]), (14, length as u32), "a file of {length} bytes");
    }
    let wrong: [(usize, &[u8], u32); 18] = [
        (0, &[1, 0], 0),
        (0, &[3, 0], 0),
        (0, &[2, 1], 0),
        (2, &[0, 0], 2),
        (2, &[1, 16], 2),
        (4, &[7, 0], 4),
        (6, &[1, 64], 6),
        (8, &[24, 0], 8),
        (8, &[28, 0, 0, 1], 8),
        (12, &[48], 12),
        (12, &[53], 12),
        (16, &[84], 16),
        (16, &[89], 16),
        (20, &[116], 20),
        (20, &[165], 20),
        (24, &[115], 24),
        (24, &[164], 24),
        (24, &[116, 0, 1], 24),
    ];
    for (at, field, place) in wrong {
        let mut bytes = file.clone();
        put(&mut bytes, at, field);
        assert_eq!(take(&bytes), (14, place), "{field:?} at {at}");
        // with every field behind it wrong too, it still decides
        for behind in (at + 4..28).step_by(4) {
            put(&mut bytes, behind, &[0xEE; 4]);
        }
        assert_eq!(take(&bytes), (14, place), "{field:?} at {at}, and all behind it");
    }
    let mut long = full.clone();
    long.push(0);
    assert_eq!(take(&long), (14, 20), "a byte too many");
    put(&mut long, 24, &[0]);
    assert_eq!(take(&long), (14, 20), "and a wrong place of the bounds, which comes later");
    assert_eq!(take(&full[..163]), (14, 20), "a byte too few");
    accepted(engine, &reading_bounded(&full));
}

/// A reader of one version refuses the other at place 0.
fn the_other_version(engine: &dyn Engine) {
    let (first, second) = (file_of(&model_a()), bounded_file(engine, &model_a(), &bounds_of_a()));
    assert_eq!(refused(engine, &reading(&second)), (14, 0));
    assert_eq!(refused(engine, &reading_bounded(&first)), (14, 0));
    assert_eq!(refused(engine, &moving(Call::ToVersion2, &second, 1000)), (14, 0));
    assert_eq!(refused(engine, &moving(Call::ToVersion1, &first, 1000)), (14, 0));
    let salvage = Case { call: Call::Salvage, list: vec![0; 9].into(), ..moving(Call::Salvage, &second, 1000) };
    assert_eq!(refused(engine, &salvage), (14, 0), "salvage stays with version 1");
    for length in 24..28 {
        assert_eq!(refused(engine, &reading_bounded(&first[..length])), (14, length as u32), "whatever its version");
    }
}

/// Bounds that would be lost: the least variable, whichever bound it is, after the header and before a short buffer.
fn lost_bounds_on_both_sides(engine: &dyn Engine) {
    let narrow = [(LOWEST + 1, HIGHEST), (LOWEST, HIGHEST - 1), (BLANK, HIGHEST), (HIGHEST, LOWEST), (0, 0)];
    for variable in 0..6 {
        for bounds in narrow {
            let mut all = [FULL; 6];
            all[variable..].fill(bounds);
            let file = bounded_file(engine, &model_a(), &all);
            for room in [0, 111, 112, 200] {
                assert_eq!(refused(engine, &moving(Call::ToVersion1, &file, room)), (18, variable as u32));
            }
            assert_eq!(
                refused(engine, &moving(Call::ToVersion1, &file[..163], 200)),
                (14, 20),
                "the header comes first"
            );
        }
    }
    assert_eq!(back(engine, &bounded_file(engine, &model_a(), &[FULL; 6]), 6), file_of(&model_a()));
}

/// The buffer of a move exact, one too short and longer; what lies beyond stays.
fn buffers_of_moves(engine: &dyn Engine) {
    let (first, second) = (file_of(&model_a()), bounded_file(engine, &model_a(), &[FULL; 6]));
    for (call, bytes, other) in [(Call::ToVersion2, &first, &second), (Call::ToVersion1, &second, &first)] {
        for short in [0, 1, other.len() - 1] {
            assert_eq!(refused(engine, &moving(call, bytes, short)), (1, 0));
        }
        let left = accepted(engine, &moving(call, bytes, other.len() + 5));
        assert_eq!(left.file[..], [&other[..], &[0xEE; 5]].concat());
    }
}

/// There and back: written and read, read and written, up and back, back and up.
fn there_and_back(engine: &dyn Engine) {
    let mut random = Random::new(11);
    for _ in 0..300 {
        let model = Sizes::any_model(&mut random);
        round_trip(engine, &mut random, &model);
    }
}

fn round_trip(engine: &dyn Engine, random: &mut Random, model: &Case) {
    let bounds: Vec<(i32, i32)> = (0..model.n).map(|_| (value(random), value(random))).collect();
    let file = bounded_file(engine, model, &bounds);
    let left = accepted(engine, &reading_bounded(&file));
    let write = writing(&Case { call: model.call, bytes: model.bytes.clone(), ..model.clone() }, &bounds);
    for (read, written) in [(&left.starts, &model.starts), (&left.lows, &write.lows), (&left.highs, &write.highs)] {
        assert_eq!(read, written, "what was written");
    }
    let again = Case { n: model.n, m: model.m, e: model.e, ..left };
    let again = Case { call: Call::WriteBounded, bytes: vec![0; file.len()].into(), ..again };
    assert_eq!(accepted(engine, &again).bytes[..], file[..], "the bytes that were read");
    let plain = file_of(model);
    let moved = up(engine, &plain, model.n);
    assert_eq!(back(engine, &moved, model.n), plain, "up and back");
    assert_eq!(up(engine, &back(engine, &moved, model.n), model.n), moved, "back and up");
    let held = accepted(engine, &reading_bounded(&moved));
    assert!(
        held.lows.iter().all(|&low| low == LOWEST) && held.highs.iter().all(|&high| high == HIGHEST),
        "full bounds"
    );
    assert_eq!(held.starts, model.starts, "the same start values");
}

/// Values inside are not judged, bounds neither: any go there and back.
fn anything_inside(engine: &dyn Engine) {
    let model = model_a_spoilt();
    round_trip(engine, &mut Random::new(3), &model);
    let file = bounded_file(engine, &model, &[(i32::MAX, i32::MIN); 6]);
    assert_eq!(accepted(engine, &reading_bounded(&file)).lows[..], [i32::MAX; 6]);
}

/// The largest files, and the smallest.
fn the_largest_file(engine: &dyn Engine) {
    let rows: Vec<Row> = (0..4096).map(|variable| Row::plain(1, variable, &[4095 - variable; 4])).collect();
    let model = of_rows(vec![-1; 4096], &rows);
    assert_eq!(bounded_file(engine, &model, &vec![(-1, 1); 4096]).len(), 163_868);
    round_trip(engine, &mut Random::new(2), &model);
    let smallest = of_rows(vec![5], &[]);
    assert_eq!(bounded_file(engine, &smallest, &[(5, 5)]).len(), 40);
    round_trip(engine, &mut Random::new(2), &smallest);
}

/// All tests by name.
pub const VERSIONS: &[Test] = &[
    ("the file of model A with bounds", the_file_of_model_a),
    ("rows on both sides", rows_on_both_sides),
    ("headers on both sides", headers_on_both_sides),
    ("the other version", the_other_version),
    ("lost bounds on both sides", lost_bounds_on_both_sides),
    ("buffers of moves", buffers_of_moves),
    ("there and back with bounds", there_and_back),
    ("anything inside", anything_inside),
    ("the largest file with bounds", the_largest_file),
];

/// What came of random files, by call: accepted, and refused with 14, with 18 and with 1.
#[derive(Clone, Copy, Debug, Default)]
struct Tally {
    accepted: [usize; 4],
    headers: [usize; 4],
    lost: usize,
    short: [usize; 4],
}

impl Tally {
    fn note(&mut self, call: Call, number: u32) {
        let which = CALLS.iter().position(|&known| known == call).unwrap_or(0);
        match number {
            0 => self.accepted[which] += 1,
            14 => self.headers[which] += 1,
            18 => self.lost += 1,
            _ => self.short[which] += 1,
        }
    }
}

const CALLS: [Call; 4] = [Call::ReadBounded, Call::WriteBounded, Call::ToVersion2, Call::ToVersion1];

/// Random files of both versions, whole and damaged, through every call that takes or gives them.
///
/// # Panics
/// If the engine differs from the second implementation, or if an answer hardly ever came back.
pub fn random_files(engine: &dyn Engine) {
    let seed = seed();
    println!("seed {seed}");
    let mut random = Random::new(seed);
    let mut tally = Tally::default();
    for round in 0..FILES {
        let built = if round % 50 == 0 { Sizes::any_model(&mut random) } else { model(&mut random, Sizes::TINY) };
        let case = draw(&mut random, &built);
        tally.note(case.call, agree(engine, &case).number);
    }
    println!("{tally:?}");
    let Tally { accepted, headers, lost, short } = tally;
    assert!(accepted.iter().chain(&short).all(|&files| files > FILES / 200), "accepted and short: {tally:?}");
    assert!(headers[0].min(headers[2]).min(headers[3]).min(lost) > FILES / 200, "headers and bounds: {tally:?}");
}

/// A random call over a file of either version.
fn draw(random: &mut Random, model: &Case) -> Case {
    let wide = random.once_in(2);
    let drawn = |random: &mut Random| match random.below(8) {
        0 if wide => (value(random), value(random)),
        1 if wide => (LOWEST, HIGHEST - 1),
        2 if wide => (LOWEST + 1, HIGHEST),
        _ => FULL,
    };
    let bounds: Vec<(i32, i32)> = (0..model.n).map(|_| drawn(random)).collect();
    let mut write = writing(model, &bounds);
    Second.answer(&mut write);
    let (first, second) = (file_of(model), write.bytes.to_vec());
    let own = !random.once_in(12);
    let mut case = match random.pick(&CALLS) {
        Call::WriteBounded => Case { bytes: Guarded::junk(random, second.len()), ..write },
        Call::ReadBounded => {
            let Case { n, m, e, .. } = *model;
            Case { n, m, e, ..reading_bounded(if own { &second } else { &first }) }
        }
        Call::ToVersion2 => moving(Call::ToVersion2, if own { &first } else { &second }, second.len()),
        _ => moving(Call::ToVersion1, if own { &second } else { &first }, first.len()),
    };
    match random.below(6) {
        0 | 1 if case.call != Call::WriteBounded => mutate(random, &mut case.bytes),
        2 => shorten(random, &mut case),
        3 | 4 => lengthen(random, &mut case),
        _ => {}
    }
    case
}

/// Another byte, most often of the header, or another length.
fn mutate(random: &mut Random, bytes: &mut Guarded<u8>) {
    let length = bytes.len();
    match random.below(6) {
        0 => bytes.edit(|held| held.truncate(length - 1 - length.min(30) / 2)),
        1 => bytes.edit(|held| held.push(0)),
        2 => bytes.put(random.below(length), random.bits() as u8),
        _ => {
            let place = random.below(length.min(30));
            let other = random.pick(&[0, 1, 2, 16, 24, 28, 255]);
            bytes.put(place, other);
        }
    }
}
