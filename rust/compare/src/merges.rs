//! The figures of two batches merged, as tests of any engine: a batch cut in two, both sides of every edge, and random
//! outcomes, refused ones among them.

use lent::NUMBERS;
use second::{BLANK, Refused};

use crate::figures::{NOTHING, Pairs, batch, some_moves};
use crate::runs::{built, gives, model_a, with};
use crate::{
    Answer, Call, Case, Difference, Engine, Guarded, Random, Second, Side, Test, agreed, lengthen, seed, shorten,
    shrink,
};

/// How many pairs of outcomes are drawn at random.
const MERGED: usize = 40_000;

/// The largest sum that is merged: two of them fit 64 bits.
const HALF: i64 = (1 << 62) - 1;

/// Two outcomes and their counts, to be merged.
fn merging(parts: [Answer; 2], counted: [Vec<u32>; 2]) -> Case {
    let [first, second] = counted;
    let (first_by_number, second_by_number) = (first.into(), second.into());
    let by_number = vec![77; NUMBERS].into();
    Case { call: Call::Merge, parts, first_by_number, second_by_number, by_number, ..Case::default() }
}

/// Figures in which every number is another one, with as many of each count by number.
fn some_figures(from: u32) -> (Answer, Vec<u32>) {
    let least = from as i32;
    let figures = Answer { blank: from + 1, least, greatest: least + 9, sum: 100 * i64::from(from), ..NOTHING };
    let counts = (0..NUMBERS as u32).map(|number| from + 10 * number).collect();
    (Answer { first: from + 2, second: from + 3, third: from + 4, ..figures }, counts)
}

/// Figures of two batches that are merged.
fn some_case() -> Case {
    let ((one, counts), (other, others)) = (some_figures(5), some_figures(1000));
    merging([one, other], [counts, others])
}

/// A count of an outcome.
type CountOf = fn(&mut Answer) -> &mut u32;

/// The counts of an outcome, one after another.
const COUNTS: [CountOf; 4] =
    [|part| &mut part.blank, |part| &mut part.first, |part| &mut part.second, |part| &mut part.third];

/// The moves of model A cut at every place: both parts merged are the whole.
fn parts_are_the_whole(engine: &dyn Engine) {
    let (model, moves) = (built(engine, &model_a()), some_moves());
    let figures = |moves: &[Pairs]| Side::of(engine, &batch(&model, moves, 5));
    let whole = figures(&moves);
    for cut in 0..=moves.len() {
        let (one, other) = (figures(&moves[..cut]), figures(&moves[cut..]));
        for [one, other] in [[&one, &other], [&other, &one]] {
            let counted = [one, other].map(|side| side.left.by_number.to_vec());
            let merged = Side::of(engine, &merging([one.answer, other.answer], counted));
            assert_eq!((merged.answer, &merged.left.by_number), (whole.answer, &whole.left.by_number), "cut at {cut}");
        }
    }
}

/// Every number of the figures of both, and nothing beyond the 22 places.
fn every_number(engine: &dyn Engine) {
    let case = with(&some_case(), |case| case.by_number = vec![77; 30].into());
    let Side { answer, left } = Side::of(engine, &case);
    let both = Answer { blank: 1007, least: 5, greatest: 1009, sum: 100_500, first: 1009, ..NOTHING };
    assert_eq!(answer, Answer { second: 1011, third: 1013, ..both });
    let counts: Vec<u32> = (0..22).map(|number| 1005 + 20 * number).chain([77; 8]).collect();
    assert_eq!(*left.by_number, *counts);
    assert_eq!(left, Case { by_number: left.by_number.clone(), ..case }, "nothing but the counts changes");
}

/// A blank least and greatest leave those of the other, and two leave a blank; each by itself.
fn blank_ends(engine: &dyn Engine) {
    for (one, other, least, greatest) in [
        (BLANK, BLANK, BLANK, BLANK),
        (BLANK, 3, 3, 3),
        (3, BLANK, 3, 3),
        (3, -4, -4, 3),
        (-i32::MAX, i32::MAX, -i32::MAX, i32::MAX),
        (-i32::MAX, BLANK, -i32::MAX, -i32::MAX),
    ] {
        let ends = with(&some_case(), |case| {
            [case.parts[0].least, case.parts[1].least] = [one, other];
            [case.parts[0].greatest, case.parts[1].greatest] = [one, other];
        });
        let Answer { least: low, greatest: high, .. } = Side::of(engine, &ends).answer;
        assert_eq!((low, high), (least, greatest), "{one} and {other}");
    }
}

/// Both sides of what fits: each count at 32 bits, each sum at half of 64, each row at 22 places.
fn refusal_1(engine: &dyn Engine) {
    let case = some_case();
    gives(engine, "what fits", &case, 0, 0);
    for (more, number) in [(0, 0), (1, 1)] {
        for of in COUNTS {
            let full = with(&case, |case| *of(&mut case.parts[0]) = u32::MAX - *of(&mut case.parts[1]) + more);
            gives(engine, "a count", &full, number, 0);
        }
        for place in 0..NUMBERS {
            let full = with(&case, |case| case.second_by_number[place] = u32::MAX - case.first_by_number[place] + more);
            gives(engine, &format!("the count at {place}"), &full, number, 0);
        }
        for part in 0..2 {
            for sum in [HALF + i64::from(more), -HALF - i64::from(more)] {
                gives(engine, "a sum", &with(&case, |case| case.parts[part].sum = sum), number, 0);
                let both = with(&case, |case| (case.parts[part].sum, case.parts[1 - part].sum) = (sum, HALF));
                gives(engine, "a sum and the largest", &both, number, 0);
            }
        }
    }
    for sum in [i64::MIN, i64::MAX] {
        gives(engine, "no half", &with(&case, |case| case.parts[1] = Answer { sum, ..case.parts[1] }), 1, 0);
    }
    for (places, number) in [(0, 1), (21, 1), (22, 0), (23, 0)] {
        let row = || Guarded::from(vec![7; places]);
        gives(engine, "first row", &with(&case, |case| case.first_by_number = row()), number, 0);
        gives(engine, "second row", &with(&case, |case| case.second_by_number = row()), number, 0);
        gives(engine, "row of both", &with(&case, |case| case.by_number = row()), number, 0);
    }
    let refused = with(&case, |case| case.parts[0].sum = i64::MAX);
    assert_eq!(Side::of(engine, &refused).answer, Answer { number: 1, ..NOTHING }, "refused");
}

/// A refused outcome has no figures, whatever stands in it: the first of the two is the answer, and short rows are not looked at.
fn refused_outcomes(engine: &dyn Engine) {
    let refused = |case: &mut Case, part: usize, number: u32, place: u32| {
        (case.parts[part].number, case.parts[part].place) = (number, place);
    };
    for short in [false, true] {
        let case = with(&some_case(), |case| {
            case.parts[0].place = 9;
            if short {
                (case.by_number, case.first_by_number) = (vec![7; 21].into(), Guarded::default());
            }
        });
        let is = |what: &str, case: &Case, number: u32, place: u32| {
            let Side { answer, left } = Side::of(engine, case);
            assert_eq!(answer, Answer { number, place, ..NOTHING }, "{what}");
            assert_eq!(left, *case, "{what}: nothing changes");
        };
        is("the first", &with(&case, |case| refused(case, 0, 1, 4)), 1, 4);
        is("the second", &with(&case, |case| refused(case, 1, 21, u32::MAX)), 21, u32::MAX);
        let both = with(&case, |case| refused(case, 1, 2, 3));
        is("both", &with(&both, |case| refused(case, 0, u32::MAX, 8)), u32::MAX, 8);
    }
}

/// All tests by name.
pub const MERGES: &[Test] = &[
    ("parts are the whole", parts_are_the_whole),
    ("every number of both", every_number),
    ("blank ends", blank_ends),
    ("merge: 1", refusal_1),
    ("refused outcomes", refused_outcomes),
];

/// Random outcomes and counts, at the edges of what fits and far from them.
///
/// # Panics
/// If the engine differs from the second implementation, or if an answer hardly ever came.
pub fn random_merges(engine: &dyn Engine) {
    let seed = seed();
    println!("seed {seed}");
    let mut random = Random::new(seed);
    let (mut merged, mut too_large, mut refused, mut blank) = (0, 0, 0, 0);
    for _ in 0..MERGED {
        let case = draw(&mut random);
        let differs = |found: Box<Difference>| panic!("seed {seed}\n{}", shrink(engine, &Second, found));
        let answer = agreed(engine, &Second, &case).unwrap_or_else(differs).answer;
        let figures = case.parts.iter().all(|part| part.number == 0);
        merged += usize::from(answer.number == 0);
        too_large += usize::from(figures && answer.figures() == Err(Refused { number: 1, place: 0 }));
        refused += usize::from(!figures);
        blank += usize::from(answer.number == 0 && answer.least == BLANK);
    }
    println!("{merged} merged, {blank} of them without a value, {too_large} too large, {refused} of refused outcomes");
    assert!([merged, too_large, refused, 20 * blank].iter().all(|&came| came > MERGED / 10), "each of them");
}

/// A random count; at the edge of 32 bits in a case that is to be there.
fn draw_count(random: &mut Random, edge: bool) -> u32 {
    let near = [u32::MAX, u32::MAX - 1, 1 << 31, (1 << 31) - 1, 0, 1];
    if edge && random.once_in(9) { random.pick(&near) } else { random.bits() as u32 >> (1 + random.below(31)) }
}

/// A random outcome of a batch.
fn draw_part(random: &mut Random, edge: bool) -> Answer {
    let sums = [HALF, -HALF, HALF + 1, -HALF - 1, i64::MIN, i64::MAX, 0];
    let mut end = || if random.once_in(3) { BLANK } else { random.bits() as i32 };
    let [least, greatest] = [end(), end()];
    let [blank, first, second, third] = [0; 4].map(|_| draw_count(random, edge));
    let sum =
        if edge && random.once_in(3) { random.pick(&sums) } else { random.bits() as i64 >> (2 + random.below(60)) };
    let (number, place) =
        if random.once_in(8) { (random.pick(&[1, 2, 21, 22, u32::MAX]), random.bits() as u32) } else { (0, 0) };
    Answer { number, place, blank, least, greatest, sum, first, second, third, ..Answer::default() }
}

/// Two random outcomes with their counts, at times in rows that are too short or longer than asked.
fn draw(random: &mut Random) -> Case {
    let edge = random.once_in(2);
    let parts = [(); 2].map(|()| draw_part(random, edge));
    let counted = [(); 2].map(|()| (0..NUMBERS).map(|_| draw_count(random, edge)).collect());
    let mut case = merging(parts, counted);
    case.by_number = Guarded::junk(random, NUMBERS);
    if random.once_in(9) {
        shorten(random, &mut case);
    }
    if random.once_in(3) {
        lengthen(random, &mut case);
    }
    case
}
