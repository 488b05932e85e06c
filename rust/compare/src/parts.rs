//! The inputs of a row as a part of the lent entries, as tests of any engine.

use crate::runs::{model_a, with};
use crate::tests::any_model;
use crate::{
    Answer, Call, Case, Difference, Engine, Random, Second, Side, Test, agreed, damage, lengthen, seed, shorten, shrink,
};

/// How many rows are asked at random.
const ASKED: usize = 20_000;

/// A row of a model asked for its inputs.
#[must_use]
pub fn asking(model: &Case, row: usize) -> Case {
    Case { call: Call::InputsOfRow, row, ..model.clone() }
}

/// Asserts where the part of a row starts and how many entries it has; nothing changes.
fn part_is(engine: &dyn Engine, what: &str, case: &Case, first: u32, count: u32) {
    let Side { answer, left } = Side::of(engine, case);
    assert_eq!(answer, Answer { first, count, ..Answer::default() }, "{what}");
    assert_eq!(left, *case, "{what}: nothing changes");
}

/// Every row of model A, rows that are not there, and parts on both sides of e and of what is lent.
fn inputs_of_model_a(engine: &dyn Engine) {
    let model = model_a();
    for (row, first, count) in [(0, 0, 3), (1, 3, 3), (2, 6, 1), (3, 0, 0), (65535, 0, 0), (usize::MAX, 0, 0)] {
        part_is(engine, &format!("row {row}"), &asking(&model, row), first, count);
    }
    let last = asking(&model, 2);
    for (e, first, count) in [(6, 0, 0), (7, 6, 1), (8, 6, 1), (usize::MAX, 6, 1), (0, 0, 0)] {
        part_is(engine, &format!("{e} entries"), &with(&last, |case| case.e = e), first, count);
    }
    for (m, first, count) in [(2, 0, 0), (3, 6, 1), (4, 6, 1), (usize::MAX, 6, 1), (0, 0, 0)] {
        part_is(engine, &format!("{m} rows"), &with(&last, |case| case.m = m), first, count);
    }
    part_is(engine, "no such row lent", &with(&asking(&model, 3), |case| case.m = 4), 0, 0);
    part_is(engine, "firsts one short", &with(&last, |case| case.firsts.edit(|row| row.truncate(2))), 0, 0);
    part_is(engine, "counts one short", &with(&last, |case| case.counts.edit(|row| row.truncate(2))), 0, 0);
    part_is(engine, "entries one short", &with(&last, |case| case.vars.edit(|row| row.truncate(6))), 0, 0);
    part_is(engine, "no inputs", &with(&last, |case| case.counts[2] = 0), 6, 0);
    part_is(engine, "no inputs at the end", &with(&last, |case| (case.firsts[2], case.counts[2]) = (7, 0)), 7, 0);
    part_is(engine, "far out", &with(&last, |case| (case.firsts[2], case.counts[2]) = (65535, 65535)), 0, 0);
    part_is(engine, "parts need not follow one another", &with(&last, |case| case.firsts[2] = 1), 1, 1);
}

/// All tests by name.
pub const PARTS: &[Test] = &[("inputs of model A", inputs_of_model_a)];

/// Random rows of random models, whole and damaged.
///
/// # Panics
/// If the engine differs from the second implementation, or if parts were hardly ever found or not found.
pub fn random_parts(engine: &dyn Engine) {
    let seed = seed();
    println!("seed {seed}");
    let mut random = Random::new(seed);
    let (mut found, mut none, mut asked) = (0, 0, 0);
    while asked < ASKED {
        let model = any_model(&mut random);
        for _ in 0..20 {
            let mut case = asking(&model, random.below(model.m + 2));
            match random.below(5) {
                0 => damage(&mut random, &mut case),
                1 => shorten(&mut random, &mut case),
                2 => lengthen(&mut random, &mut case),
                3 => case.e = random.below(case.e + 2),
                _ => {}
            }
            let differs = |found: Box<Difference>| panic!("seed {seed}\n{}", shrink(engine, &Second, found));
            let answer = agreed(engine, &Second, &case).unwrap_or_else(differs).answer;
            found += usize::from(answer.count > 0);
            none += usize::from(answer.count == 0);
            asked += 1;
        }
    }
    assert!(found > ASKED / 4 && none > ASKED / 20, "{found} parts, {none} without");
}
