//! Mutated files through read and build, and scrambled buffers through every call, as tests of any engine: it comes
//! back, stays inside its buffers, and agrees with the second implementation. What once went wrong is kept in `kept.txt`.

use crate::guided;
use crate::runs::model_a;
use crate::tests::any_model;
use crate::{
    Call, Case, Difference, Engine, Random, Second, Sizes, calls_on, compare, keep_of, model, scramble, seed, shrink,
    take_back_of, trial_of,
};

/// Cases kept from earlier runs: `file` and the bytes of a file in hexadecimal digits, `calls` and a seed, or a target of
/// [`guided`] and the bytes that it was given.
const KEPT: &str = include_str!("kept.txt");

/// How many mutated files, and how many models whose calls are scrambled.
const FILES: u64 = 20_000;
const MODELS: u64 = 2_000;

/// The kept cases, one after another.
///
/// # Panics
/// If the engine differs from the second implementation.
pub fn kept_cases(engine: &dyn Engine) {
    let mut kept = 0;
    for line in KEPT.lines().filter(|line| !line.starts_with('#')) {
        match line.split_once(' ').unwrap_or((line, "")) {
            ("file", digits) => {
                read_and_build(engine, &bytes_of(digits), &mut Random::new(0));
            }
            ("calls", seed) => scrambled_calls(engine, seed.parse().expect("a seed")),
            (name, digits) => {
                let target = guided::TARGETS.iter().find(|(target, _)| *target == name);
                let (_, answer) = target.unwrap_or_else(|| panic!("not a kept case: {line}"));
                answer(engine, &bytes_of(digits));
            }
        }
        kept += 1;
    }
    assert!(kept > 0);
}

/// Files with bytes wrong, read and, if they still can be, built, tried, kept and taken back.
///
/// # Panics
/// If the engine differs from the second implementation.
pub fn mutated_files(engine: &dyn Engine) {
    let seed = seed();
    println!("seed {seed}");
    let mut random = Random::new(seed);
    let mut sound: Vec<Vec<u8>> = vec![file_of(&model_a())];
    for _ in 0..40 {
        sound.push(file_of(&model(&mut random, Sizes::TINY)));
    }
    let mut built = 0;
    for _ in 0..FILES {
        let mut bytes = sound[random.below(sound.len())].clone();
        for _ in 0..1 + random.below(4) {
            mutate(&mut random, &mut bytes, &sound);
        }
        built += u64::from(read_and_build(engine, &bytes, &mut random).is_some());
    }
    assert!(built > FILES / 10, "many mutated models are still built: {built}");
}

/// Calls with several things wrong in what they are lent.
///
/// # Panics
/// If the engine differs from the second implementation.
pub fn scrambled_buffers(engine: &dyn Engine) {
    let seed = seed();
    println!("seed {seed}");
    (seed..seed + MODELS).for_each(|seed| scrambled_calls(engine, seed));
}

/// The calls on the model of a seed, each with several things wrong.
fn scrambled_calls(engine: &dyn Engine, seed: u64) {
    let mut random = Random::new(seed);
    let model = any_model(&mut random);
    for mut case in calls_on(&mut random, &model) {
        scramble(&mut random, &mut case);
        agree(engine, &case, || format!("calls {seed}"));
    }
}

/// Reads a file, builds what was read, and tries, keeps and takes back a move on what was built, if it gets so far.
fn read_and_build(engine: &dyn Engine, bytes: &[u8], random: &mut Random) -> Option<Case> {
    let name = || format!("file {}", digits_of(bytes));
    let read = agree(engine, &reading(bytes), name)?;
    let building = Case { call: Call::Build, ..read };
    let built = agree(engine, &building.with_room(), name)?;
    agree(engine, &trial_of(random, &built), name);
    agree(engine, &take_back_of(random, &built), name);
    let kept = agree(engine, &keep_of(random, &built), name)?;
    agree(engine, &Case { call: Call::TakeBack, ..kept }, name)
}

/// What an accepted call leaves, if the two engines agree on it.
fn agree(engine: &dyn Engine, case: &Case, name: impl Fn() -> String) -> Option<Case> {
    let differs = |found: Box<Difference>| panic!("{}\n{}", name(), shrink(engine, &Second, found));
    let answer = compare(engine, &Second, case).unwrap_or_else(differs);
    let mut left = case.clone();
    Second.answer(&mut left);
    if case.call == Call::Read {
        (left.n, left.m, left.e) = (answer.n as usize, answer.m as usize, answer.e as usize);
    }
    (answer.number == 0).then_some(left)
}

/// A read into tables as long as the header asks, up to the bounds.
pub(crate) fn reading(bytes: &[u8]) -> Case {
    let field = |at: usize| match bytes.get(at..at + 2) {
        Some(&[low, high]) => usize::from(u16::from_le_bytes([low, high])),
        _ => 0,
    };
    let (n, m, e) = (field(2).min(4096), field(4).min(4096), field(6).min(16384));
    let rows = || vec![0u16; m].into();
    Case {
        call: Call::Read,
        kinds: rows(),
        makes: rows(),
        params: vec![0; m].into(),
        firsts: rows(),
        counts: rows(),
        vars: vec![0; e].into(),
        coefs: vec![0; e].into(),
        starts: vec![0; n].into(),
        bytes: bytes.to_vec().into(),
        ..Case::default()
    }
}

/// The file of a model.
pub(crate) fn file_of(build: &Case) -> Vec<u8> {
    let bytes = vec![0; 24 + 4 * build.n + 12 * build.m + 4 * build.e];
    let mut case = Case { call: Call::Write, bytes: bytes.into(), ..build.clone() };
    Second.answer(&mut case);
    case.bytes.to_vec()
}

/// One mutation: a bit, a byte, a field, a stretch of another file, or the length.
fn mutate(random: &mut Random, bytes: &mut Vec<u8>, sound: &[Vec<u8>]) {
    let place = random.below(bytes.len());
    let body = (24 + random.below(bytes.len().saturating_sub(24))) & !1;
    match random.below(8) {
        0 => put(bytes, place, &[random.bits() as u8]),
        1 | 2 => put(bytes, body, &[random.pick(&[0, 1, 2, 3, 4, 6, 8, 9, 10, 255]), 0]),
        3 => put(bytes, body, &random.pick(&[0i16, 1, -1, 1000, 1001, i16::MIN]).to_le_bytes()),
        4 => put(bytes, body, &random.pick(&[0, 1, -1, i32::MAX, i32::MIN, 1_000_000_001]).to_le_bytes()),
        5 => {
            let other = &sound[random.below(sound.len())];
            let from = random.below(other.len());
            put(bytes, place, &other[from..(from + 16).min(other.len())]);
        }
        6 if random.once_in(4) => bytes.truncate(place),
        6 => put(bytes, body, &[1]),
        _ => {
            let bit = 1 << random.below(8);
            let flipped = bytes.get(place).map_or(0, |byte| byte ^ bit);
            put(bytes, place, &[flipped]);
        }
    }
}

/// Writes over the bytes at a place, as far as there are any.
pub(crate) fn put(bytes: &mut [u8], place: usize, over: &[u8]) {
    for (byte, &new) in bytes.iter_mut().skip(place).zip(over) {
        *byte = new;
    }
}

/// The bytes as hexadecimal digits.
pub(crate) fn digits_of(bytes: &[u8]) -> String {
    bytes.iter().map(|byte| format!("{byte:02x}")).collect()
}

/// The bytes that hexadecimal digits stand for.
fn bytes_of(digits: &str) -> Vec<u8> {
    let pairs = digits.as_bytes().chunks(2);
    pairs.map(|pair| u8::from_str_radix(str::from_utf8(pair).expect("digits"), 16).expect("digits")).collect()
}
