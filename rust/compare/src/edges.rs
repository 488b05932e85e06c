//! Both sides of the edge of every refusal, with its place, as tests of any engine.

use std::ops::Range;

use second::{BLANK, HIGHEST, LOWEST, MOST_LOGGED};

use crate::runs::{built, gives, keep, model_a, read_twice, take_back, trial, with};
use crate::{Call, Case, Engine, Row, Side, Test, chain, of_rows, one_short};

/// A change to a case, and what it is.
type Change = (&'static str, fn(&mut Case));

/// Model A's build, trial, keep, taking back and write. Two moves have been kept, the first of two pairs.
fn all_calls(engine: &dyn Engine) -> [Case; 5] {
    let model = built(engine, &model_a());
    let tried = trial(&model, &[(0, 1), (1, 2), (2, 3)], &[4, 5], 2);
    let mut logged = model.with_moves(&[vec![(0, 1), (2, 700)], vec![(1, 5)]]);
    logged.session.kept = 2;
    [model_a(), tried, keep(&logged, &[(0, 1), (1, 2), (2, 3)]), take_back(&logged), file(&model_a())]
}

/// The write of a model.
pub(crate) fn file(build: &Case) -> Case {
    let bytes = vec![0xEE; 24 + 4 * build.n + 12 * build.m + 4 * build.e];
    Case { call: Call::Write, bytes: bytes.into(), ..build.clone() }
}

/// A build of one row that makes variable 1 from variable 0.
fn one_row(kind: u16, inputs: usize, parameter: i32, coefficient: i16) -> Case {
    let row = Row { kind, makes: 1, parameter, entries: vec![(0, coefficient); inputs] };
    of_rows(vec![1, 0], &[row])
}

/// A build of n variables and no row.
fn no_rows(n: usize) -> Case {
    of_rows(vec![0; n], &[])
}

fn refusal_1_counts(engine: &dyn Engine) {
    for (n, number) in [(1, 0), (4096, 0), (4097, 1)] {
        gives(engine, &format!("n {n}"), &no_rows(n), number, 0);
        gives(engine, &format!("written n {n}"), &file(&no_rows(n)), number, 0);
    }
    for n in [0, usize::MAX] {
        gives(engine, &format!("n {n}"), &with(&no_rows(1), |case| case.n = n), 1, 0);
    }
    let twice = [Row::plain(1, 0, &[0]), Row::plain(1, 0, &[0])];
    gives(engine, "as many rows as variables", &of_rows(vec![0], &twice[..1]), 6, 0);
    gives(engine, "more rows than variables", &of_rows(vec![0], &twice), 1, 0);
    let full =
        |rows: u16| of_rows(vec![0; 100], &(1..=rows).map(|row| Row::plain(1, row, &[0; 256])).collect::<Vec<_>>());
    gives(engine, "16,384 entries", &full(64), 0, 0);
    gives(engine, "more entries", &full(65), 1, 0);
    for call in all_calls(engine) {
        for change in
            [|case: &mut Case| case.n = 0, |case: &mut Case| case.m = usize::MAX, |case: &mut Case| case.e = 1 << 62]
        {
            gives(engine, "a count far out", &with(&call, change), 1, 0);
        }
    }
}

fn refusal_1_moves(engine: &dyn Engine) {
    let model = built(engine, &no_rows(65));
    let pairs: Vec<(u16, i32)> = (0..65).map(|variable| (variable, 5)).collect();
    let asked = [0; 33];
    for (count, number) in [(64, 0), (65, 1)] {
        gives(engine, "pairs of a trial", &trial(&model, &pairs[..count], &[], 1), number, 0);
        gives(engine, "pairs of a keep", &keep(&model, &pairs[..count]), number, 0);
    }
    for (count, number) in [(32, 0), (33, 1)] {
        gives(engine, "asked", &trial(&model, &[], &asked[..count], 1), number, 0);
    }
}

fn refusal_1_buffers(engine: &dyn Engine) {
    for call in all_calls(engine) {
        gives(engine, "buffers of the right length", &call, 0, 0);
        for (which, short) in one_short(&call).iter().enumerate() {
            gives(engine, &format!("{:?}: buffer {which} one short", call.call), short, 1, 0);
            let also_wrong = with(short, |case| {
                case.kinds.fill(0);
                case.lows.fill(BLANK);
                case.starts.fill(BLANK);
                case.numbers.fill(9);
                case.reader_starts.fill(9);
                case.route = 9;
                case.move_vars.fill(99);
                case.asked_vars.fill(99);
                case.log_sizes.fill(65535);
            });
            gives(engine, "one short, and all else wrong", &also_wrong, 1, 0);
        }
    }
}

/// The rows of reasons on both sides of the length that is asked of them.
fn refusal_1_reasons(engine: &dyn Engine) {
    for call in &all_calls(engine)[..4] {
        for (length, number) in [(0, 1), (1, 1), (5, 1), (6, 0), (7, 0), (600, 0)] {
            let reasons = with(call, |case| case.reasons = vec![9; length].into());
            gives(engine, &format!("{:?}: {length} reasons of 6 variables", call.call), &reasons, number, 0);
        }
    }
    let model = built(engine, &model_a());
    for (asked, length, number) in [
        (0, 0, 0),
        (0, 3, 0),
        (1, 0, 1),
        (1, 1, 0),
        (1, 2, 0),
        (2, 1, 1),
        (2, 2, 0),
        (32, 0, 1),
        (32, 31, 1),
        (32, 32, 0),
        (32, 33, 0),
        (33, 33, 1),
    ] {
        for route in 1..=3 {
            let tried = trial(&model, &[(1, 28801)], &vec![5; asked], route);
            let tried = with(&tried, |case| case.why = vec![9; length].into());
            gives(engine, &format!("{length} reasons of {asked} asked"), &tried, number, 0);
            let short = with(&tried, |case| case.reasons.edit(|reasons| reasons.truncate(5)));
            gives(engine, "stored reasons one short", &short, 1, 0);
        }
    }
    for call in &all_calls(engine)[2..4] {
        gives(engine, "no row for reasons asked", &with(call, |case| case.why.edit(Vec::clear)), 0, 0);
    }
}

/// As many stored reasons as there may be variables, one less and one more.
fn refusal_1_many_reasons(engine: &dyn Engine) {
    let build = no_rows(4096);
    let model = built(engine, &build);
    let kept = Side::of(engine, &keep(&model, &[])).left;
    for call in [build, trial(&model, &[], &[4095], 2), keep(&model, &[]), take_back(&kept)] {
        for (length, number) in [(4095, 1), (4096, 0), (4097, 0)] {
            let reasons = with(&call, |case| case.reasons = vec![9; length].into());
            gives(engine, &format!("{:?}: {length} reasons of 4,096 variables", call.call), &reasons, number, 0);
        }
    }
}

fn refusal_2(engine: &dyn Engine) {
    for call in &all_calls(engine)[..4] {
        for kind in [0, 10, 65535] {
            gives(engine, "kind", &with(call, |case| case.kinds[2] = kind), 2, 2);
            gives(engine, "two kinds", &with(call, |case| case.kinds[1..].fill(kind)), 2, 1);
        }
    }
    for (kind, inputs) in [(1, 1), (9, 3)] {
        gives(engine, "kinds 1 and 9", &one_row(kind, inputs, 0, 1), 0, 0);
    }
}

fn refusal_3_inputs(engine: &dyn Engine) {
    for kind in 1..=9 {
        let (least, most) = match kind {
            4 => (2, 256),
            7 => (2, 2),
            8 | 9 => (3, 3),
            _ => (1, 256),
        };
        for (inputs, number) in [(least - 1, 3), (least, 0), (most, 0), (most + 1, 3)] {
            gives(engine, &format!("kind {kind}, {inputs} inputs"), &one_row(kind, inputs, 0, 1), number, 0);
        }
    }
}

fn refusal_3_places(engine: &dyn Engine) {
    for call in &all_calls(engine)[..4] {
        let changes: [(Change, u32); 9] = [
            (("made variable n", |case| case.makes[1] = 6), 1),
            (("made variable far out", |case| case.makes[0] = 65535), 0),
            (("input n", |case| case.vars[6] = 6), 2),
            (("input far out", |case| case.vars[3] = 65535), 1),
            (("first one less", |case| case.firsts[1] = 2), 1),
            (("first one more", |case| case.firsts[2] = 7), 2),
            (("a part that ends after e", |case| case.e = 6), 2),
            (("a part that ends far after e", |case| case.counts[2] = 200), 2),
            (("no inputs", |case| case.counts[2] = 0), 2),
        ];
        for ((what, change), place) in changes {
            gives(engine, what, &with(call, change), 3, place);
        }
        let surplus = with(call, |case| {
            case.e = 8;
            case.vars.edit(|vars| vars.push(0));
            case.coefs.edit(|coefs| coefs.push(1));
            case.reader_places.edit(|places| places.push(0));
        });
        gives(engine, "only the total differs from e", &surplus, 3, 2);
    }
    let surplus = with(&no_rows(1), |case| {
        case.e = 1;
        case.vars = vec![0].into();
        case.coefs = vec![1].into();
        case.reader_places = vec![0].into();
    });
    gives(engine, "an entry without rows", &surplus, 3, 0);
    gives(engine, "made variable n - 1", &of_rows(vec![1, 0], &[Row::plain(1, 1, &[0])]), 0, 0);
    gives(engine, "input n - 1", &of_rows(vec![0, 1], &[Row::plain(1, 0, &[1])]), 0, 0);
}

fn refusal_4(engine: &dyn Engine) {
    for (coefficient, number) in [(1000, 0), (-1000, 0), (1001, 4), (-1001, 4), (i16::MIN, 4), (i16::MAX, 4), (0, 0)] {
        gives(engine, "LINEAR coefficient", &one_row(1, 1, 0, coefficient), number, 0);
    }
    for (kind, inputs) in [(2, 1), (3, 1), (4, 2), (5, 1), (6, 1), (7, 2), (8, 3), (9, 3)] {
        for (coefficient, number) in [(0, 4), (1, 0), (2, 4)] {
            gives(engine, "coefficient", &one_row(kind, inputs, 0, coefficient), number, 0);
        }
        let other = if kind == 6 { 0 } else { 4 };
        for (parameter, number) in [(-1, other), (0, 0), (1, other)] {
            gives(engine, "parameter", &one_row(kind, inputs, parameter, 1), number, 0);
        }
    }
    for kind in [1, 6] {
        for (parameter, number) in [
            (1_000_000_000, 0),
            (1_000_000_001, 4),
            (-1_000_000_000, 0),
            (-1_000_000_001, 4),
            (i32::MIN, 4),
            (i32::MAX, 4),
        ] {
            gives(engine, "parameter at its bound", &one_row(kind, 1, parameter, 1), number, 0);
        }
    }
    for call in &all_calls(engine)[..3] {
        gives(engine, "the row's place", &with(call, |case| case.coefs[4] = 0), 4, 1);
        gives(engine, "the least row", &with(call, |case| (case.params[1], case.coefs[6]) = (1, 1001)), 4, 1);
    }
}

/// Bounds that a search variable with the value 600 may have, and such that give 4 or 7.
const BOUNDS: [(i32, i32, u32); 17] = [
    (LOWEST, HIGHEST, 0),
    (600, 600, 0),
    (600, HIGHEST, 0),
    (LOWEST, 600, 0),
    (599, 601, 0),
    (LOWEST, LOWEST, 7),
    (HIGHEST, HIGHEST, 7),
    (601, HIGHEST, 7),
    (LOWEST, 599, 7),
    (601, 601, 7),
    (599, 599, 7),
    (601, 600, 4),
    (HIGHEST, LOWEST, 4),
    (BLANK, HIGHEST, 4),
    (LOWEST, BLANK, 4),
    (BLANK, BLANK, 4),
    (BLANK, 600, 4),
];

fn refusals_4_and_7_of_bounds(engine: &dyn Engine) {
    for mut call in all_calls(engine).into_iter().take(4) {
        (call.pairs, call.log_sizes[1]) = (0, 0);
        for (low, high, number) in BOUNDS {
            let place = if number == 0 { 0 } else { 2 };
            gives(engine, &format!("{low} to {high}"), &call.clone().with_bounds(2, low, high), number, place);
        }
        for (low, high, number) in [
            (LOWEST, HIGHEST, 0),
            (LOWEST + 1, HIGHEST, 4),
            (LOWEST, HIGHEST - 1, 4),
            (BLANK, HIGHEST, 4),
            (HIGHEST, LOWEST, 4),
            (0, 0, 4),
        ] {
            for made in [3, 5] {
                let place = if number == 0 { 0 } else { made as u32 };
                let not_full = call.clone().with_bounds(made, low, high);
                gives(engine, &format!("made, {low} to {high}"), &not_full, number, place);
                gives(engine, "the least variable", &not_full.with_bounds(0, 1, 0), 4, 0);
            }
        }
        let twice = with(&call, |case| case.makes[2] = 4);
        gives(engine, "made twice", &twice, 5, 2);
        gives(engine, "made twice, not full", &twice.clone().with_bounds(4, 0, 1), 4, 4);
        gives(engine, "made twice, another narrow", &twice.clone().with_bounds(5, -1, 1), 5, 2);
        gives(engine, "4 of bounds before 5", &twice.with_bounds(2, 1, 0), 4, 2);
        let weighed = with(&call, |case| case.coefs[6] = 1001).with_bounds(0, 1, 0);
        gives(engine, "4 of rows before 4 of bounds", &weighed, 4, 2);
        let beyond = with(&call, |case| {
            case.lows.edit(|lows| lows.push(HIGHEST));
            case.highs.edit(|highs| highs.push(BLANK));
        });
        gives(engine, "bounds beyond n", &beyond, 0, 0);
    }
}

fn refusal_4_of_many_bounds(engine: &dyn Engine) {
    let build = no_rows(4096);
    let model = built(engine, &build);
    let kept = Side::of(engine, &keep(&model, &[])).left;
    for call in [build, trial(&model, &[], &[], 1), keep(&model, &[]), take_back(&kept)] {
        for place in [0, 1, 2047, 4094, 4095] {
            gives(engine, "not in order", &call.clone().with_bounds(place, 1, 0), 4, place as u32);
            gives(engine, "0 alone", &call.clone().with_bounds(place, 0, 0), 0, 0);
            gives(engine, "not 0", &call.clone().with_bounds(place, 1, 1), 7, place as u32);
        }
    }
}

/// Start and stored values on both sides of each bound, and blank.
fn refusal_7_outside(engine: &dyn Engine) {
    for (value, number) in [(299, 7), (300, 0), (301, 0), (899, 0), (900, 0), (901, 7), (LOWEST, 7), (HIGHEST, 7)] {
        let place = if number == 0 { 0 } else { 2 };
        let build = with(&model_a(), |case| case.starts[2] = value).with_bounds(2, 300, 900);
        gives(engine, &format!("start value {value}"), &build, number, place);
        for mut call in all_calls(engine).into_iter().skip(1).take(3) {
            (call.pairs, call.log_sizes[1]) = (0, 0);
            let stored = with(&call, |case| case.stored[2] = value).with_bounds(2, 300, 900);
            gives(engine, &format!("stored value {value}"), &stored, number, place);
            gives(engine, "8 before 7", &with(&stored, |case| case.order.swap(0, 1)), 8, 0);
            gives(engine, "19 before 7", &with(&stored, |case| case.session.blanks += 1), 19, 0);
        }
    }
    let both = model_a().with_bounds(1, 0, 1).with_bounds(2, 0, 1);
    gives(engine, "the least variable", &both, 7, 1);
    let narrow = model_a().with_bounds(2, 300, 900);
    gives(engine, "a blank", &with(&narrow, |case| case.starts[2] = BLANK), 7, 2);
    let made = with(&narrow, |case| (case.starts[2], case.starts[3]) = (901, 1));
    gives(engine, "and a made one not 0", &made, 7, 2);
    for call in &all_calls(engine)[1..4] {
        gives(engine, "a stored blank", &with_blanks(call, 2..3).with_bounds(2, 300, 900), 7, 2);
        gives(engine, "made values blank", &with_blanks(call, 3..6).with_bounds(2, -9, 900), 0, 0);
    }
}

fn refusal_17(engine: &dyn Engine) {
    for call in &all_calls(engine)[1..3] {
        let call = call.clone().with_bounds(0, 1, 25200).with_bounds(2, -1, 900);
        gives(engine, "within", &call, 0, 0);
        for (pair, value, number) in [
            (0, 0, 17),
            (0, 1, 0),
            (0, 25200, 0),
            (0, 25201, 17),
            (0, LOWEST, 17),
            (0, HIGHEST, 17),
            (2, -2, 17),
            (2, -1, 0),
            (2, 900, 0),
            (2, 901, 17),
            (1, LOWEST, 0),
            (1, HIGHEST, 0),
        ] {
            let place = if number == 0 { 0 } else { pair as u32 };
            let moved = with(&call, |case| case.move_values[pair] = value);
            gives(engine, &format!("pair {pair}, new value {value}"), &moved, number, place);
        }
        let both = with(&call, |case| (case.move_values[0], case.move_values[2]) = (0, 901));
        gives(engine, "the least pair", &both, 17, 0);
        gives(engine, "12 before 17", &with(&both, |case| case.move_values[1] = BLANK), 12, 1);
        gives(engine, "a blank is no value first", &with(&both, |case| case.move_values[2] = BLANK), 12, 2);
        gives(engine, "11 before 17", &with(&both, |case| case.move_vars[1] = 0), 11, 1);
        gives(engine, "10 before 17", &with(&both, |case| case.move_vars[1] = 65535), 10, 1);
        gives(engine, "by its variable, not its place", &with(&both, |case| case.move_vars.swap(0, 1)), 17, 2);
        gives(engine, "beyond the pairs", &with(&both, |case| (case.pairs, case.move_values[0]) = (2, 1)), 0, 0);
        let narrow = call.clone().with_bounds(1, 28800, 28800);
        let fixed = with(&narrow, |case| (case.move_values[1], case.log_sizes[0]) = (28800, 0));
        gives(engine, "the only value allowed", &fixed, 0, 0);
        gives(engine, "another", &with(&fixed, |case| case.move_values[1] = 28801), 17, 1);
    }
    let many = built(engine, &no_rows(64));
    let pairs: Vec<(u16, i32)> = (0..64).map(|variable| (63 - variable, 5)).collect();
    for call in [trial(&many, &pairs, &[], 1), keep(&many, &pairs)] {
        for variable in [0, 31, 63] {
            let bounded = call.clone().with_bounds(variable, 0, 4);
            gives(engine, "any of 64 pairs", &bounded, 17, 63 - variable as u32);
        }
    }
}

/// A logged value on both sides of each bound, wherever it stands.
fn refusal_16_outside(engine: &dyn Engine) {
    for call in &all_calls(engine)[2..4] {
        let call = call.clone().with_bounds(0, 1, 25200).with_bounds(2, -1, 900);
        for (place, value, number) in [
            (0, 1, 0),
            (0, 0, 16),
            (0, 25200, 0),
            (0, 25201, 16),
            (1, 900, 0),
            (1, 901, 16),
            (1, -1, 0),
            (1, -2, 16),
            (64, LOWEST, 0),
            (64, HIGHEST, 0),
            (64, BLANK, 16),
            (2, 99_999, 0),
            (65, 99_999, 0),
            (128, 99_999, 0),
        ] {
            let logged = with(&call, |case| case.log_values[place] = value);
            gives(engine, &format!("place {place}, value {value}"), &logged, number, 0);
        }
        let latest = with(&call, |case| (case.log_vars[64], case.log_values[64]) = (2, 901));
        gives(engine, "in the latest", &latest, 16, 0);
        if call.call == Call::Keep {
            gives(engine, "17 before 16", &with(&latest, |case| case.move_values[0] = 0), 17, 0);
        }
    }
    let model = built(engine, &no_rows(64));
    let move_of = |k: u16| (0..64).map(|pair| ((pair + k) % 64, 5)).collect::<Vec<(u16, i32)>>();
    let mut full = model.with_moves(&(0..MOST_LOGGED as u16).map(move_of).collect::<Vec<_>>());
    full.session.kept = 64;
    for call in [keep(&full, &[(0, 1)]), take_back(&full)] {
        for place in [0, 63, 64, 2100, 4032, 4095] {
            let variable = usize::from(call.log_vars[place]);
            let bounded = call.clone().with_bounds(variable, 0, 5);
            gives(engine, "at the highest", &bounded, 0, 0);
            gives(engine, "one above", &with(&bounded, |case| case.log_values[place] = 6), 16, 0);
        }
    }
}

fn refusal_5(engine: &dyn Engine) {
    for call in &all_calls(engine)[..3] {
        gives(engine, "made again", &with(call, |case| case.makes[2] = 3), 5, 2);
        gives(engine, "made three times", &with(call, |case| case.makes.fill(3)), 5, 1);
    }
}

fn refusal_6(engine: &dyn Engine) {
    let above = of_rows(vec![0, 0, 5], &[Row::plain(1, 0, &[1]), Row::plain(2, 1, &[2, 1])]);
    gives(engine, "a variable above the closed chain is not on it", &above, 6, 1);
    let below = of_rows(vec![0, 0, 5], &[Row::plain(1, 0, &[2]), Row::plain(2, 1, &[0, 1])]);
    gives(engine, "nor is a variable below it", &below, 6, 1);
    the_longest_chain(engine);
}

/// The longest chain is accepted, and refused once it is closed.
pub fn the_longest_chain(engine: &dyn Engine) {
    let mut chain = chain(1, 4095, 4, 1);
    gives(engine, "the longest chain", &chain, 0, 0);
    chain.vars[7] = 4095;
    gives(engine, "the longest chain, closed", &chain, 6, 2);
}

fn refusal_7(engine: &dyn Engine) {
    let build = model_a();
    for (variable, start, number) in
        [(1, BLANK, 7), (1, -i32::MAX, 0), (1, i32::MAX, 0), (4, BLANK, 7), (4, 1, 7), (4, -1, 7), (4, 0, 0)]
    {
        let place = if number == 0 { 0 } else { variable as u32 };
        gives(engine, "start value", &with(&build, |case| case.starts[variable] = start), number, place);
    }
    gives(engine, "the least variable", &with(&build, |case| case.starts.fill(BLANK)), 7, 0);
    for call in &all_calls(engine)[1..4] {
        gives(engine, "stored search value", &with_blanks(call, 2..3), 7, 2);
        gives(engine, "stored made value", &with_blanks(call, 3..6), 0, 0);
    }
}

/// A case with blanks at places of its stored values, and their number in the record.
fn with_blanks(case: &Case, places: Range<usize>) -> Case {
    with(case, |case| {
        case.stored[places].fill(BLANK);
        case.count_blanks();
    })
}

fn refusal_19(engine: &dyn Engine) {
    for call in &all_calls(engine)[1..4] {
        for places in [0..0, 3..4, 5..6, 4..6, 3..6] {
            let case = with_blanks(call, places);
            let right = case.session.blanks;
            for (blanks, number) in [
                (right, 0),
                (right + 1, 19),
                (right.wrapping_sub(1), 19),
                (right + 6, 19),
                (right | 1 << 16, 19),
                (right | 1 << 31, 19),
                (u32::MAX - right, 19),
                (u32::MAX, 19),
            ] {
                let numbered = with(&case, |case| case.session.blanks = blanks);
                gives(engine, &format!("{right} blanks, number {blanks}"), &numbered, number, 0);
            }
        }
        for (places, place) in [(0..1, 0), (2..3, 2), (2..6, 2), (0..6, 0)] {
            let case = with_blanks(call, places);
            gives(engine, "a search variable blank, the number right", &case, 7, place);
            let low = with(&case, |case| case.session.blanks -= 1);
            gives(engine, "19 before 7", &low, 19, 0);
            gives(engine, "8 before 19", &with(&low, |case| case.order.swap(0, 1)), 8, 0);
        }
        let beyond = with(&with_blanks(call, 4..5), |case| case.stored.edit(|stored| stored.push(BLANK)));
        gives(engine, "a blank beyond n", &beyond, 0, 0);
        gives(engine, "a blank beyond n counted", &with(&beyond, |case| case.session.blanks += 1), 19, 0);
    }
}

fn refusal_19_bounds(engine: &dyn Engine) {
    let rows: Vec<Row> = (1..4096).map(|makes| Row::plain(9, makes, &[0; 3])).collect();
    let model = built(engine, &of_rows(vec![0; 4096], &rows));
    assert_eq!((model.session.blanks, model.blanks()), (4095, 4095));
    let kept = Side::of(engine, &keep(&model, &[(0, 5)])).left;
    for call in [trial(&model, &[(0, 5)], &[1], 1), keep(&model, &[(0, 5)]), take_back(&kept)] {
        for (blanks, number) in [(4094, 19), (4095, 0), (4096, 19), (0, 19), (u32::MAX, 19)] {
            gives(engine, "4,095 blanks", &with(&call, |case| case.session.blanks = blanks), number, 0);
        }
    }
}

/// Asserts that each change gives 8, also where a search variable is blank.
fn each_gives_8(engine: &dyn Engine, call: &Case, changes: &[Change]) {
    for (what, change) in changes {
        gives(engine, what, &with(call, change), 8, 0);
        let blank = with(call, |case| {
            change(case);
            case.stored[0] = BLANK;
        });
        gives(engine, "8 before 7", &blank, 8, 0);
    }
}

fn refusal_8(engine: &dyn Engine) {
    for call in &all_calls(engine)[1..4] {
        let changes: [Change; 9] = [
            ("a search variable's number", |case| case.numbers[0] = 1),
            ("a made variable's number", |case| case.numbers[3] = 2),
            ("all made numbers one more", |case| case.numbers[3..].iter_mut().for_each(|number| *number += 1)),
            ("a number that is the greatest", |case| case.numbers.fill(65535)),
            ("two rows exchanged", |case| case.order.swap(0, 1)),
            ("rows of other numbers exchanged", |case| case.order.swap(1, 2)),
            ("a row twice", |case| case.order[1] = 0),
            ("no such row", |case| case.order[2] = 3),
            ("a circular table", |case| case.vars[0] = 5),
        ];
        each_gives_8(engine, call, &changes);
        let beyond = with(call, |case| {
            case.numbers.edit(|numbers| numbers.push(9));
            case.order.edit(|order| order.push(9));
        });
        gives(engine, "beyond the counts", &beyond, 0, 0);
    }
}

fn refusal_8_unread(engine: &dyn Engine) {
    let model = built(engine, &of_rows(vec![1, 2, 0], &[Row::plain(1, 2, &[0])]));
    let kept = Side::of(engine, &keep(&model, &[])).left;
    for call in [trial(&model, &[], &[], 1), keep(&model, &[]), take_back(&kept)] {
        gives(engine, "as built", &call, 0, 0);
        gives(engine, "the number of a variable that no row reads", &with(&call, |case| case.numbers[1] = 1), 8, 0);
    }
}

fn refusal_8_index(engine: &dyn Engine) {
    let model = built(engine, &read_twice());
    assert_eq!((&*model.reader_starts, &model.reader_places[..4]), (&[0, 2, 3, 4, 4][..], &[0, 1, 0, 1][..]));
    let kept = Side::of(engine, &keep(&model, &[(1, 6)])).left;
    for call in [trial(&model, &[(1, 6)], &[3], 1), keep(&model, &[(1, 6)]), take_back(&kept)] {
        gives(engine, "as built", &call, 0, 0);
        let changes: [Change; 12] = [
            ("the first start", |case| case.reader_starts[0] = 1),
            ("a start one less", |case| case.reader_starts[1] = 1),
            ("a start one more", |case| case.reader_starts[2] = 4),
            ("the last start one less", |case| case.reader_starts[4] = 3),
            ("the last start one more", |case| case.reader_starts[4] = 5),
            ("all starts one more", |case| case.reader_starts.iter_mut().for_each(|start| *start += 1)),
            ("starts far out", |case| case.reader_starts.fill(65535)),
            ("two readers exchanged", |case| case.reader_places.swap(0, 1)),
            ("another row", |case| case.reader_places[2] = 1),
            ("no such row", |case| case.reader_places[3] = 2),
            ("a row far out", |case| case.reader_places[0] = 65535),
            ("a row twice where it reads twice", |case| {
                case.reader_starts.copy_from_slice(&[0, 4, 5, 6, 6]);
                case.reader_places.copy_from_slice(&[0, 0, 1, 1, 0, 1]);
            }),
        ];
        each_gives_8(engine, &call, &changes);
        let beyond = with(&call, |case| {
            case.reader_starts.edit(|starts| starts.push(9));
            case.reader_places[4..].fill(65535);
        });
        gives(engine, "beyond the last reader", &beyond, 0, 0);
    }
}

fn refusal_9(engine: &dyn Engine) {
    let [_, tried, ..] = all_calls(engine);
    for (route, number) in [(0, 9), (1, 0), (2, 0), (3, 0), (4, 9), (65537, 9), (u32::MAX, 9)] {
        gives(engine, "route", &with(&tried, |case| case.route = route), number, 0);
    }
}

fn refusals_10_to_12(engine: &dyn Engine) {
    for call in &all_calls(engine)[1..3] {
        for variable in [3, 5, 6, 65535] {
            gives(engine, "a pair's variable", &with(call, |case| case.move_vars[1] = variable), 10, 1);
        }
        gives(engine, "a variable twice", &with(call, |case| case.move_vars[2] = 0), 11, 2);
        let equal = with(call, |case| {
            case.move_vars[1] = 0;
            case.move_values[1] = case.move_values[0];
        });
        gives(engine, "a pair twice", &equal, 11, 1);
        gives(engine, "a blank new value", &with(call, |case| case.move_values[1] = BLANK), 12, 1);
        gives(engine, "the least new value", &with(call, |case| case.move_values[1] = -i32::MAX), 0, 0);
        let fewer = with(call, |case| {
            case.pairs = 2;
            case.move_vars[2] = 99;
            case.move_values[2] = BLANK;
        });
        gives(engine, "beyond the pairs", &fewer, 0, 0);
    }
}

fn refusal_13(engine: &dyn Engine) {
    let [_, tried, ..] = all_calls(engine);
    for (variable, number, place) in [(5, 0, 0), (6, 13, 1), (65535, 13, 1)] {
        gives(engine, "asked", &with(&tried, |case| case.asked_vars[1] = variable), number, place);
    }
    let fewer = with(&tried, |case| (case.asked, case.asked_vars[1]) = (1, 99));
    gives(engine, "beyond the asked", &fewer, 0, 0);
}

fn refusal_15(engine: &dyn Engine) {
    let [_, _, kept, taken, _] = all_calls(engine);
    for (moves, number) in [(0, 15), (1, 0), (2, 0)] {
        gives(engine, "moves in the log", &with(&taken, |case| case.log_sizes[0] = moves), number, 0);
        gives(engine, "a keep takes any", &with(&kept, |case| case.log_sizes[0] = moves), 0, 0);
    }
    let junk = with(&taken, |case| {
        case.log_sizes.fill(65535);
        case.log_sizes[0] = 0;
        case.log_vars.fill(65535);
        case.log_values.fill(BLANK);
        case.session.kept = 0;
    });
    gives(engine, "an empty log with anything behind it", &junk, 15, 0);
    gives(
        engine,
        "a keep after it",
        &with(&kept, |case| (case.log_sizes, case.log_vars) = (junk.log_sizes, junk.log_vars)),
        0,
        0,
    );
}

fn refusal_16(engine: &dyn Engine) {
    for call in &all_calls(engine)[2..4] {
        // Variable 0 with 0 stands behind every pair: one more pair of the second move is fit, two name it twice.
        let good: [Change; 10] = [
            ("as kept", |_| {}),
            ("more kept than logged", |case| case.session.kept = 3),
            ("the most kept", |case| case.session.kept = u32::MAX),
            ("the least value", |case| case.log_values[1] = -i32::MAX),
            ("the same variable in two moves", |case| case.log_vars[64] = 0),
            ("beyond the moves", |case| {
                case.log_sizes[3] = 65;
                case.log_vars[128] = 65535;
                case.log_values[128] = BLANK;
            }),
            ("beyond the pairs", |case| {
                case.log_vars[2] = 0;
                case.log_values[65] = BLANK;
            }),
            ("an empty move", |case| case.log_sizes[1] = 0),
            ("the last search variable", |case| case.log_vars[64] = 2),
            ("a pair that was not written", |case| case.log_sizes[2] = 2),
        ];
        for (what, change) in good {
            gives(engine, what, &with(call, change), 0, 0);
        }
        let unfit: [Change; 15] = [
            ("fewer kept than logged", |case| case.session.kept = 1),
            ("none kept", |case| case.session.kept = 0),
            ("far too many moves", |case| case.log_sizes[0] = 65535),
            ("65 pairs of the oldest", |case| case.log_sizes[1] = 65),
            ("65 pairs of the latest", |case| case.log_sizes[2] = 65),
            ("far too many pairs", |case| case.log_sizes[2] = 65535),
            ("a made variable", |case| case.log_vars[0] = 3),
            ("a made variable, n - 1", |case| case.log_vars[64] = 5),
            ("variable n", |case| case.log_vars[1] = 6),
            ("a variable far out", |case| case.log_vars[64] = 65535),
            ("a variable twice in a move", |case| case.log_vars[1] = 0),
            ("twice with the same value", |case| {
                case.log_vars[1] = 0;
                case.log_values[1] = case.log_values[0];
            }),
            ("a blank", |case| case.log_values[0] = BLANK),
            ("a blank in the latest", |case| case.log_values[64] = BLANK),
            ("two pairs that were not written", |case| case.log_sizes[2] = 3),
        ];
        for (what, change) in unfit {
            gives(engine, what, &with(call, change), 16, 0);
        }
    }
}

fn refusal_16_bounds(engine: &dyn Engine) {
    let model = built(engine, &no_rows(70));
    let move_of = |pairs: u16| (0..pairs).map(|variable| (variable, 5)).collect::<Vec<(u16, i32)>>();
    let mut full = model.with_moves(&vec![move_of(64); MOST_LOGGED]);
    for (kept, number) in [(63, 16), (64, 0), (65, 0)] {
        full.session.kept = kept;
        gives(engine, "64 moves of 64 pairs, kept", &keep(&full, &[(0, 1)]), number, 0);
        gives(engine, "64 moves of 64 pairs, taken back", &take_back(&full), number, 0);
    }
    for call in [keep(&full, &[(0, 1)]), take_back(&full)] {
        gives(engine, "65 moves", &with(&call, |case| case.log_sizes[0] = 65), 16, 0);
        for place in [0, 63, 64, 4031, 4032, 4095] {
            gives(engine, "a variable of any pair", &with(&call, |case| case.log_vars[place] = 70), 16, 0);
            gives(engine, "a value of any pair", &with(&call, |case| case.log_values[place] = BLANK), 16, 0);
            let other = if place % 64 == 0 { place + 1 } else { place - 1 };
            gives(engine, "twice anywhere", &with(&call, |case| case.log_vars[place] = case.log_vars[other]), 16, 0);
        }
        for place in 1..=64 {
            gives(engine, "65 pairs of any move", &with(&call, |case| case.log_sizes[place] = 65), 16, 0);
        }
    }
}

/// A read of model A's file into tables of the right length.
fn reading(engine: &dyn Engine) -> Case {
    let written = Side::of(engine, &file(&model_a())).left;
    Case { call: Call::Read, ..written }
}

fn refusal_14(engine: &dyn Engine) {
    let read = reading(engine);
    gives(engine, "a whole file", &read, 0, 0);
    for length in 0..24 {
        gives(
            engine,
            "a file without header",
            &with(&read, |case| case.bytes.edit(|bytes| bytes.truncate(length))),
            14,
            length as u32,
        );
    }
    let total = read.bytes.len();
    for length in [24, total - 1] {
        gives(engine, "a file cut short", &with(&read, |case| case.bytes.edit(|bytes| bytes.truncate(length))), 14, 20);
    }
    gives(engine, "a file too long", &with(&read, |case| case.bytes.edit(|bytes| bytes.push(0))), 14, 20);
    for field in [0, 2, 4, 6, 8, 12, 16, 20] {
        let width = if field < 8 { 2 } else { 4 };
        for byte in field..field + width {
            gives(engine, "a header field", &with(&read, |case| case.bytes[byte] = 0xFF), 14, first_wrong(field, byte));
        }
        let all_after = with(&read, |case| case.bytes[field..24].fill(0xFF));
        gives(engine, "this field and all after it", &all_after, 14, field as u32);
    }
    let none = with(&read, |case| case.bytes[2..4].fill(0));
    gives(engine, "no variables", &none, 14, 2);
}

/// The first field that is wrong where this byte of a field is 255: a count may be right and make an offset wrong.
fn first_wrong(field: usize, byte: usize) -> u32 {
    match (field, byte) {
        (2, 2) => 12,
        (6, 6) => 20,
        _ => field as u32,
    }
}

fn refusal_14_bounds(engine: &dyn Engine) {
    let full: Vec<Row> = (1..=64).map(|row| Row::plain(1, row, &[0; 256])).collect();
    let largest = file(&of_rows(vec![0; 4096], &full));
    let written = Side::of(engine, &largest).left;
    let read = Case { call: Call::Read, ..written };
    gives(engine, "n 4,096 and e 16,384", &read, 0, 0);
    let more = |at: usize| with(&read, |case| case.bytes[at] += 1);
    gives(engine, "n 4,097", &more(2), 14, 2);
    gives(engine, "e 16,385", &more(6), 14, 6);
    let rows = |m: u16| with(&reading(engine), |case| case.bytes[4..6].copy_from_slice(&m.to_le_bytes()));
    gives(engine, "m at n", &rows(6), 14, 16);
    gives(engine, "m above n", &rows(7), 14, 4);
}

fn refusal_1_after_14(engine: &dyn Engine) {
    let read = reading(engine);
    for (which, short) in one_short(&read).iter().enumerate() {
        gives(engine, &format!("table {which} one short"), short, 1, 0);
        gives(engine, "14 before 1", &with(short, |case| case.bytes[0] = 2), 14, 0);
    }
    let answer = Side::of(engine, &read).answer;
    assert_eq!((answer.n, answer.m, answer.e), (6, 3, 7));
}

/// One thing wrong: its number, its place and how.
type Fault = (u32, u32, fn(&mut Case));

/// Of two things wrong the check that runs first speaks.
fn the_order_of_checks(engine: &dyn Engine) {
    let tables: [Fault; 7] = [
        (1, 0, |case| case.n = 0),
        (1, 0, |case| case.reasons.edit(|reasons| reasons.truncate(5))),
        (2, 1, |case| case.kinds[1] = 0),
        (3, 2, |case| case.vars[6] = 99),
        (4, 0, |case| case.params[0] = 1),
        (4, 2, |case| case.lows.put(2, BLANK)),
        (5, 1, |case| case.makes[1] = 3),
    ];
    let build: [Fault; 2] = [(6, 3, |case| case.vars[0] = 5), (7, 1, |case| case.starts[1] = BLANK)];
    let state: [Fault; 3] = [
        (8, 0, |case| case.numbers[3] = 9),
        (19, 0, |case| case.session.blanks = u32::MAX),
        (7, 1, |case| (case.stored[1], case.session.blanks) = (BLANK, 1)),
    ];
    let route: Fault = (9, 0, |case| case.route = 0);
    let pairs: [Fault; 4] = [
        (10, 2, |case| case.move_vars[2] = 4),
        (11, 1, |case| case.move_vars[1] = 0),
        (12, 0, |case| case.move_values[0] = BLANK),
        (17, 1, |case| (case.highs[1], case.move_values[1]) = (28800, 28801)),
    ];
    let asked: Fault = (13, 1, |case| case.asked_vars[1] = 6);
    let log: [Fault; 2] = [(16, 0, |case| case.log_sizes[0] = 65), (15, 0, |case| case.log_sizes[0] = 0)];
    let [building, tried, kept, taken, _] = all_calls(engine);
    for (case, faults) in [
        (building, [&tables[..], &build].concat()),
        (tried, [&tables[..], &state, &[route], &pairs, &[asked]].concat()),
        (kept, [&tables[..], &state, &pairs, &log[..1]].concat()),
        (taken, [&tables[..], &state, &log].concat()),
    ] {
        for (at, &(number, place, fault)) in faults.iter().enumerate() {
            for &(later, _, also) in &faults[at..] {
                let wrong = with(&case, |case| {
                    also(case);
                    fault(case);
                });
                gives(engine, &format!("{:?}: {number} and {later}", case.call), &wrong, number, place);
            }
        }
    }
}

/// All edges by name.
pub const EDGES: &[Test] = &[
    ("1: counts", refusal_1_counts),
    ("1: moves and asked", refusal_1_moves),
    ("1: buffers", refusal_1_buffers),
    ("1: reasons", refusal_1_reasons),
    ("1: reasons of 4,096 variables", refusal_1_many_reasons),
    ("2", refusal_2),
    ("3: inputs", refusal_3_inputs),
    ("3: places", refusal_3_places),
    ("4", refusal_4),
    ("4 and 7 of bounds", refusals_4_and_7_of_bounds),
    ("4: bounds of 4,096 variables", refusal_4_of_many_bounds),
    ("5", refusal_5),
    ("6", refusal_6),
    ("7", refusal_7),
    ("7: values outside", refusal_7_outside),
    ("8", refusal_8),
    ("8: a variable that no row reads", refusal_8_unread),
    ("8: the index", refusal_8_index),
    ("9", refusal_9),
    ("10 to 12", refusals_10_to_12),
    ("13", refusal_13),
    ("15", refusal_15),
    ("16", refusal_16),
    ("16: bounds", refusal_16_bounds),
    ("16: values outside", refusal_16_outside),
    ("17", refusal_17),
    ("19", refusal_19),
    ("19: bounds", refusal_19_bounds),
    ("14", refusal_14),
    ("14: bounds", refusal_14_bounds),
    ("1 after 14", refusal_1_after_14),
    ("the order of checks", the_order_of_checks),
];
