//! Many moves tried at once, as tests of any engine: what model A gives, both sides of the refusal, and random batches,
//! each held also to the engine's own trials of its moves.

use lent::MOST_MOVES;
use second::{BLANK, MOST_ASKED};

use crate::figures::{Pairs, draw_built, draw_moves, tiny_model};
use crate::runs::{built, gives, model_a, model_a_spoilt, trial, with};
use crate::tests::any_model;
use crate::{
    Answer, Call, Case, Difference, Engine, Guarded, Random, Second, Side, Test, agreed, damage, lengthen, one_short,
    seed, shorten, shrink,
};

/// How many moves are drawn at random, at least.
const MOVES: usize = 200_000;

/// Many moves on a model that was built.
#[must_use]
pub fn many(built: &Case, moves: &[Pairs], asked: &[u16], route: u32) -> Case {
    let (vars, values): (Vec<u16>, Vec<i32>) = moves.iter().flatten().copied().unzip();
    let all = moves.len() * asked.len();
    Case {
        call: Call::Trials,
        moves: moves.len(),
        move_pairs: moves.iter().map(|pairs| pairs.len() as u16).collect::<Vec<u16>>().into(),
        move_vars: vars.into(),
        move_values: values.into(),
        asked: asked.len(),
        asked_vars: asked.to_vec().into(),
        route,
        move_numbers: vec![77; moves.len()].into(),
        move_places: vec![78; moves.len()].into(),
        move_evaluations: vec![79; moves.len()].into(),
        results: vec![80; all].into(),
        why: vec![81; all].into(),
        ..built.clone()
    }
}

/// What each move was given: its number, place and evaluations, its results and their reasons.
type GivenTo<'a> = (u32, u32, u32, &'a [i32], &'a [u8]);

fn given(case: &Case, which: usize) -> GivenTo<'_> {
    let own = which * case.asked..(which + 1) * case.asked;
    let answer = (case.move_numbers[which], case.move_places[which], case.move_evaluations[which]);
    (answer.0, answer.1, answer.2, &case.results[own.clone()], &case.why[own])
}

/// The moves of model A that the figures have: four that are accepted, and three that are refused.
fn some_moves() -> Vec<Pairs> {
    let accepted = [vec![], vec![(1, 28801)], vec![(1, 28500)], vec![(2, 0)]];
    let refused = [vec![(3, 1)], vec![(0, 1), (0, 2)], vec![(0, BLANK)]];
    accepted.into_iter().chain(refused).collect()
}

/// Model A, asked for departures and crews by each route.
fn trials_of_model_a(engine: &dyn Engine) {
    let model = built(engine, &model_a());
    for route in 1..=3 {
        let case = many(&model, &some_moves(), &[3, 5], route);
        let Side { answer, left } = Side::of(engine, &case);
        let evaluations = [[0, 3, 2, 3], [2, 2, 2, 2], [0, 2, 2, 2]][route as usize - 1];
        assert_eq!(answer, Answer { evaluations: evaluations.iter().sum(), ..Answer::default() });
        let values = [([6, 26], [0, 0]), ([7, 30], [0, 0]), ([6, 26], [0, 0]), ([BLANK, BLANK], [3, 4])];
        for (which, (results, why)) in values.iter().enumerate() {
            assert_eq!(
                given(&left, which),
                (0, 0, evaluations[which], &results[..], &why[..]),
                "route {route}, move {which}"
            );
        }
        for (which, (number, place)) in [(10, 0), (11, 1), (12, 0)].into_iter().enumerate() {
            assert_eq!(
                given(&left, 4 + which),
                (number, place, 0, &[80, 80][..], &[81, 81][..]),
                "a refused move writes no result"
            );
        }
        let Case { move_numbers, move_places, move_evaluations, results, why, .. } = left.clone();
        assert_eq!(
            left,
            Case { move_numbers, move_places, move_evaluations, results, why, ..case },
            "nothing else changes"
        );
    }
}

/// The order of the moves permutes what they are given, and changes nothing else.
fn order_of_the_moves(engine: &dyn Engine) {
    let model = built(engine, &model_a());
    let mut moves = some_moves();
    let before = Side::of(engine, &many(&model, &moves, &[4], 3)).left;
    for turn in 1..=moves.len() {
        moves.rotate_left(1);
        let after = Side::of(engine, &many(&model, &moves, &[4], 3)).left;
        for which in 0..moves.len() {
            assert_eq!(given(&after, which), given(&before, (which + turn) % moves.len()));
        }
    }
}

/// The refusal of a batch on both sides: 1,000 moves, 32 asked, and every row.
fn refusal_1(engine: &dyn Engine) {
    let model = built(engine, &model_a());
    let (most, more) = (vec![vec![(1, 28801)]; MOST_MOVES], vec![vec![(1, 28801)]; MOST_MOVES + 1]);
    gives(engine, "1,000 moves", &many(&model, &most, &[5], 3), 0, 0);
    gives(engine, "1,001 moves", &many(&model, &more, &[5], 3), 1, 0);
    gives(engine, "no move", &many(&model, &[], &[5], 3), 0, 0);
    gives(engine, "no move, whatever the model", &many(&model_a_spoilt(), &[], &[65535], 9), 0, 0);
    gives(engine, "32 asked", &many(&model, &some_moves(), &[5; MOST_ASKED], 3), 0, 0);
    gives(engine, "33 asked", &many(&model, &some_moves(), &[5; MOST_ASKED + 1], 3), 1, 0);
    let few = many(&model, &some_moves(), &[5, 4], 3);
    for moves in [8, MOST_MOVES, MOST_MOVES + 1, usize::MAX, 1 << 62, 1 << 63] {
        gives(engine, &format!("{moves} moves of 7"), &with(&few, |case| case.moves = moves), 1, 0);
    }
    for asked in [3, 32, 33, usize::MAX, 1 << 62, 1 << 63] {
        gives(engine, &format!("{asked} asked of 2"), &with(&few, |case| case.asked = asked), 1, 0);
    }
    let own: [fn(&Case) -> usize; 7] = [
        |case| case.move_pairs.len(),
        |case| case.move_numbers.len(),
        |case| case.move_places.len(),
        |case| case.move_evaluations.len(),
        |case| case.asked_vars.len(),
        |case| case.results.len(),
        |case| case.why.len(),
    ];
    let short: Vec<Case> =
        one_short(&few).into_iter().filter(|short| own.iter().any(|length| length(short) != length(&few))).collect();
    assert_eq!(short.len(), own.len());
    for short in short {
        gives(engine, "a short row", &short, 1, 0);
    }
}

/// Every other refusal is the move's own; a model that is refused gives each move that number and place.
fn refusals_of_moves(engine: &dyn Engine) {
    let model = built(engine, &model_a());
    let moves = [vec![(1, 28801)], vec![], vec![(3, 1)]];
    let whole = many(&model, &moves, &[5], 3);
    let all = |what: &str, number: u32, place: u32, case: Case| {
        let Side { answer, left } = Side::of(engine, &case);
        assert_eq!(answer, Answer::default(), "{what}: the call itself is accepted, with no evaluation");
        for which in 0..3 {
            assert_eq!(given(&left, which), (number, place, 0, &[80][..], &[81][..]), "{what}");
        }
    };
    all("a kind", 2, 1, with(&whole, |case| case.kinds[1] = 10));
    all("bounds", 4, 3, with(&whole, |case| case.lows[3] = 0));
    all("an order", 8, 0, with(&whole, |case| case.order.swap(0, 2)));
    all("blanks", 19, 0, with(&whole, |case| case.session.blanks = 1));
    all("a route", 9, 0, with(&whole, |case| case.route = 4));
    all("n", 1, 0, with(&whole, |case| case.n = 4097));
    all("short reasons", 1, 0, with(&whole, |case| case.reasons = vec![0; 5].into()));
    let lent = with(&whole, |case| case.move_values = vec![].into());
    let left = Side::of(engine, &lent).left;
    assert_eq!(left.move_numbers[..], [1, 0, 1], "pairs that are not lent");
    let asked = Side::of(engine, &many(&model, &moves, &[5, 6], 3)).left;
    assert_eq!((&asked.move_numbers[..], &asked.move_places[..]), (&[13, 13, 10][..], &[1, 1, 0][..]), "10 before 13");
}

/// All tests by name.
pub const TRIALS: &[Test] = &[
    ("trials of model A", trials_of_model_a),
    ("the order of the moves", order_of_the_moves),
    ("trials: 1", refusal_1),
    ("refusals of moves", refusals_of_moves),
];

/// Random moves on random models, whole and damaged, and some of them held to the engine's own trials.
///
/// # Panics
/// If the engine differs from the second implementation or from its own trials, or if an answer hardly ever came.
pub fn random_trials(engine: &dyn Engine) {
    draws(engine, MOVES, |random, round| if round % 200 == 0 { any_model(random) } else { tiny_model(random) });
}

/// The same over tiny models only and fewer moves, for an engine that takes its time.
///
/// # Panics
/// If the engine differs from the second implementation or from its own trials, or if an answer hardly ever came.
pub fn tiny_trials(engine: &dyn Engine) {
    draws(engine, MOVES / 10, |random, _| tiny_model(random));
}

fn draws(engine: &dyn Engine, wanted: usize, draw_model: impl Fn(&mut Random, usize) -> Case) {
    let seed = seed();
    println!("seed {seed}");
    let mut random = Random::new(seed);
    let (mut refused, mut moves, mut by_number) = (0, 0, [0u32; 22]);
    for round in 0.. {
        let model = draw_model(&mut random, round);
        let case = draw(&mut random, &model);
        let differs = |found: Box<Difference>| panic!("seed {seed}\n{}", shrink(engine, &Second, found));
        let Side { answer, left } = agreed(engine, &Second, &case).unwrap_or_else(differs);
        refused += usize::from(answer.number == 1);
        if answer.number == 0 {
            moves += left.moves;
            left.move_numbers.iter().take(left.moves).for_each(|&number| by_number[number as usize] += 1);
            if round % 20 == 0 {
                by_trials(engine, &case, &left);
            }
        }
        if moves >= wanted {
            break;
        }
    }
    println!("{moves} moves, {refused} batches refused, {by_number:?}");
    let never = [6, 14, 15, 16, 18];
    let often = |number: usize| if never.contains(&number) { by_number[number] == 0 } else { by_number[number] > 20 };
    assert!((0..by_number.len()).all(often), "every number of a trial: {by_number:?}");
    assert!(refused > 50, "refused");
}

/// Random moves on a model, at times with something wrong in what the call is lent.
fn draw(random: &mut Random, model: &Case) -> Case {
    let built = draw_built(random, model);
    let moves = draw_moves(random, &built);
    let most = if random.once_in(30) { 33 } else { 5 };
    let asked: Vec<u16> = (0..random.below(most)).map(|_| random.below(built.n) as u16).collect();
    let mut case = many(&built, &moves, &asked, 1 + random.below(3) as u32);
    case.results = Guarded::junk(random, case.results.len());
    case.why = Guarded::junk(random, case.why.len());
    match random.below(16) {
        0 | 1 => {
            // what a trial is lent made wrong, the moves and what is filled apart
            let mut wrong = Case { call: Call::Trial, ..built };
            damage(random, &mut wrong);
            let Case { moves, move_pairs, move_vars, move_values, asked, asked_vars, route, results, why, .. } = case;
            let Case { move_numbers, move_places, move_evaluations, .. } = case;
            #[rustfmt::skip]
            let lent = Case {
                call: Call::Trials, moves, move_pairs, move_vars, move_values, asked, asked_vars, route,
                move_numbers, move_places, move_evaluations, results, why, ..wrong
            };
            case = lent;
        }
        2 => shorten(random, &mut case),
        3 => case.moves = random.pick(&[case.moves + 1, 1001, usize::MAX, case.moves.saturating_sub(1)]),
        4 => case.session.blanks = random.below(4) as u32,
        5 => case.kinds.put(random.below(case.m), random.pick(&[0, 10, 65535])),
        6 => {
            let makes = case.makes.first().copied().unwrap_or(0);
            case.makes.put(random.below(case.m), makes);
        }
        7 => case.route = random.pick(&[0, 4, u32::MAX]),
        8 => case.asked_vars.iter_mut().take(1).for_each(|variable| *variable = random.below(65536) as u16),
        _ => {}
    }
    if random.once_in(3) {
        lengthen(random, &mut case);
    }
    case
}

/// Holds what each move was given to the trial of it alone.
fn by_trials(engine: &dyn Engine, case: &Case, left: &Case) {
    let mut at = 0;
    for which in 0..case.moves {
        let pairs = usize::from(case.move_pairs[which]);
        let vars = case.move_vars.iter().skip(at).take(pairs).copied().collect::<Vec<u16>>();
        let values = case.move_values.iter().skip(at).take(pairs).copied().collect::<Vec<i32>>();
        at += pairs;
        let asked: Vec<u16> = case.asked_vars[..case.asked].to_vec();
        let own = which * case.asked..(which + 1) * case.asked;
        let room = Case { n: case.n.min(4096), ..case.clone() };
        let tried = Case {
            n: case.n,
            pairs,
            move_vars: vars.into(),
            move_values: values.into(),
            results: case.results[own.clone()].to_vec().into(),
            why: case.why[own].to_vec().into(),
            flags: vec![0; case.n.min(4096)].into(),
            ..trial(&room, &[], &asked, case.route)
        };
        let Side { answer, left: alone } = Side::of(engine, &tried);
        let expected = (answer.number, answer.place, answer.evaluations, &alone.results[..], &alone.why[..]);
        assert_eq!(given(left, which), expected, "by its own trial");
    }
}
