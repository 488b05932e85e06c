//! A batch of moves in figures, as tests of any engine: what it reports of model A, both sides of its refusal, and
//! random batches, each held also to the engine's own trials.

use lent::{MOST_MOVES, NUMBERS};
use second::BLANK;

use crate::runs::{built, gives, model_a, model_a_spoilt, trial, with};
use crate::tests::any_model;
use crate::{
    Answer, Call, Case, Difference, Engine, Guarded, Random, Second, Side, Sizes, Test, agreed, damage, draw_move,
    interlined, lengthen, model, move_outside, one_short, seed, shorten, shrink,
};

/// How many batches are drawn at random.
const BATCHES: usize = 6_000;

/// The pairs of a move.
pub(crate) type Pairs = Vec<(u16, i32)>;

/// A batch of moves on a model that was built.
#[must_use]
pub fn batch(built: &Case, moves: &[Pairs], asked: u16) -> Case {
    let (vars, values): (Vec<u16>, Vec<i32>) = moves.iter().flatten().copied().unzip();
    Case {
        call: Call::Figures,
        moves: moves.len(),
        move_pairs: moves.iter().map(|pairs| pairs.len() as u16).collect::<Vec<u16>>().into(),
        move_vars: vars.into(),
        move_values: values.into(),
        asked: asked.into(),
        by_number: vec![77; NUMBERS].into(),
        ..built.clone()
    }
}

/// The moves of a batch counted by number, from those that came.
fn counts(came: &[(usize, u32)]) -> Vec<u32> {
    let mut counts = vec![0; NUMBERS];
    came.iter().for_each(|&(number, moves)| counts[number] = moves);
    counts
}

/// The figures of no move, or of a batch that is refused.
pub(crate) const NOTHING: Answer = Answer {
    number: 0,
    place: 0,
    evaluations: 0,
    n: 0,
    m: 0,
    e: 0,
    length: 0,
    rows: 0,
    values: 0,
    blank: 0,
    least: BLANK,
    greatest: BLANK,
    first: 0,
    second: 0,
    third: 0,
    count: 0,
    sum: 0,
};

/// Asserts the figures and the counts of a batch; nothing else changes.
fn figures_are(engine: &dyn Engine, what: &str, case: &Case, figures: Answer, came: &[(usize, u32)]) {
    let Side { answer, left } = Side::of(engine, case);
    assert_eq!(answer, figures, "{what}");
    assert_eq!(left.by_number[..NUMBERS], counts(came), "{what}");
    let by_number = left.by_number.clone();
    assert_eq!(left, Case { by_number, ..case.clone() }, "{what}: nothing but the counts changes");
}

/// Moves of model A: none, one departure more, none more, a headway of 0; and three that are refused.
pub(crate) fn some_moves() -> Vec<Pairs> {
    let accepted = [vec![], vec![(1, 28801)], vec![(1, 28500)], vec![(2, 0)]];
    let refused = [vec![(3, 1)], vec![(0, 1), (0, 2)], vec![(0, BLANK)]];
    accepted.into_iter().chain(refused).collect()
}

/// Model A, asked how many crews each move needs.
fn figures_of_model_a(engine: &dyn Engine) {
    let model = built(engine, &model_a());
    let figures = Answer { blank: 1, least: 26, greatest: 30, sum: 82, first: 8, second: 8, third: 6, ..NOTHING };
    let came = [(0, 4), (10, 1), (11, 1), (12, 1)];
    let mut moves = some_moves();
    figures_are(engine, "model A", &batch(&model, &moves, 5), figures, &came);
    for turn in 0..moves.len() {
        moves.rotate_left(1);
        figures_are(engine, &format!("turned by {turn}"), &batch(&model, &moves, 5), figures, &came);
    }
    moves.reverse();
    figures_are(engine, "the last first", &batch(&model, &moves, 5), figures, &came);
    let longer = with(&batch(&model, &moves, 5), |case| case.by_number = vec![77; 30].into());
    assert_eq!(Side::of(engine, &longer).left.by_number[NUMBERS..], [77; 8], "beyond the 22 places");
}

/// No move, moves that are all refused, and results that are all blank.
fn results_without_a_value(engine: &dyn Engine) {
    let model = built(engine, &model_a());
    figures_are(engine, "no move", &batch(&model, &[], 5), NOTHING, &[]);
    figures_are(engine, "no move, whatever the model", &batch(&model_a_spoilt(), &[], 65535), NOTHING, &[]);
    figures_are(engine, "a refused move", &batch(&model, &[vec![(9, 1)]], 5), NOTHING, &[(10, 1)]);
    let blank = Answer { blank: 2, first: 6, second: 2, third: 2, ..NOTHING };
    figures_are(engine, "blank", &batch(&model, &[vec![(2, 0)], vec![(2, -1)]], 4), blank, &[(0, 2)]);
}

/// The results at both ends of the range, and a sum that 32 bits do not hold.
fn the_whole_range(engine: &dyn Engine) {
    let model = built(engine, &model_a());
    for end in [i32::MAX, -i32::MAX] {
        let moves = vec![vec![(0, end)]; MOST_MOVES];
        let sum = 1000 * i64::from(end);
        let figures = Answer { least: end, greatest: end, sum, ..NOTHING };
        let Answer { first, second, third, .. } = Side::of(engine, &batch(&model, &moves, 0)).answer;
        assert_eq!((second, third), (0, 0), "a search variable is not evaluated");
        figures_are(engine, "1,000 moves", &batch(&model, &moves, 0), Answer { first, ..figures }, &[(0, 1000)]);
    }
}

/// The refusal of a batch on both sides: 1,000 moves, a number of pairs for each, and 22 places.
fn refusal_1(engine: &dyn Engine) {
    let model = built(engine, &model_a());
    let (most, more) = (vec![vec![(1, 28801)]; MOST_MOVES], vec![vec![(1, 28801)]; MOST_MOVES + 1]);
    gives(engine, "1,000 moves", &batch(&model, &most, 5), 0, 0);
    gives(engine, "1,001 moves", &batch(&model, &more, 5), 1, 0);
    let few = batch(&model, &some_moves(), 5);
    for moves in [8, MOST_MOVES, MOST_MOVES + 1, usize::MAX, 1 << 62] {
        gives(engine, &format!("{moves} moves of 7"), &with(&few, |case| case.moves = moves), 1, 0);
    }
    gives(engine, "6 moves of 7", &with(&few, |case| case.moves = 6), 0, 0);
    for (places, number) in [(0, 1), (21, 1), (22, 0), (23, 0)] {
        let case = with(&few, |case| case.by_number = vec![77; places].into());
        gives(engine, &format!("{places} places"), &case, number, 0);
        let spoilt = batch(&model_a_spoilt(), &some_moves(), 65535);
        let spoilt = with(&spoilt, |case| case.by_number = vec![77; places].into());
        gives(engine, &format!("{places} places and a model that is refused"), &spoilt, number, 0);
    }
    let Side { answer, .. } = Side::of(engine, &with(&few, |case| case.by_number = vec![77; 21].into()));
    assert_eq!(answer, Answer { number: 1, ..NOTHING }, "refused");
}

/// What a trial refuses is counted: pairs that are not lent, a variable that is not there, another number of blanks, a
/// short table and a table that no call accepts.
fn what_is_refused_is_counted(engine: &dyn Engine) {
    let model = built(engine, &model_a());
    let moves = [vec![(1, 28801), (0, 25201)], vec![(2, 500)], vec![], vec![(1, 28801)]];
    let whole = batch(&model, &moves, 5);
    assert_eq!(Side::of(engine, &whole).left.by_number[0], 4);
    for (lent, accepted) in [(4, 4), (3, 3), (2, 2), (1, 1), (0, 1)] {
        for which in 0..3 {
            let short = with(&whole, |case| {
                if which != 1 {
                    case.move_vars.edit(|vars| vars.truncate(lent));
                }
                if which != 0 {
                    case.move_values.edit(|values| values.truncate(lent));
                }
            });
            let left = Side::of(engine, &short).left;
            assert_eq!(left.by_number[..2], [accepted, 4 - accepted], "{lent} pairs lent");
        }
    }
    let all = |what: &str, number: usize, case: Case| figures_are(engine, what, &case, NOTHING, &[(number, 4)]);
    all("no such variable", 13, batch(&model, &moves, 6));
    all("blanks", 19, with(&whole, |case| case.session.blanks = 1));
    all("a kind", 2, with(&whole, |case| case.kinds[0] = 10));
    all("bounds", 4, with(&whole, |case| case.lows[3] = 0));
    all("an order", 8, with(&whole, |case| case.order.swap(0, 2)));
    all("a search value", 7, with(&whole, |case| case.stored[2] = BLANK).counted());
    all("n", 1, with(&whole, |case| case.n = 4097));
    let tables = one_short(&whole)
        .into_iter()
        .filter(|short| short.by_number.len() == NUMBERS && short.move_pairs.len() == 4 && short.move_vars.len() == 4);
    for short in tables.filter(|short| short.move_values.len() == 4) {
        all("a short table", 1, short);
    }
    let far = with(&whole, |case| case.move_pairs[0] = 65);
    assert_eq!(Side::of(engine, &far).left.by_number[1], 3, "65 pairs, and none left for the others but the empty one");
}

impl Case {
    /// The case with its number of blanks put right.
    fn counted(mut self) -> Case {
        self.count_blanks();
        self
    }
}

/// All tests by name.
pub const FIGURES: &[Test] = &[
    ("figures of model A", figures_of_model_a),
    ("results without a value", results_without_a_value),
    ("the whole range", the_whole_range),
    ("figures: 1", refusal_1),
    ("what is refused is counted", what_is_refused_is_counted),
];

/// Random batches on random models, whole and damaged, and some of them held to the engine's own trials of their moves.
///
/// # Panics
/// If the engine differs from the second implementation or from its own trials, or if an answer hardly ever came.
pub fn random_batches(engine: &dyn Engine) {
    batches(engine, |random, round| if round % 100 == 0 { any_model(random) } else { tiny_model(random) });
}

/// The same over tiny models only, for an engine that takes its time.
///
/// # Panics
/// If the engine differs from the second implementation or from its own trials, or if an answer hardly ever came.
pub fn tiny_batches(engine: &dyn Engine) {
    batches(engine, |random, _| tiny_model(random));
}

/// A tiny model, many of them with closed chains.
pub(crate) fn tiny_model(random: &mut Random) -> Case {
    if random.below(5) < 2 { interlined(random, Sizes::TINY) } else { model(random, Sizes::TINY) }
}

fn batches(engine: &dyn Engine, draw_model: impl Fn(&mut Random, usize) -> Case) {
    let seed = seed();
    println!("seed {seed}");
    let mut random = Random::new(seed);
    let (mut refused, mut by_number, mut blanks, mut values) = (0, [0; NUMBERS], 0, 0);
    for round in 0..BATCHES {
        let model = draw_model(&mut random, round);
        let case = draw(&mut random, &model);
        let differs = |found: Box<Difference>| panic!("seed {seed}\n{}", shrink(engine, &Second, found));
        let Side { answer, left } = agreed(engine, &Second, &case).unwrap_or_else(differs);
        refused += usize::from(answer.number == 1);
        if answer.number == 0 {
            by_number.iter_mut().zip(left.by_number.iter()).for_each(|(all, &moves)| *all += moves as usize);
            blanks += usize::from(answer.blank > 0);
            values += usize::from(answer.least != BLANK);
            if round % 20 == 0 {
                by_trials(engine, &case, answer, &left);
            }
        }
    }
    println!("{refused} refused, {by_number:?}, {blanks} with blanks, {values} with values");
    let never = [6, 9, 14, 15, 16, 18];
    let often = |number: usize| if never.contains(&number) { by_number[number] == 0 } else { by_number[number] > 50 };
    assert!((0..NUMBERS).all(often), "every number of a trial by a route: {by_number:?}");
    assert!(refused > 100 && blanks > 100 && values > 1_000, "refused, blank and of value");
}

/// Random moves on a model that was built, most of them good.
pub(crate) fn draw_moves(random: &mut Random, built: &Case) -> Vec<Pairs> {
    let mut moves: Vec<Pairs> = Vec::new();
    for _ in 0..random.below(8) {
        let mut moved = Case { call: Call::Keep, ..built.clone() };
        draw_move(random, &mut moved);
        match random.below(8) {
            0 => damage(random, &mut moved),
            1 => move_outside(random, &mut moved),
            2 => moved.move_vars.iter_mut().take(1).for_each(|variable| *variable = random.below(9) as u16),
            3 => moved.move_values.iter_mut().take(1).for_each(|value| *value = BLANK),
            4 | 5 => moved.move_values.iter_mut().for_each(|value| *value = random.between(-1, 3)),
            _ => {}
        }
        let pairs = moved.move_vars.iter().copied().zip(moved.move_values.iter().copied());
        let mut pairs: Pairs = pairs.take(moved.pairs.min(70)).collect();
        if random.once_in(12) {
            pairs.extend_from_within(..pairs.len().min(1));
        }
        moves.push(pairs);
    }
    moves
}

/// A model that was built, at times with a stored value that no call left.
pub(crate) fn draw_built(random: &mut Random, model: &Case) -> Case {
    let mut built = model.clone();
    Second.answer(&mut built);
    if random.once_in(12) {
        let variable = random.below(built.n);
        built.stored.put(variable, random.between(-2, 9));
        built.count_blanks();
    }
    built
}

/// A random batch on a model: most of its moves good, at times with something wrong in what it is lent.
fn draw(random: &mut Random, model: &Case) -> Case {
    let built = draw_built(random, model);
    let moves = draw_moves(random, &built);
    let asked = if random.once_in(12) { random.below(65536) } else { random.below(built.n) };
    let mut case = batch(&built, &moves, asked as u16);
    case.by_number = Guarded::junk(random, NUMBERS);
    match random.below(14) {
        0 | 1 => {
            // what a trial is lent made wrong, the move apart
            let mut wrong = Case { call: Call::Trial, ..built };
            damage(random, &mut wrong);
            let Case { moves, move_pairs, move_vars, move_values, asked, by_number, .. } = case;
            case = Case { call: Call::Figures, moves, move_pairs, move_vars, move_values, asked, by_number, ..wrong };
        }
        2 => shorten(random, &mut case),
        3 => case.moves = random.pick(&[case.moves + 1, 1001, usize::MAX, case.moves.saturating_sub(1)]),
        4 => case.session.blanks = random.below(4) as u32,
        5 => case.kinds.put(random.below(case.m), random.pick(&[0, 10, 65535])),
        6 => {
            let makes = case.makes.first().copied().unwrap_or(0);
            case.makes.put(random.below(case.m), makes);
        }
        _ => {}
    }
    if random.once_in(3) {
        lengthen(random, &mut case);
    }
    case
}

/// Holds the figures of an accepted batch to the trial of each of its moves by each route.
fn by_trials(engine: &dyn Engine, case: &Case, answer: Answer, left: &Case) {
    let mut sums = [0u32; 3];
    let (mut results, mut by_number, mut at) = (Vec::new(), vec![0u32; NUMBERS], 0);
    for &pairs in case.move_pairs.iter().take(case.moves) {
        let end = at + usize::from(pairs);
        let vars = case.move_vars.iter().skip(at).take(pairs.into()).copied().collect::<Vec<u16>>();
        let values = case.move_values.iter().skip(at).take(pairs.into()).copied().collect::<Vec<i32>>();
        at = end;
        for route in 1..=3 {
            let room = Case { n: case.n.min(4096), ..case.clone() };
            let tried = Case {
                n: case.n,
                pairs: pairs.into(),
                move_vars: vars.clone().into(),
                move_values: values.clone().into(),
                reasons: vec![0; case.n.min(4096)].into(),
                ..trial(&room, &[], &[case.asked as u16], route)
            };
            let tried = with(&tried, |case| {
                case.flags = vec![0; case.n.min(4096)].into();
            });
            let side = Side::of(engine, &tried);
            sums[route as usize - 1] += side.answer.evaluations;
            if route == 1 {
                by_number[side.answer.number as usize] += 1;
                results.extend((side.answer.number == 0).then(|| side.left.results[0]));
            }
        }
    }
    let values = || results.iter().copied().filter(|&result| result != BLANK);
    let figures = Answer {
        blank: (results.len() - values().count()) as u32,
        least: values().min().unwrap_or(BLANK),
        greatest: values().max().unwrap_or(BLANK),
        sum: values().map(i64::from).sum(),
        first: sums[0],
        second: sums[1],
        third: sums[2],
        ..NOTHING
    };
    assert_eq!((answer, &left.by_number[..NUMBERS]), (figures, &by_number[..]), "by its own trials");
}
