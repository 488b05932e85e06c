//! Keeping with a log and taking back, as tests of any engine: each asserts what comes back and what is left.

use second::{BLANK, MOST_LOGGED, MOST_PAIRS};

use crate::runs::{built, keep, model_a, take_back, trial};
use crate::{Answer, Case, Engine, Row, Side, Test, of_rows};

/// What an accepted call leaves.
fn left(engine: &dyn Engine, case: &Case) -> Case {
    let side = Side::of(engine, case);
    assert_eq!(side.answer.number, 0, "{:?} is accepted", case.call);
    assert_eq!(side.answer.evaluations, side.left.session.evaluations);
    assert_eq!(side.left.session.blanks, side.left.blanks());
    side.left
}

/// Model A after a build by the engine, with other numbers than 0 wherever its log has room.
fn with_full_rows(engine: &dyn Engine) -> Case {
    let mut model = built(engine, &model_a()).with_log();
    model.log_sizes[1..].fill(700);
    (0..).zip(model.log_vars.iter_mut()).for_each(|(place, variable)| *variable = 9000 + place);
    (0..).zip(model.log_values.iter_mut()).for_each(|(place, value)| *value = 9000 + place);
    model
}

/// Asserts that the log of a case is that of another but for these fields: rows sizes, variables, values; place, field.
fn log_is(case: &Case, before: &Case, sizes: &[(usize, u16)], vars: &[(usize, u16)], values: &[(usize, i32)]) {
    let mut expected = before.clone();
    sizes.iter().for_each(|&(place, size)| expected.log_sizes[place] = size);
    vars.iter().for_each(|&(place, variable)| expected.log_vars[place] = variable);
    values.iter().for_each(|&(place, value)| expected.log_values[place] = value);
    assert_eq!(*case.log_sizes, *expected.log_sizes, "sizes");
    assert_eq!(*case.log_vars, *expected.log_vars, "variables");
    assert_eq!(*case.log_values, *expected.log_values, "values");
}

/// A kept move is noted with the values before it, and taking it back leaves these, with route 1's flags and count.
fn a_move_taken_back(engine: &dyn Engine) {
    let model = with_full_rows(engine);
    let kept = left(engine, &keep(&model, &[(1, 28801)]));
    log_is(&kept, &model, &[(0, 1), (1, 1)], &[(0, 1)], &[(0, 28800)]);
    assert_eq!(*kept.stored, [25200, 28801, 600, 7, 28800, 30]);
    let taken = Side::of(engine, &take_back(&kept));
    assert_eq!(taken.answer, Answer { evaluations: 3, ..Answer::default() });
    let taken = taken.left;
    assert_eq!(*taken.stored, [25200, 28800, 600, 6, 28200, 26]);
    assert_eq!(*taken.flags, [0, 0, 0, 1, 1, 1]);
    assert_eq!((taken.session.kept, taken.session.evaluations), (0, 3));
    log_is(&taken, &kept, &[(0, 0)], &[], &[]);
}

/// Pairs are noted in the order of the move, those of the second move from place 64 on; what comes out equal ends route 1.
fn moves_one_after_another(engine: &dyn Engine) {
    let model = with_full_rows(engine);
    let first = left(engine, &keep(&model, &[(2, 300), (0, 25200)]));
    log_is(&first, &model, &[(0, 1), (1, 2)], &[(0, 2), (1, 0)], &[(0, 600), (1, 25200)]);
    let second = left(engine, &keep(&first, &[(1, 28700)]));
    log_is(&second, &first, &[(0, 2), (2, 1)], &[(64, 1)], &[(64, 28800)]);
    assert_eq!(*second.stored, [25200, 28700, 300, 12, 28500, 50]);
    let once = left(engine, &take_back(&second));
    assert_eq!((*once.flags == [0, 0, 0, 1, 1, 0], once.session.evaluations), (true, 2));
    assert_eq!((&*once.stored, once.session.kept), (&*first.stored, 1));
    log_is(&once, &second, &[(0, 1)], &[], &[]);
    let twice = left(engine, &take_back(&once));
    assert_eq!((&*twice.stored, twice.session.kept), (&*model.stored, 0));
    assert_eq!(Side::of(engine, &take_back(&twice)).answer.number, 15);
}

/// An accepted empty move is logged, and so is one that changes nothing; taking them back evaluates nothing.
fn moves_that_change_nothing(engine: &dyn Engine) {
    let model = with_full_rows(engine);
    for moved in [&[][..], &[(1, 28800)]] {
        let kept = left(engine, &keep(&model, moved));
        assert_eq!((kept.logged(), kept.session.kept), (1, 1));
        let taken = left(engine, &take_back(&kept));
        assert_eq!((&*taken.stored, &*taken.flags), (&*model.stored, &[0; 6][..]));
        assert_eq!((taken.session.kept, taken.session.evaluations), (0, 0));
    }
    let empty = left(engine, &keep(&model, &[]));
    log_is(&empty, &model, &[(0, 1), (1, 0)], &[], &[]);
}

/// The 65th move pushes out the oldest: all places move up by one move, and 64 moves can be taken back.
fn the_oldest_is_pushed_out(engine: &dyn Engine) {
    let mut model = with_full_rows(engine);
    for k in 0..64 {
        model = left(engine, &keep(&model, &[(1, 28800 + 60 * k)]));
    }
    assert_eq!((model.log_sizes[0], model.session.kept), (64, 64));
    let full = model.clone();
    let (oldest, pushed) = (full.log_values[0], left(engine, &keep(&full, &[(1, 0), (0, 7)])));
    assert_eq!((oldest, pushed.session.kept), (28800, 65));
    assert_eq!((pushed.log_sizes[0], &pushed.log_sizes[1..64]), (64, &full.log_sizes[2..]));
    assert_eq!(pushed.log_sizes[64], 2);
    assert_eq!((&pushed.log_vars[..4032], &pushed.log_values[..4032]), (&full.log_vars[64..], &full.log_values[64..]));
    assert_eq!((&pushed.log_vars[4032..4034], &pushed.log_values[4032..4034]), (&[1, 0][..], &[32580, 25200][..]));
    assert_eq!(
        (&pushed.log_vars[4034..], &pushed.log_values[4034..]),
        (&full.log_vars[4034..], &full.log_values[4034..])
    );
    let mut model = pushed;
    for k in (0..64).rev() {
        model = left(engine, &take_back(&model));
        assert_eq!((model.stored[1], model.session.kept), (28800 + 60 * k, k as u32 + 1));
    }
    let spent = Side::of(engine, &take_back(&model));
    assert_eq!((spent.answer.number, spent.left.session.kept), (15, 1));
}

/// The room that a move taken back gives up is used again.
fn room_is_used_again(engine: &dyn Engine) {
    let model = with_full_rows(engine);
    let first = left(engine, &keep(&model, &[(1, 28801)]));
    let second = left(engine, &keep(&first, &[(2, 300), (1, 28802)]));
    let once = left(engine, &take_back(&second));
    let third = left(engine, &keep(&once, &[(0, 1)]));
    log_is(&third, &once, &[(0, 2), (2, 1)], &[(64, 0)], &[(64, 25200)]);
    let back = left(engine, &take_back(&left(engine, &take_back(&third))));
    assert_eq!((&*back.stored, back.session.kept), (&*model.stored, 0));
}

/// The number kept falls by one, but not from its ceiling.
fn the_number_kept(engine: &dyn Engine) {
    for (before, after) in [(1, 0), (64, 63), (u32::MAX - 1, u32::MAX - 2), (u32::MAX, u32::MAX)] {
        let mut model = built(engine, &model_a()).with_moves(&[vec![(1, 28801)]]);
        model.session.kept = before;
        let taken = left(engine, &take_back(&model));
        assert_eq!((taken.session.kept, taken.stored[1], taken.logged()), (after, 28801, 0));
    }
}

/// Build empties the log, and leaves all else that stands in its sizes.
fn build_empties_the_log(engine: &dyn Engine) {
    let mut build = model_a();
    build.log_sizes =
        (0..=65).map(|place| 64 - place).collect::<Vec<u16>>().into_iter().chain([5]).collect::<Vec<_>>().into();
    let before = build.log_sizes.clone();
    let model = built(engine, &build);
    assert_eq!((model.log_sizes[0], &model.log_sizes[1..]), (0, &before[1..]));
    assert_eq!(Side::of(engine, &take_back(&model)).answer.number, 15);
}

/// Over stored values and a log that no call left, taking back is the keep of the logged pairs.
fn stale_values_and_logs(engine: &dyn Engine) {
    let mut model = built(engine, &model_a()).with_moves(&[vec![(0, 0)], vec![(1, 28801), (2, 600)]]);
    model.session.kept = 9;
    model.stored[5] = BLANK;
    model.stored[3] = 7;
    model.count_blanks();
    let taken = left(engine, &take_back(&model));
    assert_eq!(*taken.stored, [25200, 28801, 600, 7, 28800, BLANK]);
    assert_eq!((&*taken.flags, taken.session.kept, taken.session.blanks), (&[0, 0, 0, 1, 1, 0][..], 8, 1));
    let kept = left(engine, &keep(&model, &[(1, 28801), (2, 600)]));
    assert_eq!((taken.stored, taken.flags), (kept.stored, kept.flags));
}

/// Keeps and takings back from bound to bound; a refused one in between is not logged.
fn within_bounds(engine: &dyn Engine) {
    let build = model_a().with_bounds(2, 300, 900).with_bounds(1, 28800, 28801);
    let mut model = built(engine, &build).with_log();
    let mut before = Vec::new();
    for moved in [&[(2, 900)][..], &[(2, 300), (1, 28801)], &[(2, 300)], &[(1, 28800), (2, 600)]] {
        let outside = Side::of(engine, &keep(&model, &[(2, 901)]));
        assert_eq!((outside.answer.number, outside.answer.place), (17, 0));
        before.push(model.stored.clone());
        model = left(engine, &keep(&model, moved));
    }
    let narrower = Side::of(engine, &take_back(&model.clone().with_bounds(2, 301, 900)));
    assert_eq!(narrower.answer.number, 16, "300 is in the log");
    for stored in before.into_iter().rev() {
        model = left(engine, &take_back(&model));
        assert_eq!(*model.stored, *stored);
    }
    assert_eq!(Side::of(engine, &take_back(&model)).answer.number, 15);
}

/// Trials between a keep and its taking back change nothing of it, and are not lent the log.
fn trials_in_between(engine: &dyn Engine) {
    let model = built(engine, &model_a());
    let kept = left(engine, &keep(&model, &[(1, 28801)]));
    let tried = left(engine, &trial(&kept, &[(2, 0)], &[3], 2));
    assert_eq!((tried.session.kept, &*tried.stored), (1, &*kept.stored));
    let taken = left(engine, &take_back(&Case { session: tried.session, ..kept }));
    assert_eq!(*taken.stored, *model.stored);
}

/// A move of 64 pairs fills its places, and is taken back whole; 64 of them fill the log.
fn moves_of_64_pairs(engine: &dyn Engine) {
    let sum = Row::plain(1, 70, &(0..70).collect::<Vec<u16>>());
    let mut model = built(engine, &of_rows([(0..70).collect(), vec![0]].concat(), &[sum]));
    let mut before = Vec::new();
    for k in 0..65u16 {
        let pairs: Vec<(u16, i32)> = (0..64).map(|pair| ((pair * 3 + k) % 70, i32::from(pair * k))).collect();
        let kept = left(engine, &keep(&model, &pairs));
        let at = MOST_PAIRS * usize::from(k).min(63);
        let earlier: Vec<i32> = pairs.iter().map(|&(variable, _)| model.stored[usize::from(variable)]).collect();
        assert_eq!(kept.log_values[at..at + 64], earlier);
        before.push(std::mem::replace(&mut model, kept).stored);
    }
    assert_eq!(*model.log_sizes, [64; 65]);
    for stored in before.iter().rev().take(MOST_LOGGED) {
        model = left(engine, &take_back(&model));
        assert_eq!(model.stored, *stored);
    }
    assert_eq!(Side::of(engine, &take_back(&model)).answer.number, 15);
}

/// Rows of the log that are longer than needed are untouched beyond that.
fn longer_rows(engine: &dyn Engine) {
    let mut build = model_a();
    build.log_sizes.edit(|sizes| sizes.push(77));
    let mut model = built(engine, &build);
    model.session.kept = 64;
    model = model.with_moves(&vec![vec![(1, 5)]; 64]);
    model.log_vars.edit(|vars| vars.push(78));
    model.log_values.edit(|values| values.push(79));
    for after in [left(engine, &keep(&model, &[(1, 28801)])), left(engine, &take_back(&model))] {
        assert_eq!((after.log_sizes.len(), after.log_vars.len(), after.log_values.len()), (66, 4097, 4097));
        assert_eq!((after.log_sizes[65], after.log_vars[4096], after.log_values[4096]), (77, 78, 79));
    }
}

/// All of them by name.
pub const TAKINGS: &[Test] = &[
    ("a move taken back", a_move_taken_back),
    ("moves one after another", moves_one_after_another),
    ("moves that change nothing", moves_that_change_nothing),
    ("the oldest is pushed out", the_oldest_is_pushed_out),
    ("room is used again", room_is_used_again),
    ("the number kept", the_number_kept),
    ("build empties the log", build_empties_the_log),
    ("stale values and logs", stale_values_and_logs),
    ("within bounds", within_bounds),
    ("trials in between", trials_in_between),
    ("moves of 64 pairs", moves_of_64_pairs),
    ("longer rows", longer_rows),
];
