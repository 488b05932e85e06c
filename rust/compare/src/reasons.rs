//! Why values are blank, as tests of any engine: the reason of every formula over every kind of inputs, what each call
//! stores and gives, and what it leaves as it stands.

use second::BLANK;

use crate::runs::{built, keep, model_a, take_back, trial};
use crate::{Case, Engine, Row, Side, Test, chain, of_rows};

const HIGH: i32 = i32::MAX;
const LOW: i32 = -HIGH;

/// Kind, inputs and the reason; parameter and coefficients are 1 where they may be.
const EXAMPLES: &[(u16, &[i32], u8)] = &[
    (1, &[5], 0),
    (1, &[HIGH], 1),
    (1, &[HIGH, -1], 0),
    (1, &[LOW, -1], 0),
    (1, &[LOW, -2], 1),
    (1, &[BLANK], 4),
    (1, &[HIGH, HIGH, BLANK], 4),
    (2, &[BLANK, 5], 0),
    (2, &[BLANK, BLANK], 4),
    (2, &[LOW], 0),
    (3, &[5, BLANK], 0),
    (3, &[BLANK], 4),
    (4, &[0, 7, BLANK], 0),
    (4, &[1, 7, BLANK], 4),
    (4, &[BLANK, 7], 4),
    (4, &[BLANK, BLANK], 4),
    (4, &[2, 7, BLANK], 2),
    (4, &[2, BLANK, BLANK], 2),
    (4, &[-1, BLANK, 7], 2),
    (4, &[LOW, 7], 2),
    (4, &[HIGH, 7], 2),
    (5, &[4, BLANK], 4),
    (5, &[4, 4], 0),
    (6, &[BLANK, 1], 4),
    (6, &[2, 3], 0),
    (7, &[HIGH, -1], 1),
    (7, &[HIGH, 0], 0),
    (7, &[LOW, HIGH], 0),
    (7, &[5, BLANK], 4),
    (7, &[BLANK, 5], 4),
    (8, &[BLANK, 9, 0], 4),
    (8, &[1, BLANK, -1], 4),
    (8, &[1, 9, BLANK], 4),
    (8, &[1, 9, 0], 3),
    (8, &[9, 9, -5], 3),
    (8, &[1, 9, LOW], 3),
    (8, &[9, 9, 2], 0),
    (8, &[LOW, HIGH, 1], 1),
    (8, &[LOW, HIGH, 2], 0),
    (8, &[LOW, HIGH, 0], 3),
    (9, &[LOW, HIGH, 1], 0),
    (9, &[9, 9, 2], 5),
    (9, &[9, 1, 2], 5),
    (9, &[HIGH, LOW, 1], 5),
    (9, &[9, 9, 0], 3),
    (9, &[9, 1, -1], 3),
    (9, &[9, BLANK, 0], 4),
    (9, &[BLANK, 9, 9], 4),
    (9, &[1, 9, BLANK], 4),
];

/// What an accepted call leaves.
fn left(engine: &dyn Engine, case: &Case) -> Case {
    let side = Side::of(engine, case);
    assert_eq!(side.answer.number, 0, "{:?} is accepted", case.call);
    side.left
}

/// A build of one formula: its inputs are variables 0 and on, then comes the variable that it makes, and then one that is 1.
/// A blank input is the LAST of an empty window of that.
fn of_formula(kind: u16, inputs: &[i32]) -> Case {
    let made = inputs.len() as u16;
    let parameter = i32::from(kind == 1 || kind == 6);
    let entries = (0..made).map(|input| (input, 1)).collect();
    let mut rows = vec![Row { kind, makes: made, parameter, entries }];
    let blank = |input: &u16| inputs[usize::from(*input)] == BLANK;
    rows.extend((0..made).filter(blank).map(|input| Row::plain(9, input, &[made + 1; 3])));
    let valued = inputs.iter().map(|&input| if input == BLANK { 0 } else { input });
    let mut case = of_rows(valued.chain([0, 1]).collect(), &rows);
    case.reasons.fill(99);
    case
}

/// The reason of every formula: build stores it, a trial by route 2 gives it, and so do a keep that changes an input to what
/// it is and every trial of that move; taken back, the reasons are those before it.
fn every_formula(engine: &dyn Engine) {
    for &(kind, inputs, reason) in EXAMPLES {
        let what = format!("kind {kind} of {inputs:?}");
        let made = inputs.len() as u16;
        let model = built(engine, &of_formula(kind, inputs));
        let others = inputs.iter().map(|&input| if input == BLANK { 5 } else { 0 });
        assert_eq!(*model.reasons, *others.chain([reason, 0]).collect::<Vec<u8>>(), "{what}");

        let mut any = model.clone();
        any.reasons.fill(99);
        assert_eq!(*left(engine, &trial(&any, &[], &[made, made + 1], 2)).why, [reason, 99], "{what}");

        let Some(moved) = inputs.iter().position(|&input| input != BLANK) else { continue };
        let mut before = inputs.to_vec();
        before[moved] = if inputs[moved] == 3 { 4 } else { 3 };
        let pair = [(moved as u16, inputs[moved])];
        let before = built(engine, &of_formula(kind, &before));
        for route in 1..=3 {
            assert_eq!(*left(engine, &trial(&before, &pair, &[made], route)).why, [reason], "{what}, route {route}");
        }
        let kept = left(engine, &keep(&before, &pair));
        assert_eq!((&*kept.stored, &*kept.reasons), (&*model.stored, &*model.reasons), "{what}, kept");
        let taken = left(engine, &take_back(&kept));
        assert_eq!((&*taken.stored, &*taken.reasons), (&*before.stored, &*before.reasons), "{what}, taken back");
    }
}

/// Model A with other values of its window, and with bytes that mean nothing where its reasons go.
fn window(start: i32, end: i32, headway: i32) -> Case {
    let mut case = model_a();
    case.starts[..3].copy_from_slice(&[start, end, headway]);
    case.reasons = vec![1, 2, 3, 4, 5, 6].into();
    case
}

/// Model A over windows with and without departures: build stores a reason for each variable.
fn model_a_is_built(engine: &dyn Engine) {
    for (start, end, headway, reasons) in [
        (25200, 28800, 600, [0; 6]),
        (25200, 28800, 0, [0, 0, 0, 3, 3, 4]),
        (25200, 28800, -1, [0, 0, 0, 3, 3, 4]),
        (25200, 25200, 600, [0, 0, 0, 0, 5, 0]),
        (25200, 0, 600, [0, 0, 0, 0, 5, 0]),
        (LOW, HIGH, 1, [0, 0, 0, 1, 0, 4]),
        (0, HIGH, 1, [0, 0, 0, 0, 0, 1]),
    ] {
        assert_eq!(*built(engine, &window(start, end, headway)).reasons, reasons, "{start} to {end} every {headway}");
    }
}

/// A keep and a taking back put a reason where a formula was evaluated, and 0 at search variables, whatever stood there; the
/// other variables keep theirs, and so does what lies beyond.
fn what_is_not_evaluated_stays(engine: &dyn Engine) {
    let mut model = built(engine, &model_a());
    model.reasons = vec![200, 201, 202, 203, 204, 205, 206, 207].into();
    for (moved, reasons) in [
        (&[][..], [0, 0, 0, 203, 204, 205, 206, 207]),
        (&[(1, 28800)], [0, 0, 0, 203, 204, 205, 206, 207]),
        (&[(1, 28500)], [0, 0, 0, 0, 0, 205, 206, 207]),
        (&[(1, 28801)], [0, 0, 0, 0, 0, 0, 206, 207]),
        (&[(1, 25200)], [0, 0, 0, 0, 5, 0, 206, 207]),
        (&[(2, 0)], [0, 0, 0, 3, 3, 4, 206, 207]),
    ] {
        assert_eq!(*left(engine, &keep(&model, moved)).reasons, reasons, "{moved:?} kept");
        let mut logged = model.clone().with_moves(&[moved.to_vec()]);
        logged.session.kept = 1;
        assert_eq!(*left(engine, &take_back(&logged)).reasons, reasons, "{moved:?} taken back");
    }
}

/// A trial gives the reason of an asked variable over the new values if it was evaluated, and else what is stored; it stores
/// nothing, and what lies beyond the asked places stays.
fn what_a_trial_gives(engine: &dyn Engine) {
    let mut model = built(engine, &model_a());
    model.reasons = vec![200, 201, 202, 203, 204, 205, 206].into();
    for (moved, asked, route, why) in [
        (&[][..], &[0, 1, 2, 3, 4, 5][..], 1, &[200, 201, 202, 203, 204, 205][..]),
        (&[], &[5, 2], 2, &[0, 202]),
        (&[], &[4, 5, 4], 3, &[204, 205, 204]),
        (&[(1, 28500)], &[5, 4, 1], 1, &[205, 0, 201]),
        (&[(1, 28500)], &[5, 4, 1], 2, &[0, 0, 201]),
        (&[(1, 28500)], &[5, 4, 1], 3, &[0, 0, 201]),
        (&[(1, 25200)], &[4, 4], 3, &[5, 5]),
        (&[(2, 0)], &[5], 1, &[4]),
        (&[(2, 0)], &[5, 3], 2, &[4, 3]),
        (&[(2, 0)], &[3], 3, &[3]),
        (&[(2, 0)], &[], 1, &[]),
    ] {
        let mut tried = trial(&model, moved, asked, route);
        tried.why.edit(|why| why.extend([77, 78]));
        let after = left(engine, &tried);
        assert_eq!(*after.why, *[why, &[77, 78]].concat(), "{moved:?} by route {route}");
        assert_eq!(after.reasons, model.reasons, "a trial stores no reason");
    }
}

/// Over stored values and reasons that the calls left, a trial gives the same reasons by every route, and a keep stores these.
fn the_routes_agree(engine: &dyn Engine) {
    let rows = [
        Row::plain(8, 4, &[0, 1, 2]),
        Row::plain(9, 5, &[0, 1, 2]),
        Row::plain(4, 6, &[3, 4, 5]),
        Row::plain(3, 7, &[5, 6]),
        Row { kind: 1, makes: 8, parameter: 0, entries: vec![(4, 1000), (4, 1000)] },
    ];
    let mut model = built(engine, &of_rows(vec![25200, 28800, 600, 0, 0, 0, 0, 0, 0], &rows));
    let all: Vec<u16> = (0..9).collect();
    for (moved, reasons) in [
        (&[(3, 1)][..], [0, 0, 0, 0, 0, 0, 0, 0, 0]),
        (&[(1, 25200)], [0, 0, 0, 0, 0, 5, 4, 4, 0]),
        (&[(3, 2)], [0, 0, 0, 0, 0, 5, 2, 4, 0]),
        (&[(2, 0), (3, 0)], [0, 0, 0, 0, 3, 3, 4, 4, 4]),
        (&[(2, 1), (1, HIGH), (0, 0)], [0, 0, 0, 0, 0, 0, 0, 0, 1]),
        (&[(0, LOW)], [0, 0, 0, 0, 1, 0, 4, 0, 4]),
        (&[(2, -1), (3, -1)], [0, 0, 0, 0, 3, 3, 2, 4, 4]),
    ] {
        for route in 1..=3 {
            let after = left(engine, &trial(&model, moved, &all, route));
            assert_eq!(*after.why, reasons, "{moved:?} by route {route}");
        }
        let kept = left(engine, &keep(&model, moved));
        assert_eq!(*kept.reasons, reasons, "{moved:?} kept");
        assert_eq!(*left(engine, &take_back(&kept)).reasons, *model.reasons, "{moved:?} taken back");
        model = kept;
    }
}

/// Stored reasons are not checked: any byte may stand there, and is handed on or left.
fn any_byte_may_stand(engine: &dyn Engine) {
    let model = built(engine, &model_a());
    for byte in 0..=255 {
        let any = Case { reasons: vec![byte; 6].into(), ..model.clone() };
        assert_eq!(*left(engine, &trial(&any, &[(1, 28500)], &[0, 5, 4], 1)).why, [byte, byte, 0]);
        let kept = left(engine, &keep(&any, &[(1, 28500)]));
        assert_eq!(*kept.reasons, [0, 0, 0, 0, 0, byte]);
        assert_eq!(*left(engine, &take_back(&Case { reasons: any.reasons, ..kept })).reasons, [0, 0, 0, 0, 0, byte]);
    }
}

/// Over stored values that no call left a reason goes with the value that was worked out, on each route by its own rule.
fn stale_values(engine: &dyn Engine) {
    let mut model = built(engine, &model_a());
    model.stored[3] = BLANK;
    model.reasons.fill(9);
    model.count_blanks();
    for (moved, route, why) in [
        (&[][..], 1, [9, 9, 9]),
        (&[], 2, [0, 0, 0]),
        (&[], 3, [9, 9, 9]),
        (&[(1, 28801)], 1, [0, 0, 0]),
        (&[(1, 25200)], 2, [0, 5, 0]),
        (&[(2, 0)], 1, [3, 3, 9]),
        (&[(2, 0)], 3, [3, 3, 4]),
    ] {
        let after = left(engine, &trial(&model, moved, &[3, 4, 5], route));
        assert_eq!(*after.why, why, "{moved:?} by route {route}");
    }
    assert_eq!(*left(engine, &keep(&model, &[(2, 0)])).reasons, [0, 0, 0, 3, 3, 9]);
}

/// 4,096 variables, all but one made and blank, for one reason and then for another.
fn reasons_of_4096_variables(engine: &dyn Engine) {
    let rows: Vec<Row> = (1..4096).map(|makes| Row::plain(9, makes, &[0; 3])).collect();
    let mut build = of_rows(vec![0; 4096], &rows);
    build.reasons.fill(99);
    let all = |reason: u8| [vec![0], vec![reason; 4095]].concat();
    let model = built(engine, &build);
    assert_eq!(*model.reasons, *all(3));
    let asked: Vec<u16> = (4064..4096).collect();
    for route in 1..=3 {
        assert_eq!(*left(engine, &trial(&model, &[(0, 5)], &asked, route)).why, [5; 32]);
    }
    let kept = left(engine, &keep(&model, &[(0, 5)]));
    assert_eq!(*kept.reasons, *all(5), "blank before and after, and evaluated all the same");
    assert_eq!(*left(engine, &take_back(&kept)).reasons, *all(3));
}

/// A chain of 4,095 rows whose sum leaves the range after some of them, and stops all others.
fn reasons_along_the_longest_chain(engine: &dyn Engine) {
    let model = built(engine, &chain(1, 4095, 4, 1));
    let reason = |variable: usize| match variable {
        0..16 => 0,
        16 => 1,
        _ => 4,
    };
    assert_eq!(*model.reasons, *(0..4096).map(reason).collect::<Vec<u8>>());
    let kept = left(engine, &keep(&model, &[(0, 0)]));
    assert_eq!(*kept.reasons, [0; 4096]);
    assert_eq!(*left(engine, &take_back(&kept)).reasons, *model.reasons);
    for route in 1..=3 {
        assert_eq!(*left(engine, &trial(&model, &[(0, 2)], &[4095, 16, 15, 14], route)).why, [4, 4, 1, 0]);
    }
}

/// All of them by name.
pub const REASONS: &[Test] = &[
    ("every formula", every_formula),
    ("model A", model_a_is_built),
    ("what is not evaluated stays", what_is_not_evaluated_stays),
    ("what a trial gives", what_a_trial_gives),
    ("the routes agree", the_routes_agree),
    ("any byte may stand", any_byte_may_stand),
    ("stale values", stale_values),
    ("4,096 variables", reasons_of_4096_variables),
    ("the longest chain", reasons_along_the_longest_chain),
];
