//! Closed chains, as tests of any engine: which are permitted, which choices lead round one, and what the calls then give.

use second::BLANK;

use crate::runs::{built, gives, keep, take_back, trial, with};
use crate::{Answer, Call, Case, Engine, Row, Side, Test, of_rows};

/// Two trips that start at a depot or at the other's end: indices 0 and 1, the depot's time 2, start and end of the first
/// trip 3 and 4, of the second 5 and 6, and the later end 7. Rows stand in no order of their own.
#[must_use]
pub fn two_trips() -> Case {
    let end = |makes, start, time| Row { kind: 1, makes, parameter: time, entries: vec![(start, 1)] };
    let rows = [
        end(4, 3, 10),
        Row::plain(3, 7, &[4, 6]),
        Row::plain(4, 3, &[0, 2, 6]),
        end(6, 5, 20),
        Row::plain(4, 5, &[1, 2, 4]),
    ];
    of_rows(vec![0, 0, 7, 0, 0, 0, 0, 0], &rows)
}

/// Asserts the results, the evaluations and the flags of a trial.
fn tries(engine: &dyn Engine, case: &Case, results: &[i32], evaluated: &[u16]) {
    let side = Side::of(engine, case);
    assert_eq!(side.answer, Answer { evaluations: evaluated.len() as u32, ..Answer::default() });
    assert_eq!(*side.left.results, *results, "results");
    let flags: Vec<u8> = (0..case.n as u16).map(|variable| u8::from(evaluated.contains(&variable))).collect();
    assert_eq!(*side.left.flags, *flags, "flags");
    assert_eq!(side.left.stored, case.stored, "a trial leaves the stored values");
}

/// Every call that moves something on a model that was built, with this move: trials by each route, keep, taking back.
fn calls(built: &Case, pairs: &[(u16, i32)]) -> [Case; 5] {
    let asked: Vec<u16> = (0..built.n.min(32) as u16).collect();
    let mut logged = built.clone().with_moves(&[pairs.to_vec()]);
    logged.session.kept = 1;
    let routes = [1, 2, 3].map(|route| trial(built, pairs, &asked, route));
    let [one, two, three] = routes;
    [one, two, three, keep(built, pairs), take_back(&logged)]
}

/// Asserts that trials by each route, keep and taking back give the same for a move.
fn all_give(engine: &dyn Engine, what: &str, built: &Case, pairs: &[(u16, i32)], number: u32, place: u32) {
    for call in calls(built, pairs) {
        gives(engine, &format!("{what}, {:?} {}", call.call, call.route), &call, number, place);
    }
}

/// Asserts the values and the numbers that a build leaves.
fn builds(engine: &dyn Engine, build: &Case, values: &[i32], numbers: &[u16]) -> Case {
    let left = built(engine, build);
    assert_eq!((&*left.stored, &*left.numbers), (values, numbers));
    left
}

/// Variables of one group have one number, those above it the next; rows of a number stand by their place.
fn the_numbers_of_a_group(engine: &dyn Engine) {
    let model = builds(engine, &two_trips(), &[0, 0, 7, 7, 17, 7, 27, 27], &[0, 0, 0, 1, 1, 1, 1, 2]);
    assert_eq!(*model.order, [0, 2, 3, 4, 1]);
    assert_eq!((model.session.evaluations, model.session.blanks), (5, 0));
    let moved = |a, b| with(&two_trips(), |case| (case.starts[0], case.starts[1]) = (a, b));
    builds(engine, &moved(1, 0), &[1, 0, 7, 27, 37, 7, 27, 37], &[0, 0, 0, 1, 1, 1, 1, 2]);
    builds(engine, &moved(0, 1), &[0, 1, 7, 7, 17, 17, 37, 37], &[0, 0, 0, 1, 1, 1, 1, 2]);
    builds(engine, &moved(1, 2), &[1, 2, 7, BLANK, BLANK, BLANK, BLANK, BLANK], &[0, 0, 0, 1, 1, 1, 1, 2]);
    builds(engine, &moved(-1, 1), &[-1, 1, 7, BLANK, BLANK, BLANK, BLANK, BLANK], &[0, 0, 0, 1, 1, 1, 1, 2]);
}

/// A group's number is 1 plus the greatest among the inputs of all its members from outside it, and groups stand above one
/// another.
fn groups_above_one_another(engine: &dyn Engine) {
    let rows = [
        // 9 is 3 steps up, and only 4 of the group of 3 and 4 reads it
        Row::plain(4, 3, &[0, 4, 1]),
        Row::plain(3, 4, &[3, 9]),
        Row::plain(1, 7, &[1]),
        Row::plain(1, 8, &[7]),
        Row::plain(1, 9, &[8]),
        // the group of 5 and 6 reads 3 of the first as its index
        Row::plain(4, 5, &[3, 6, 2, 2, 5]),
        Row::plain(1, 6, &[5]),
        Row::plain(1, 10, &[6]),
    ];
    let build = of_rows(vec![1, 1, 2, 0, 0, 0, 0, 0, 0, 0, 0], &rows);
    let values = [1, 1, 2, 1, 1, 2, 2, 1, 1, 1, 2];
    let numbers = [0, 0, 0, 4, 4, 5, 5, 1, 2, 3, 6];
    let model = builds(engine, &build, &values, &numbers);
    assert_eq!(*model.order, [2, 3, 4, 0, 1, 5, 6, 7]);
    all_give(engine, "3 round through 4", &model, &[(0, 0)], 20, 3);
    all_give(engine, "index 0 leads 5 round through 6", &model, &[(1, 0)], 20, 5);
    all_give(engine, "index 3 leads 5 to itself", &model, &[(1, 3)], 20, 5);
    all_give(engine, "index 2", &model, &[(1, 2)], 0, 0);
    all_give(engine, "an index that is not determined", &model, &[(0, 0), (1, 2)], 20, 3);
}

/// The specification's last run on ELEMENT: accepted while the choice is harmless, refused where it leads round.
fn an_unchosen_candidate(engine: &dyn Engine) {
    let build = |index| of_rows(vec![index, 7, 0, 0], &[Row::plain(4, 2, &[0, 1, 3]), Row::plain(1, 3, &[2])]);
    let model = builds(engine, &build(0), &[0, 7, 7, 7], &[0, 0, 1, 1]);
    for index in [-1, 2, i32::MAX] {
        builds(engine, &build(index), &[index, 7, BLANK, BLANK], &[0, 0, 1, 1]);
        all_give(engine, "an index outside", &model, &[(0, index)], 0, 0);
    }
    gives(engine, "a build that leads round", &build(1), 20, 2);
    all_give(engine, "a choice that leads round", &model, &[(0, 1)], 20, 2);
    all_give(engine, "a harmless choice", &model, &[(0, 0)], 0, 0);
    all_give(engine, "another value", &model, &[(1, 8)], 0, 0);
    tries(engine, &trial(&model, &[(1, 8)], &[3], 1), &[8], &[2, 3]);
    tries(engine, &trial(&model, &[(1, 8)], &[2], 2), &[8], &[2]);
    tries(engine, &trial(&model, &[(1, 8)], &[2], 3), &[8], &[2]);
    tries(engine, &trial(&model, &[], &[3], 2), &[7], &[2, 3]);
    tries(engine, &trial(&model, &[], &[3], 3), &[7], &[]);
}

/// Route 1 evaluates by any input that differs, chosen or not; routes 2 and 3 follow the choices.
fn routes_inside_a_group(engine: &dyn Engine) {
    let model = built(engine, &two_trips());
    let first_behind = [(0, 1)];
    tries(engine, &trial(&model, &first_behind, &[3, 4, 5, 6, 7], 1), &[27, 37, 7, 27, 37], &[3, 4, 5, 7]);
    tries(engine, &trial(&model, &first_behind, &[7], 2), &[37], &[3, 4, 5, 6, 7]);
    tries(engine, &trial(&model, &first_behind, &[3], 2), &[27], &[3, 5, 6]);
    tries(engine, &trial(&model, &first_behind, &[3], 3), &[27], &[3, 5, 6]);
    tries(engine, &trial(&model, &first_behind, &[5], 2), &[7], &[5]);
    tries(engine, &trial(&model, &[(0, 0)], &[7], 3), &[27], &[]);
    tries(engine, &trial(&model, &[(0, 5)], &[4, 7], 1), &[BLANK, 27], &[3, 4, 5, 7]);
    let kept = Side::of(engine, &keep(&model, &first_behind));
    assert_eq!((kept.answer.number, kept.answer.evaluations), (0, 4));
    assert_eq!(*kept.left.stored, [1, 0, 7, 27, 37, 7, 27, 37]);
    assert_eq!(*kept.left.flags, [0, 0, 0, 1, 1, 1, 0, 1]);
    let back = Side::of(engine, &take_back(&kept.left));
    assert_eq!((back.answer.number, back.answer.evaluations), (0, 4));
    assert_eq!((&*back.left.stored, &*back.left.flags), (&*model.stored, &*kept.left.flags));
}

/// Each trip may start behind the other, but not both; one move may exchange them.
fn one_behind_the_other(engine: &dyn Engine) {
    let model = built(engine, &two_trips());
    all_give(engine, "both", &model, &[(0, 1), (1, 1)], 20, 3);
    all_give(engine, "the first", &model, &[(0, 1)], 0, 0);
    all_give(engine, "the second", &model, &[(1, 1)], 0, 0);
    let first = Side::of(engine, &keep(&model, &[(0, 1)])).left;
    all_give(engine, "the second too", &first, &[(1, 1)], 20, 3);
    all_give(engine, "the second too, and the depot's time", &first, &[(2, 9), (1, 1)], 20, 3);
    all_give(engine, "the second instead", &first, &[(0, 0), (1, 1)], 0, 0);
    all_give(engine, "the first still", &first, &[(0, 1)], 0, 0);
    let build = with(&two_trips(), |case| (case.starts[0], case.starts[1]) = (1, 1));
    gives(engine, "a build of both", &build, 20, 3);
    gives(engine, "a blank start value first", &with(&build, |case| case.starts[2] = BLANK), 7, 2);
    gives(engine, "a made start value first", &with(&build, |case| case.starts[7] = 1), 7, 7);
}

/// A variable may be its own candidate, and stand twice in a row.
fn its_own_candidate(engine: &dyn Engine) {
    let build = |index| of_rows(vec![index, 5, 0, 0], &[Row::plain(4, 2, &[0, 1, 2, 1, 2]), Row::plain(1, 3, &[2])]);
    for index in [0, 2] {
        let model = builds(engine, &build(index), &[index, 5, 5, 5], &[0, 0, 1, 2]);
        tries(engine, &trial(&model, &[(1, 6)], &[3, 2], 1), &[6, 6], &[2, 3]);
        tries(engine, &trial(&model, &[(1, 6)], &[3], 3), &[6], &[2, 3]);
        all_give(engine, "itself", &model, &[(0, 1)], 20, 2);
        all_give(engine, "itself again", &model, &[(0, 3)], 20, 2);
        all_give(engine, "outside", &model, &[(0, 4)], 0, 0);
    }
    gives(engine, "itself chosen", &build(1), 20, 2);
    gives(engine, "its own index", &of_rows(vec![0, 5], &[Row::plain(4, 0, &[0, 1])]), 6, 0);
    let both = of_rows(vec![0, 0, 5], &[Row::plain(4, 1, &[1, 1, 2])]);
    gives(engine, "its own index and candidate", &both, 6, 1);
}

/// Chains through an index, and chains without a candidate; the place is the least variable on one.
fn chains_that_are_not_permitted(engine: &dyn Engine) {
    let linear = |makes, input| Row::plain(1, makes, &[input]);
    let element = |makes, inputs: &[u16]| Row::plain(4, makes, inputs);
    let barred = |what, rows: &[Row], place| {
        let mut starts = vec![0; 8];
        starts[7] = 1;
        gives(engine, what, &of_rows(starts, rows), 6, place);
    };
    barred("without ELEMENT", &[linear(1, 2), linear(2, 1)], 1);
    barred("a variable that reads the chain is not on it", &[linear(0, 1), linear(1, 2), linear(2, 1)], 1);
    barred("nor is one that it reads", &[linear(0, 7), linear(1, 2), Row::plain(3, 2, &[1, 0])], 1);
    barred("through an index", &[element(2, &[3, 7]), linear(3, 2)], 2);
    barred("through an index and a candidate", &[element(2, &[3, 7]), element(3, &[7, 2])], 2);
    barred("two indices", &[element(5, &[4, 7]), element(4, &[5, 7])], 4);
    barred(
        "an index farther away",
        &[element(6, &[1, 7, 7]), linear(1, 2), Row::plain(2, 2, &[3, 7]), linear(3, 6)],
        1,
    );
    // 0 and 4 choose each other; 5 takes 4 for its index and is a candidate of 4: 0 is on a chain that passes 4 twice
    let twice = [element(4, &[7, 0, 5]), linear(0, 4), element(5, &[4, 7])];
    barred("a chain that passes a variable twice", &twice, 0);
    // 1 chooses 2, and 3 reads 1: only 2 and 3, which read each other, are on a chain without a candidate
    let beside = [element(1, &[7, 2]), linear(2, 3), Row::plain(3, 3, &[2, 1])];
    barred("a permitted chain beside it", &beside, 2);
    let two = [linear(6, 5), linear(5, 6), element(2, &[3, 7]), linear(3, 2)];
    barred("the least of two chains", &two, 2);
    let permitted = [element(2, &[7, 3]), linear(3, 2), linear(4, 5), linear(5, 4)];
    barred("a permitted chain of lesser variables", &permitted, 4);
    let open = of_rows(vec![0, 0, 0, 0], &[element(1, &[0, 2]), linear(2, 1), linear(3, 2)]);
    gives(engine, "permitted, and round from the start", &open, 20, 1);
    gives(engine, "6 before 7", &with(&of_rows(vec![0, 0], &[linear(1, 1)]), |case| case.starts[0] = BLANK), 6, 1);
}

/// Stored values that are not the fresh ones, in a model with a closed chain and in one without.
fn stored_values_that_are_not_fresh(engine: &dyn Engine) {
    let model = built(engine, &two_trips());
    for (variable, place) in [(3, 3), (4, 4), (5, 5), (6, 6), (7, 7)] {
        let stale = with(&model, |case| case.stored[variable] += 1);
        all_give(engine, "another value", &stale, &[], 21, place);
        all_give(engine, "another value before a move round", &stale, &[(0, 1), (1, 1)], 21, place);
        let blank = with(&model, |case| (case.stored[variable], case.session.blanks) = (BLANK, 1));
        all_give(engine, "a blank", &blank, &[(2, 8)], 21, place);
    }
    let both = with(&model, |case| (case.stored[7], case.stored[5]) = (0, 0));
    all_give(engine, "the least", &both, &[], 21, 5);
    let search = with(&model, |case| case.stored[2] = 8);
    all_give(engine, "a search value that the others do not follow", &search, &[(2, 7)], 21, 3);
    let round = with(&model, |case| (case.stored[0], case.stored[1]) = (1, 1));
    all_give(engine, "stored values that lead round", &round, &[(0, 0), (1, 0)], 21, 3);
    let first = with(&model, |case| {
        case.stored.copy_from_slice(&[1, 0, 7, 27, 37, 7, 27, 37]);
    });
    all_give(engine, "fresh ones that no call left", &first, &[(0, 0)], 0, 0);
    let apart =
        of_rows(vec![0, 7, 0, 0, 0], &[Row::plain(4, 2, &[0, 1, 1]), Row::plain(1, 3, &[2]), Row::plain(1, 4, &[1])]);
    let open = with(&built(engine, &apart), |case| case.stored[2..].fill(99));
    all_give(engine, "without a closed chain", &open, &[(1, 8)], 0, 0);
    let closed = with(&apart, |case| case.vars[2] = 3);
    let closed = with(&built(engine, &closed), |case| case.stored[4] = 99);
    all_give(engine, "a variable that the chain has nothing to do with", &closed, &[(1, 8)], 21, 4);
}

/// Numbers, order and index that are not those of build, and chains that are not permitted, give 8.
fn numbers_of_another_model(engine: &dyn Engine) {
    let model = built(engine, &two_trips());
    all_give(engine, "as built", &model, &[(0, 1)], 0, 0);
    for variable in 0..8 {
        for number in [model.numbers[variable] + 1, model.numbers[variable].wrapping_sub(1), 65535] {
            let other = with(&model, |case| case.numbers[variable] = number);
            all_give(engine, "another number", &other, &[(0, 1), (1, 1)], 8, 0);
        }
    }
    let step_by_step = with(&model, |case| case.numbers.copy_from_slice(&[0, 0, 0, 1, 2, 1, 2, 3]));
    all_give(engine, "numbers of the choices", &step_by_step, &[], 8, 0);
    for order in [[2, 0, 3, 4, 1], [0, 2, 3, 1, 4], [4, 3, 2, 0, 1], [0, 2, 3, 4, 4], [0, 2, 3, 4, 5]] {
        all_give(engine, "another order", &with(&model, |case| case.order.copy_from_slice(&order)), &[], 8, 0);
    }
    all_give(engine, "the index", &with(&model, |case| case.reader_places.swap(1, 2)), &[], 8, 0);
    // 3 takes 6 for its index and 0 for its candidate: the same numbers, order and readers but for their places
    let through_an_index = with(&two_trips(), |case| case.vars.swap(3, 5));
    gives(engine, "build of an index", &through_an_index, 6, 3);
    all_give(engine, "an index", &with(&model, |case| case.vars.swap(3, 5)), &[], 8, 0);
    let without_candidates = with(&two_trips(), |case| (case.kinds[2], case.kinds[4]) = (3, 3));
    gives(engine, "build without candidates", &without_candidates, 6, 3);
    all_give(engine, "no candidates", &with(&model, |case| (case.kinds[2], case.kinds[4]) = (3, 3)), &[], 8, 0);
    let opened = with(&model, |case| case.vars[5] = 2);
    all_give(engine, "a model without the chain", &opened, &[], 8, 0);
}

/// 21 and then 20 come after all other checks.
fn the_order_of_checks(engine: &dyn Engine) {
    let model = built(engine, &two_trips());
    let round = [(0, 1), (1, 1), (2, 9)];
    let stale = with(&model, |case| case.stored[4] = 99);
    type Fault = (u32, u32, fn(&mut Case));
    let tables: [Fault; 7] = [
        (1, 0, |case| case.reasons.edit(|reasons| reasons.truncate(7))),
        (2, 1, |case| case.kinds[1] = 0),
        (3, 2, |case| case.vars[3] = 99),
        (4, 0, |case| case.coefs[0] = 1001),
        (5, 1, |case| case.makes[1] = 4),
        (8, 0, |case| case.numbers[3] = 9),
        (19, 0, |case| case.session.blanks += 1),
    ];
    let stored: Fault = (7, 2, |case| (case.stored[2], case.session.blanks) = (BLANK, 1));
    let route: Fault = (9, 0, |case| case.route = 0);
    let pairs: [Fault; 4] = [
        (10, 2, |case| case.move_vars[2] = 4),
        (11, 1, |case| case.move_vars[1] = 0),
        (12, 2, |case| case.move_values[2] = BLANK),
        (17, 2, |case| case.highs[2] = 8),
    ];
    let asked: Fault = (13, 1, |case| case.asked_vars[1] = 8);
    let log: [Fault; 2] = [(16, 0, |case| case.log_sizes[0] = 65), (15, 0, |case| case.log_sizes[0] = 0)];
    for (from, number, place) in [(&model, 20, 3), (&stale, 21, 4)] {
        for case in calls(from, &round) {
            let faults = match case.call {
                Call::Trial => [&tables[..], &[stored, route], &pairs, &[asked]].concat(),
                Call::Keep => [&tables[..], &[stored], &pairs, &log[..1]].concat(),
                _ => [&tables[..], &[stored], &log].concat(),
            };
            gives(engine, "nothing else", &case, number, place);
            for (number, place, fault) in faults {
                gives(engine, &format!("{:?}: {number} first", case.call), &with(&case, fault), number, place);
            }
        }
    }
    let narrow = with(&two_trips(), |case| (case.starts[0], case.starts[1], case.highs[2]) = (1, 1, 6));
    gives(engine, "a start value outside before 20", &narrow, 7, 2);
}

/// Two moves that have no variable in common, kept in either order and as one.
fn two_planners(engine: &dyn Engine) {
    let model = built(engine, &two_trips());
    let after = |case: &Case, pairs: &[(u16, i32)]| {
        let side = Side::of(engine, &keep(case, pairs));
        (side.answer.number, side.left)
    };
    for (one, other, accepted) in [
        (&[(0, 1)][..], &[(2, 9)][..], true),
        (&[(0, 1)], &[(1, 2)], true),
        (&[(0, 1)], &[(1, 1)], false),
        (&[(0, 1), (2, 3)], &[(1, 0)], true),
    ] {
        let (first, second) = (after(&model, one).1, after(&model, other).1);
        let (there, back) = (after(&first, other), after(&second, one));
        let joint = after(&model, &[one, other].concat());
        let number = if accepted { 0 } else { 20 };
        assert_eq!((there.0, back.0, joint.0), (number, number, number));
        if accepted {
            assert_eq!((&there.1.stored, &back.1.stored), (&joint.1.stored, &joint.1.stored));
        }
    }
}

/// Moves kept and taken back over a model with a closed chain.
fn kept_and_taken_back(engine: &dyn Engine) {
    let model = built(engine, &two_trips()).with_log();
    let mut left = vec![model];
    for pairs in [&[(0, 1)][..], &[(2, 100)], &[(0, 0), (1, 1)], &[], &[(1, 7)], &[(0, 1), (1, 0)]] {
        let side = Side::of(engine, &keep(&left[left.len() - 1], pairs));
        assert_eq!(side.answer.number, 0);
        gives(engine, "round", &keep(&side.left, &[(0, 1), (1, 1)]), 20, 3);
        left.push(side.left);
    }
    while let Some(last) = left.pop() {
        let side = Side::of(engine, &take_back(&last));
        assert_eq!(side.answer.number, if left.is_empty() { 15 } else { 0 });
        if let Some(before) = left.last() {
            assert_eq!((&side.left.stored, &side.left.reasons), (&before.stored, &before.reasons));
            assert_eq!(side.left.session.kept, before.session.kept);
        }
    }
}

/// Why values are blank inside a group.
fn reasons_inside_a_group(engine: &dyn Engine) {
    let model = built(engine, &two_trips());
    let tried = Side::of(engine, &trial(&model, &[(0, 2)], &[3, 4, 5, 7], 1)).left;
    assert_eq!((&*tried.results, &*tried.why), (&[BLANK, BLANK, 7, 27][..], &[2, 4, 0, 0][..]));
    let tried = Side::of(engine, &trial(&model, &[(0, 2), (1, 1)], &[3, 4, 5, 6, 7], 2)).left;
    assert_eq!((&*tried.results, &*tried.why), (&[BLANK; 5][..], &[2, 4, 4, 4, 4][..]));
    let kept = Side::of(engine, &keep(&model, &[(0, 2), (1, 1)])).left;
    assert_eq!((&*kept.reasons, kept.session.blanks), (&[0, 0, 0, 2, 4, 4, 4, 4][..], 5));
}

/// All tests of closed chains by name.
pub const CHAINS: &[Test] = &[
    ("the numbers of a group", the_numbers_of_a_group),
    ("groups above one another", groups_above_one_another),
    ("an unchosen candidate", an_unchosen_candidate),
    ("routes inside a group", routes_inside_a_group),
    ("one behind the other", one_behind_the_other),
    ("its own candidate", its_own_candidate),
    ("chains that are not permitted", chains_that_are_not_permitted),
    ("stored values that are not fresh", stored_values_that_are_not_fresh),
    ("numbers of another model", numbers_of_another_model),
    ("the order of checks", the_order_of_checks),
    ("two planners", two_planners),
    ("kept and taken back", kept_and_taken_back),
    ("reasons inside a group", reasons_inside_a_group),
];
