//! The runs that the specification names, as tests of any engine: each asserts what comes back and what is left.

use lent::Session;
use second::BLANK;

use crate::{Answer, Call, Case, Engine, Row, Side, Test, of_rows};

/// Model A: a window from variable 0 to 1 every 2; its departures 3, its last departure 4, and 2 plus 4 times 3.
#[must_use]
pub fn model_a() -> Case {
    let crews = Row { kind: 1, makes: 5, parameter: 2, entries: vec![(3, 4)] };
    let rows = [Row::plain(8, 3, &[0, 1, 2]), Row::plain(9, 4, &[0, 1, 2]), crews];
    of_rows(vec![25200, 28800, 600, 0, 0, 0], &rows)
}

/// Model A with every table at values that no call accepts; its sizes alone are good.
pub(crate) fn model_a_spoilt() -> Case {
    let mut model = model_a();
    model.kinds.fill(65535);
    model.params.fill(i32::MIN);
    model.coefs.fill(i16::MIN);
    model.vars.fill(65535);
    model.starts.fill(i32::MIN);
    model
}

/// Model A with other values of its window.
fn window(start: i32, end: i32, headway: i32) -> Case {
    let mut case = model_a();
    case.starts[..3].copy_from_slice(&[start, end, headway]);
    case
}

/// Asserts what comes back; a refusal changes nothing.
pub(crate) fn gives(engine: &dyn Engine, what: &str, case: &Case, number: u32, place: u32) {
    let side = Side::of(engine, case);
    assert_eq!((side.answer.number, side.answer.place), (number, place), "{what}");
    if number != 0 {
        assert_eq!(side.left, *case, "{what}: a refusal changes nothing");
        assert_eq!(side.answer.evaluations, 0, "{what}: a refusal evaluates nothing");
    }
}

/// A case with one change.
pub(crate) fn with(case: &Case, change: impl FnOnce(&mut Case)) -> Case {
    let mut case = case.clone();
    change(&mut case);
    case
}

/// The case after an accepted build by the engine.
///
/// # Panics
/// If it is refused.
pub fn built(engine: &dyn Engine, build: &Case) -> Case {
    let side = Side::of(engine, build);
    assert_eq!(side.answer.number, 0, "a build that is accepted");
    side.left
}

/// A trial on a model that was built.
#[must_use]
pub fn trial(built: &Case, pairs: &[(u16, i32)], asked: &[u16], route: u32) -> Case {
    Case {
        asked: asked.len(),
        asked_vars: asked.to_vec().into(),
        route,
        results: vec![0; asked.len()].into(),
        why: vec![7; asked.len()].into(),
        trial: vec![0; built.n].into(),
        ..moving(built, pairs)
    }
    .with(Call::Trial)
}

/// A keep on a model that was built, with its log, or an empty one.
#[must_use]
pub fn keep(built: &Case, pairs: &[(u16, i32)]) -> Case {
    moving(built, pairs).with_log().with(Call::Keep)
}

/// A taking back on a model that was built, with its log, or an empty one.
#[must_use]
pub fn take_back(built: &Case) -> Case {
    Case { flags: vec![7; built.n].into(), ..built.clone() }.with_log().with(Call::TakeBack)
}

/// A model that was built, with a move and room for flags.
fn moving(built: &Case, pairs: &[(u16, i32)]) -> Case {
    let (vars, values): (Vec<u16>, Vec<i32>) = pairs.iter().copied().unzip();
    Case {
        pairs: pairs.len(),
        move_vars: vars.into(),
        move_values: values.into(),
        flags: vec![7; built.n].into(),
        ..built.clone()
    }
}

impl Case {
    fn with(self, call: Call) -> Case {
        Case { call, ..self }
    }
}

/// Asserts the values that a build stores.
fn stores(engine: &dyn Engine, build: &Case, values: &[i32]) {
    assert_eq!(*built(engine, build).stored, *values);
}

/// Asserts the value of one formula, whose inputs are search variables.
fn formula_gives(engine: &dyn Engine, kind: u16, parameter: i32, coefficient: i16, inputs: &[i32], value: i32) {
    let entries = (0..inputs.len() as u16).map(|variable| (variable, coefficient)).collect();
    let row = Row { kind, makes: inputs.len() as u16, parameter, entries };
    let mut starts = inputs.to_vec();
    starts.push(0);
    let stored = built(engine, &of_rows(starts, &[row])).stored;
    assert_eq!(stored.last(), Some(&value), "kind {kind} of {inputs:?}");
}

/// Asserts the results, the evaluations and the flags of a trial on a model that was built.
fn tries(engine: &dyn Engine, case: &Case, results: &[i32], evaluated: &[u16]) {
    let side = Side::of(engine, case);
    let evaluations = evaluated.len() as u32;
    assert_eq!(side.answer, Answer { evaluations, ..Answer::default() });
    assert_eq!(*side.left.results, *results, "results");
    let flags: Vec<u8> = (0..case.n as u16).map(|variable| u8::from(evaluated.contains(&variable))).collect();
    assert_eq!(*side.left.flags, *flags, "flags");
    assert_eq!(side.left.session.evaluations, evaluations);
    let counted = |session: Session| (session.kept, session.blanks);
    assert_eq!(counted(side.left.session), counted(case.session));
    assert_eq!(side.left.stored, case.stored, "a trial leaves the stored values");
}

/// Numbers, order, values, readers and record of model A.
fn model_a_is_built(engine: &dyn Engine) {
    let left = built(engine, &model_a());
    assert_eq!(*left.stored, [25200, 28800, 600, 6, 28200, 26]);
    assert_eq!(*left.numbers, [0, 0, 0, 1, 1, 2]);
    assert_eq!(*left.order, [0, 1, 2]);
    assert_eq!(*left.reader_starts, [0, 2, 4, 6, 7, 7, 7]);
    assert_eq!(*left.reader_places, [0, 1, 0, 1, 0, 1, 2]);
    assert_eq!(left.session, Session { kept: 0, evaluations: 3, blanks: 0 });
}

/// Two rows of which each reads variable 0 in two places: row 0 makes 2 from 0, 1 and 0, row 1 makes 3 from 2, 0 and 0.
#[must_use]
pub fn read_twice() -> Case {
    of_rows(vec![3, 5, 0, 0], &[Row::plain(1, 2, &[0, 1, 0]), Row::plain(1, 3, &[2, 0, 0])])
}

/// The rows that read each variable: ascending, each once, and nothing written beyond the last.
fn the_readers(engine: &dyn Engine) {
    let mut build = read_twice();
    build.reader_places.fill(7);
    let left = built(engine, &build);
    assert_eq!(*left.reader_starts, [0, 2, 3, 4, 4]);
    assert_eq!(*left.reader_places, [0, 1, 0, 1, 7, 7]);
    let none = built(engine, &of_rows(vec![1, 2], &[]));
    assert_eq!((&*none.reader_starts, &*none.reader_places), (&[0; 3][..], &[][..]));
    tries(engine, &trial(&left, &[(1, 6)], &[3], 1), &[18], &[2, 3]);
    tries(engine, &trial(&left, &[(1, 6)], &[2], 3), &[12], &[2]);
}

/// End 28801: one departure more.
fn end_after_the_last_departure(engine: &dyn Engine) {
    stores(engine, &window(25200, 28801, 600), &[25200, 28801, 600, 7, 28800, 30]);
    let model = built(engine, &model_a());
    let moved = [(1, 28801)];
    tries(engine, &trial(&model, &moved, &[3, 4, 5], 1), &[7, 28800, 30], &[3, 4, 5]);
    tries(engine, &trial(&model, &moved, &[4], 2), &[28800], &[4]);
    tries(engine, &trial(&model, &moved, &[4], 3), &[28800], &[4]);
}

/// End 28500: the values come out equal, and route 1 goes no further.
fn end_that_changes_no_departure(engine: &dyn Engine) {
    stores(engine, &window(25200, 28500, 600), &[25200, 28500, 600, 6, 28200, 26]);
    let model = built(engine, &model_a());
    let moved = [(1, 28500)];
    tries(engine, &trial(&model, &moved, &[3, 4, 5], 1), &[6, 28200, 26], &[3, 4]);
    tries(engine, &trial(&model, &moved, &[5], 3), &[26], &[3, 5]);
}

/// Headway 0 gives blank, an empty window no departure.
fn headway_0_and_an_empty_window(engine: &dyn Engine) {
    stores(engine, &window(25200, 28800, 0), &[25200, 28800, 0, BLANK, BLANK, BLANK]);
    stores(engine, &window(25200, 28800, -1), &[25200, 28800, -1, BLANK, BLANK, BLANK]);
    stores(engine, &window(25200, 25200, 600), &[25200, 25200, 600, 0, BLANK, 2]);
    stores(engine, &window(25200, 0, 600), &[25200, 0, 600, 0, BLANK, 2]);
}

/// An empty move: only route 2 evaluates anything.
fn the_empty_move(engine: &dyn Engine) {
    let model = built(engine, &window(25200, 25200, 600));
    tries(engine, &trial(&model, &[], &[5], 1), &[2], &[]);
    tries(engine, &trial(&model, &[], &[5], 2), &[2], &[3, 5]);
    tries(engine, &trial(&model, &[], &[5], 3), &[2], &[]);
    tries(engine, &trial(&model, &[], &[], 2), &[], &[]);
    tries(engine, &trial(&model, &[(1, 25200)], &[5, 5, 0], 3), &[2, 2, 25200], &[]);
}

/// The widest window: the count leaves the range, the last departure does not.
fn the_widest_window(engine: &dyn Engine) {
    let widest = |headway| window(-2_147_483_647, 2_147_483_647, headway);
    let values = |engine, headway| built(engine, &widest(headway)).stored[3..5].to_vec();
    assert_eq!(values(engine, 1), [BLANK, 2_147_483_646]);
    assert_eq!(values(engine, 2), [2_147_483_647, 2_147_483_645]);
    assert_eq!(values(engine, 2_147_483_647), [2, 0]);
}

/// LINEAR at both ends of the range, and a sum that leaves it on the way.
fn linear(engine: &dyn Engine) {
    for (coefficient, parameter, value) in
        [(1, 0, 2_147_483_647), (1, 1, BLANK), (-1, 0, -2_147_483_647), (-1, -1, BLANK), (0, 5, 5)]
    {
        formula_gives(engine, 1, parameter, coefficient, &[2_147_483_647], value);
    }
    let entries = vec![(0, 1000), (0, 1000), (0, -1000), (0, -999)];
    let there_and_back = Row { kind: 1, makes: 1, parameter: 0, entries };
    stores(engine, &of_rows(vec![2_147_483_647, 0], &[there_and_back]), &[2_147_483_647; 2]);
}

/// SHARED counts places, not values.
fn shared(engine: &dyn Engine) {
    for (inputs, value) in [(&[4, 4, 5][..], 2), (&[4, 4, 4], 3), (&[4], 0), (&[1, 2, 1, 2, 3], 4)] {
        formula_gives(engine, 5, 0, 1, inputs, value);
    }
    stores(engine, &of_rows(vec![4, 0], &[Row::plain(5, 1, &[0, 0])]), &[4, 2]);
}

/// ELEMENT chooses among the candidates; a chosen blank and an index outside give blank.
fn element(engine: &dyn Engine) {
    for (index, value) in [(0, 7), (1, BLANK), (2, BLANK), (-1, BLANK)] {
        let rows = [Row::plain(9, 2, &[1, 1, 1]), Row::plain(4, 3, &[0, 1, 2])];
        stores(engine, &of_rows(vec![index, 7, 0, 0], &rows), &[index, 7, BLANK, value]);
    }
}

/// MIN, MAX, COUNT and OVER.
fn the_other_formulas(engine: &dyn Engine) {
    for (kind, parameter, inputs, value) in [
        (2, 0, &[3, -5, 4][..], -5),
        (3, 0, &[3, -5, 4], 4),
        (6, 4, &[4, 5, 4], 2),
        (6, 6, &[4, 5, 4], 0),
        (7, 0, &[2_147_483_647, -1], BLANK),
        (7, 0, &[5, 5], 0),
        (7, 0, &[9, 5], 4),
        (7, 0, &[-2_147_483_647, 2_147_483_647], 0),
    ] {
        formula_gives(engine, kind, parameter, 1, inputs, value);
    }
}

/// Any blank input gives blank, except in MIN, MAX and ELEMENT.
fn blank_inputs(engine: &dyn Engine) {
    let blank = Row::plain(9, 1, &[0, 0, 0]);
    for (kind, inputs) in [(1, 2), (5, 2), (6, 2), (7, 2), (8, 3), (9, 3)] {
        for place in 0..inputs {
            let mut row = Row::plain(kind, 2, &vec![0; inputs]);
            row.entries[place].0 = 1;
            stores(engine, &of_rows(vec![1, 0, 0], &[blank.clone(), row]), &[1, BLANK, BLANK]);
        }
    }
    let zero_times_blank = Row { kind: 1, makes: 2, parameter: 3, entries: vec![(1, 0)] };
    stores(engine, &of_rows(vec![1, 0, 0], &[blank, zero_times_blank]), &[1, BLANK, BLANK]);
}

/// MIN and MAX skip blank inputs, wherever they stand, and are blank only if all are.
fn skipped_blanks(engine: &dyn Engine) {
    // variables 0 to 4 have values; 5 and 6 are the LAST of an empty and of a backward window
    let starts = vec![-2_147_483_647, -7, 0, 7, 2_147_483_647, 0, 0, 0, 0];
    let give = |inputs: &[u16], least: i32, greatest: i32| {
        let windows = [Row::plain(9, 5, &[2, 2, 3]), Row::plain(9, 6, &[3, 2, 3])];
        let rows = [windows, [Row::plain(2, 7, inputs), Row::plain(3, 8, inputs)]].concat();
        let stored = [&starts[..5], &[BLANK, BLANK, least, greatest]].concat();
        stores(engine, &of_rows(starts.clone(), &rows), &stored);
    };
    for inputs in [[5, 1, 3], [1, 5, 3], [1, 3, 5]] {
        give(&inputs, -7, 7);
    }
    give(&[5, 6, 3, 6], 7, 7);
    give(&[0, 5], -2_147_483_647, -2_147_483_647);
    give(&[5, 4], 2_147_483_647, 2_147_483_647);
    give(&[5], BLANK, BLANK);
    give(&[5, 6, 5], BLANK, BLANK);
    give(&[5; 256], BLANK, BLANK);
    for place in [0, 128, 255] {
        let (mut one_blank, mut one_value) = ([3; 256], [5; 256]);
        (one_blank[place], one_value[place]) = (5, 3);
        give(&one_blank, 7, 7);
        give(&one_value, 7, 7);
    }
}

/// The last bus of several windows, one of which is empty: all inputs are needed on routes 2 and 3.
fn the_last_bus(engine: &dyn Engine) {
    let rows = [
        Row::plain(9, 4, &[0, 1, 2]),
        Row::plain(9, 5, &[0, 3, 2]),
        Row::plain(3, 6, &[4, 5]),
        Row::plain(2, 7, &[4, 5]),
    ];
    let model = built(engine, &of_rows(vec![25200, 28800, 600, 25200, 0, 0, 0, 0], &rows));
    assert_eq!(model.stored[4..], [28200, BLANK, 28200, 28200]);
    let moved = [(3, 25201)];
    tries(engine, &trial(&model, &moved, &[6, 7], 1), &[28200, 25200], &[5, 6, 7]);
    tries(engine, &trial(&model, &moved, &[6], 2), &[28200], &[4, 5, 6]);
    tries(engine, &trial(&model, &moved, &[7], 3), &[25200], &[5, 7]);
    tries(engine, &trial(&model, &[(2, 0)], &[6, 7], 2), &[BLANK, BLANK], &[4, 5, 6, 7]);
}

/// Variables that depend on themselves are refused; through a candidate that is not chosen they are accepted, and refused
/// otherwise where it is.
fn circular_models(engine: &dyn Engine) {
    let self_made = of_rows(vec![0], &[Row::plain(1, 0, &[0])]);
    let each_other = of_rows(vec![0, 0], &[Row::plain(1, 0, &[1]), Row::plain(1, 1, &[0])]);
    let closing = |index| of_rows(vec![index, 7, 0, 0], &[Row::plain(4, 2, &[0, 1, 3]), Row::plain(1, 3, &[2])]);
    for (case, number, place) in [(self_made, 6, 0), (each_other, 6, 0), (closing(1), 20, 2)] {
        let side = Side::of(engine, &case);
        assert_eq!((side.answer.number, side.answer.place), (number, place));
        assert_eq!(side.left, case);
    }
    stores(engine, &closing(0), &[0, 7, 7, 7]);
}

/// Routes 2 and 3 ask the index and the chosen candidate alone; route 1 evaluates by any input.
fn candidates_that_are_not_chosen(engine: &dyn Engine) {
    let rows = [Row::plain(1, 3, &[1]), Row::plain(1, 4, &[2]), Row::plain(4, 5, &[0, 3, 4])];
    let model = built(engine, &of_rows(vec![0, 10, 20, 0, 0, 0], &rows));
    let moved = [(2, 21)];
    tries(engine, &trial(&model, &moved, &[5], 1), &[10], &[4, 5]);
    tries(engine, &trial(&model, &moved, &[5], 2), &[10], &[3, 5]);
    tries(engine, &trial(&model, &moved, &[5], 3), &[10], &[5]);
    tries(engine, &trial(&model, &[(0, 1)], &[5], 3), &[20], &[5]);
    tries(engine, &trial(&model, &[(0, 2)], &[5], 2), &[BLANK], &[5]);
}

/// The trial buffer holds new values where moved or evaluated, and old ones elsewhere.
fn the_trial_buffer(engine: &dyn Engine) {
    let model = built(engine, &model_a());
    for (route, values) in [
        (1, [25200, 28801, 600, 7, 28800, 30]),
        (2, [25200, 28801, 600, 6, 28800, 26]),
        (3, [25200, 28801, 600, 6, 28800, 26]),
    ] {
        let side = Side::of(engine, &trial(&model, &[(1, 28801)], &[4], route));
        assert_eq!(*side.left.trial, values, "route {route}");
    }
}

/// Keep leaves route 1's values and flags, and counts the move; an empty move is kept too.
fn keeping(engine: &dyn Engine) {
    let model = built(engine, &model_a());
    let kept = Side::of(engine, &keep(&model, &[(1, 28801)]));
    assert_eq!(kept.answer, Answer { evaluations: 3, ..Answer::default() });
    assert_eq!(*kept.left.stored, [25200, 28801, 600, 7, 28800, 30]);
    assert_eq!(*kept.left.flags, [0, 0, 0, 1, 1, 1]);
    assert_eq!(kept.left.session, Session { kept: 1, evaluations: 3, blanks: 0 });
    let again = Side::of(engine, &keep(&kept.left, &[]));
    assert_eq!(*again.left.flags, [0; 6]);
    assert_eq!(again.left.session, Session { kept: 2, evaluations: 0, blanks: 0 });
}

/// The number of moves kept stops at its ceiling.
fn the_ceiling_of_moves_kept(engine: &dyn Engine) {
    let mut model = built(engine, &model_a());
    for (before, after) in [(u32::MAX - 1, u32::MAX), (u32::MAX, u32::MAX)] {
        model.session.kept = before;
        assert_eq!(Side::of(engine, &keep(&model, &[])).left.session.kept, after);
    }
}

/// Build leaves the number of blanks, a trial does not touch it, keeps and takings back hold it to the stored values.
fn the_number_of_blanks(engine: &dyn Engine) {
    for (case, blanks) in [
        (model_a(), 0),
        (window(25200, 28800, 0), 3),
        (window(25200, 25200, 600), 1),
        (window(-2_147_483_647, 2_147_483_647, 1), 2),
    ] {
        for before in [0, 5, u32::MAX] {
            let mut case = case.clone();
            case.session.blanks = before;
            assert_eq!(built(engine, &case).session, Session { kept: 0, evaluations: 3, blanks });
        }
    }
    let mut model = built(engine, &model_a());
    let mut numbers = vec![0];
    for (moved, blanks) in
        [(&[(2, 0)][..], 3), (&[(1, 25200)], 3), (&[], 3), (&[(2, 600)], 1), (&[(1, 28800)], 0), (&[(2, -1)], 3)]
    {
        for route in 1..=3 {
            let tried = Side::of(engine, &trial(&model, moved, &[3, 4, 5], route)).left;
            assert_eq!(tried.session.blanks, model.session.blanks, "a trial leaves it");
        }
        let refused = Side::of(engine, &keep(&model, &[(3, 1)]));
        assert_eq!((refused.answer.number, refused.left.session), (10, model.session));
        model = Side::of(engine, &keep(&model, moved)).left;
        assert_eq!((model.session.blanks, model.blanks()), (blanks, blanks), "{moved:?} kept");
        numbers.push(blanks);
    }
    numbers.pop();
    for (blanks, left) in numbers.into_iter().rev().zip((0..6).rev()) {
        model = Side::of(engine, &take_back(&model)).left;
        assert_eq!((model.session.blanks, model.blanks()), (blanks, blanks), "{left} moves left");
        assert_eq!(model.session.kept, left);
    }
}

/// A slipped digit is refused where bounds say what a headway may be; the bounds themselves are allowed, and made variables
/// may have any value.
fn bounds(engine: &dyn Engine) {
    let model = built(engine, &model_a().with_bounds(2, 60, 6_000).with_bounds(0, 25200, 25200));
    assert_eq!(*model.stored, [25200, 28800, 600, 6, 28200, 26]);
    for (headway, departures) in [(60, 60), (6_000, 1)] {
        for route in 1..=3 {
            let tried = trial(&model, &[(2, headway), (0, 25200)], &[3], route);
            assert_eq!(*Side::of(engine, &tried).left.results, [departures]);
        }
        let kept = Side::of(engine, &keep(&model, &[(2, headway)])).left;
        assert_eq!((kept.stored[3], kept.session.kept), (departures, 1));
    }
    for (slipped, pair) in
        [(&[(2, 60_000)][..], 0), (&[(1, 28801), (2, 6_001)], 1), (&[(2, 59)], 0), (&[(0, 25201)], 0)]
    {
        for call in [trial(&model, slipped, &[3], 1), keep(&model, slipped)] {
            let side = Side::of(engine, &call);
            assert_eq!((side.answer.number, side.answer.place), (17, pair));
            assert_eq!(side.left, call);
        }
    }
    let blank = built(engine, &window(25200, 28800, 0).with_bounds(2, 0, 0));
    assert_eq!((&blank.stored[3..], blank.session.blanks), (&[BLANK; 3][..], 3));
}

/// Over stored values that no call produced each route follows its own rule.
fn stale_values(engine: &dyn Engine) {
    let mut model = built(engine, &model_a());
    model.stored[3] = 100;
    model.stored[5] = BLANK;
    model.count_blanks();
    let moved = [(0, 25200)];
    tries(engine, &trial(&model, &moved, &[5], 1), &[BLANK], &[]);
    tries(engine, &trial(&model, &moved, &[5], 2), &[26], &[3, 5]);
    tries(engine, &trial(&model, &moved, &[5], 3), &[BLANK], &[]);
}

/// Buffers longer than needed are untouched beyond that.
fn longer_buffers(engine: &dyn Engine) {
    let mut build = model_a();
    build.numbers.edit(|numbers| numbers.push(77));
    build.order.edit(|order| order.push(78));
    build.stored.edit(|stored| stored.push(79));
    build.reader_starts.edit(|starts| starts.push(83));
    build.reader_places.edit(|places| places.push(84));
    build.reasons.edit(|reasons| reasons.push(85));
    let model = built(engine, &build);
    assert_eq!((model.numbers.last(), model.order.last(), model.stored.last()), (Some(&77), Some(&78), Some(&79)));
    assert_eq!((model.reader_starts.last(), model.reader_places.last()), (Some(&83), Some(&84)));
    assert_eq!(model.reasons.last(), Some(&85));
    let mut tried = trial(&model, &[(1, 28801)], &[4], 1);
    tried.results.edit(|results| results.push(80));
    tried.trial.edit(|trial| trial.push(81));
    tried.flags.edit(|flags| flags.push(82));
    tried.why.edit(|why| why.push(86));
    let left = Side::of(engine, &tried).left;
    assert_eq!((left.results.last(), left.trial.last(), left.flags.last()), (Some(&80), Some(&81), Some(&82)));
    assert_eq!((left.reasons.last(), left.why.last()), (Some(&85), Some(&86)));
}

/// All runs by name.
pub const RUNS: &[Test] = &[
    ("model A", model_a_is_built),
    ("the readers", the_readers),
    ("end after the last departure", end_after_the_last_departure),
    ("end that changes no departure", end_that_changes_no_departure),
    ("headway 0 and an empty window", headway_0_and_an_empty_window),
    ("the empty move", the_empty_move),
    ("the widest window", the_widest_window),
    ("LINEAR", linear),
    ("SHARED", shared),
    ("ELEMENT", element),
    ("the other formulas", the_other_formulas),
    ("blank inputs", blank_inputs),
    ("blank inputs of MIN and MAX", skipped_blanks),
    ("the last bus", the_last_bus),
    ("circular models", circular_models),
    ("candidates that are not chosen", candidates_that_are_not_chosen),
    ("the trial buffer", the_trial_buffer),
    ("keeping", keeping),
    ("the ceiling of moves kept", the_ceiling_of_moves_kept),
    ("the number of blanks", the_number_of_blanks),
    ("bounds", bounds),
    ("stale values", stale_values),
    ("longer buffers", longer_buffers),
];
