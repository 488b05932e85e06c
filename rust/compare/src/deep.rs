//! The deepest models through every call, as tests of any engine on a small stack.

use std::thread;

use crate::boards::board;
use crate::figures::batch;
use crate::frequencies::{self, long_feed};
use crate::parts::asking;
use crate::runs::{built, keep, take_back, trial};
use crate::salvages::salvage_of;
use crate::trials::many;
use crate::versions::{moving, reading_bounded, writing};
use crate::{Answer, Call, Case, Engine, Side, chain, edges};

/// The stack on which every call is to come back, in bytes.
pub const STACK: usize = 2 << 20;

/// The kinds of which a chain can be 4,095 rows deep with 4 inputs each.
const KINDS: [u16; 6] = [1, 2, 3, 4, 5, 6];

/// Sends chains of 4,095 rows through every call, on a thread with a stack of 2 MiB.
///
/// # Panics
/// If a call is refused, or counts wrong.
pub fn deepest_models<E: Engine + Send + 'static>(engine: E) {
    let through = move || {
        for model in models() {
            for (name, case) in calls(&engine, &model) {
                every_row(name, Side::of(&engine, &case).answer);
            }
        }
        edges::the_longest_chain(&engine);
        rings().iter().for_each(|ring| round_a_ring(&engine, ring));
    };
    let thread = thread::Builder::new().stack_size(STACK).spawn(through).expect("a thread");
    thread.join().expect("every call comes back");
}

/// Asserts that a call of this name is accepted and evaluates all rows; input to output, at least one.
fn every_row(name: &str, answer: Answer) {
    assert_eq!(answer.number, 0, "{name}");
    match name {
        "read" => assert_eq!((answer.n, answer.m, answer.e), (4096, 4095, 16380)),
        "read bounded" => assert_eq!((answer.n, answer.m, answer.e), (4096, 4095, 16380)),
        "write" | "write bounded" => {}
        "to version 2" => assert_eq!(answer.length, 163_840),
        "to version 1" => assert_eq!(answer.length, 131_068),
        "salvage" => assert_eq!((answer.length, answer.rows, answer.values), (131_068, 0, 0)),
        "figures" => assert!(answer.first > 0 && (answer.second, answer.third) == (4095, 4095), "{answer:?}"),
        "departures" => assert_eq!(answer.length, 2000),
        "inputs" => assert_eq!((answer.first, answer.count), (16376, 4)),
        "frequencies" => assert_eq!(answer.length, 1000),
        "frequencies written" => assert!(answer.length > 100_000, "{answer:?}"),
        "route 1" | "keep" | "taking back" => assert!(answer.evaluations > 0, "{name}"),
        _ => assert_eq!(answer.evaluations, 4095, "{name}"),
    }
}

/// The deepest models, as builds: chains of each kind, with their variables named from the first to the last and from
/// the last to the first, and then with their rows from the last to the first as well, and a chain of indices.
#[must_use]
pub fn models() -> Vec<Case> {
    let mut models = vec![chain_of_indices()];
    for kind in KINDS {
        let chain = chain(kind, 4095, 4, 1);
        models.extend([backwards(&upside_down(&chain)), upside_down(&chain), chain]);
    }
    models
}

/// Every call on a deepest model by name; a move at the near end of the chain is tried, seen in figures, kept and taken
/// back, and the far end asked.
pub fn calls(engine: &dyn Engine, model: &Case) -> [(&'static str, Case); 19] {
    let built = built(engine, model);
    let search = built.numbers.iter().position(|&number| number == 0).unwrap_or(0) as u16;
    let moved = [(search, 2)];
    let far = far_end(model);
    let route = |route| trial(&built, &moved, &[far], route);
    let kept = keep(&built, &moved);
    let write = edges::file(model);
    let read = Case { call: Call::Read, ..Side::of(engine, &write).left };
    let up = moving(Call::ToVersion2, &read.bytes, 163_840);
    let moved_up = Side::of(engine, &up).left.file.to_vec();
    let feed = long_feed(1000);
    [
        ("build", model.clone()),
        ("route 1", route(1)),
        ("route 2", route(2)),
        ("route 3", route(3)),
        ("figures", batch(&built, &[moved.to_vec()], far)),
        ("trials", many(&built, &[moved.to_vec()], &[far], 3)),
        ("taking back", take_back(&Side::of(engine, &kept).left)),
        ("keep", kept),
        ("write", write),
        ("salvage", salvage_of(&read.bytes)),
        ("to version 2", up),
        ("to version 1", moving(Call::ToVersion1, &moved_up, 131_068)),
        ("read bounded", reading_bounded(&moved_up)),
        ("write bounded", writing(model, &vec![(0, 1); model.n])),
        ("read", read),
        ("departures", board(&many_windows())),
        ("inputs", asking(model, 4094)),
        ("frequencies written", frequencies::writing(&Side::of(engine, &feed).left, 1000)),
        ("frequencies", feed),
    ]
}

/// As many windows as a board may have, with as many departures together.
fn many_windows() -> Vec<(i32, i32, i32)> {
    (0..64).map(|window| (100 * window, 100 * window + if window < 16 { 32 } else { 31 }, 1)).collect()
}

/// A chain of ELEMENT rows, each of which takes the variable before its own for its index and chooses variable 0.
fn chain_of_indices() -> Case {
    let mut model = chain(4, 4095, 4, 0);
    for (above, part) in (0..).zip(model.vars.chunks_mut(4)) {
        part.copy_from_slice(&[above, 0, 0, 0]);
    }
    model
}

/// The longest closed chains, as builds: rows of ELEMENT or of MAX, the first an ELEMENT that reads the last; its second
/// candidate leads round.
#[must_use]
pub fn rings() -> Vec<Case> {
    let ring = |kind: u16| {
        let mut ring = chain(kind, 4095, 4, 0);
        (ring.kinds[0], ring.vars[2]) = (4, 4095);
        ring
    };
    [4, 3].into_iter().flat_map(|kind| [upside_down(&ring(kind)), ring(kind)]).collect()
}

/// Asserts that every call goes along a whole ring, and that a move round it is refused.
fn round_a_ring(engine: &dyn Engine, ring: &Case) {
    for (name, case) in calls(engine, ring).iter().filter(|(name, _)| *name != "salvage") {
        let answer = Side::of(engine, case).answer;
        every_row(name, answer);
        if ["route 1", "keep", "taking back"].contains(name) {
            assert_eq!(answer.evaluations, 4095, "{name}");
        }
    }
    let model = built(engine, ring);
    assert_eq!(model.numbers.iter().filter(|&&number| number == 1).count(), 4095, "one group");
    let search = model.numbers.iter().position(|&number| number == 0).unwrap_or(0);
    let mut round = ring.clone();
    round.starts[search] = 1;
    let moved = [(search as u16, 1)];
    let routes = [1, 2, 3].map(|route| trial(&model, &moved, &[], route));
    for case in routes.iter().chain([&keep(&model, &moved), &round]) {
        let answer = Side::of(engine, case).answer;
        assert_eq!((answer.number, answer.place), (20, u32::from(search == 0)), "{:?}", case.call);
    }
}

/// The same model with its variables named from the last to the first.
fn upside_down(model: &Case) -> Case {
    let mut model = model.clone();
    let last = (model.n - 1) as u16;
    for variable in model.makes.iter_mut() {
        *variable = last - *variable;
    }
    for variable in model.vars.iter_mut() {
        *variable = last - *variable;
    }
    model.starts.reverse();
    model
}

/// The same model with its rows, of four inputs each, from the last to the first.
fn backwards(model: &Case) -> Case {
    let mut model = model.clone();
    model.kinds.reverse();
    model.makes.reverse();
    let vars: Vec<u16> = model.vars.chunks(4).rev().flatten().copied().collect();
    model.vars.copy_from_slice(&vars);
    model
}

/// What the last row of a chain makes, or the first if the chain goes backwards: nobody reads it then.
fn far_end(model: &Case) -> u16 {
    if model.vars.contains(&model.makes[0]) { model.makes[4094] } else { model.makes[0] }
}
