//! Times the proved engine beside the second implementation, by turns in one run, and prints a table; then times the
//! program `values` on large models. On x86-64:
//!
//!     cargo run -p live --release --bin bench               # everything
//!     cargo run -p live --release --bin bench chain keep    # only the lines that have these words
//!     cargo run -p live --release --bin bench batches       # only batches, beside the trials of their moves
//!     cargo run -p live --release --bin bench frequencies   # only frequencies.txt, beside a reader by hand and Python's csv
//!
//! Times of calls are microseconds for one call; the best of the rounds counts. The last columns show how time grows:
//! nanoseconds for each variable, row and entry. A call that is linear keeps them level from size to size.

mod batches;
mod by_hand;
mod frequencies;
mod graphs;
mod values;

use std::hint::black_box;
use std::time::{Duration, Instant};

use compare::runs::{built, keep, take_back, trial};
use compare::{Call, Case, Engine, Second};
use graphs::{Graph, graphs};
use live::Proved;
use lukhandro::{MOST_LOGGED, MOST_PAIRS};

/// How long the calls of one round take, about.
const ROUND: Duration = Duration::from_millis(1);

/// Rounds of each engine.
const ROUNDS: usize = 24;

fn main() {
    let words: Vec<String> = std::env::args().skip(1).collect();
    let wanted = |line: &str| words.iter().all(|word| line.contains(word.as_str()));
    println!("graph              size     n     m      e  call         engine     second  ratio  engine/  second/");
    for graph in graphs() {
        for (name, calls) in calls_of(&graph) {
            if wanted(&format!("{} {} {name}", graph.name, graph.size)) {
                let [engine, second] = timed([&Proved, &Second], &calls);
                print_line(&graph, name, engine, second);
            }
        }
    }
    if words.is_empty() || words.iter().any(|word| word == "batches") {
        println!();
        batches::print_head();
        let wanted = |graph: &Graph| words.iter().all(|word| word == "batches" || graph.name.contains(word.as_str()));
        graphs().iter().filter(|graph| wanted(graph)).for_each(batches::print_line);
        batches::print_copies();
    }
    if wanted("values") {
        println!();
        values::print();
    }
    if wanted("frequencies") {
        println!();
        frequencies::print();
    }
}

/// One line of the table; times are in seconds.
fn print_line(graph: &Graph, call: &str, engine: f64, second: f64) {
    let Case { n, m, e, .. } = graph.build;
    let each = 1e9 / (n + m + e) as f64;
    println!(
        "{:<16} {:>5} {n:>5} {m:>5} {e:>6}  {call:<8} {:>10.2} {:>10.2} {:>6.2} {:>8.3} {:>8.3}",
        graph.name,
        graph.size,
        engine * 1e6,
        second * 1e6,
        engine / second,
        engine * each,
        second * each
    );
}

/// The best time of a call of each engine, in seconds: rounds of one and of the other by turns.
fn timed(engines: [&dyn Engine; 2], calls: &[Case; 2]) -> [f64; 2] {
    let mut lent = [calls.clone(), calls.clone()];
    let times = engines.map(|engine| times_in_a_round(engine, calls));
    let mut best = [f64::MAX; 2];
    for turn in 0..ROUNDS {
        for which in if turn % 2 == 0 { [0, 1] } else { [1, 0] } {
            best[which] = best[which].min(round(engines[which], &mut lent[which], times[which]));
        }
    }
    best
}

/// How many times two calls fit into a round.
fn times_in_a_round(engine: &dyn Engine, calls: &[Case; 2]) -> usize {
    let once = round(engine, &mut calls.clone(), 3);
    ((ROUND.as_secs_f64() / once / 2.0) as usize).clamp(1, 20_000)
}

/// The time of one call, on the average of a round.
fn round(engine: &dyn Engine, calls: &mut [Case; 2], times: usize) -> f64 {
    let start = Instant::now();
    for _ in 0..times {
        let [one, other] = &mut *calls;
        black_box(engine.answer(one));
        hand_on(one, other);
        black_box(engine.answer(other));
        hand_on(other, one);
    }
    start.elapsed().as_secs_f64() / (2 * times) as f64
}

/// A keep finds the values, their reasons and number of blanks and the log that the keep before it left. A taking back finds
/// the values, their reasons and number of blanks, and a log that is full again.
fn hand_on(from: &mut Case, to: &mut Case) {
    if matches!(from.call, Call::Keep | Call::TakeBack) {
        std::mem::swap(&mut from.stored, &mut to.stored);
        std::mem::swap(&mut from.reasons, &mut to.reasons);
        std::mem::swap(&mut from.session.blanks, &mut to.session.blanks);
    }
    if from.call == Call::Keep {
        std::mem::swap(&mut from.log_sizes, &mut to.log_sizes);
        std::mem::swap(&mut from.log_vars, &mut to.log_vars);
        std::mem::swap(&mut from.log_values, &mut to.log_values);
    }
    if from.call == Call::TakeBack {
        from.log_sizes[0] = MOST_LOGGED as u16;
        from.session.kept = MOST_LOGGED as u32;
    }
}

/// A move with pairs of other search variables behind its own that change nothing: 64 of them, or as many as there are.
fn widened(model: &Case, moved: &[(u16, i32)]) -> Vec<(u16, i32)> {
    let mut pairs = moved.to_vec();
    let search = (0..).zip(&*model.numbers).filter(|(_, number)| **number == 0).map(|(variable, _)| variable);
    let others: Vec<u16> = search.filter(|variable| moved.iter().all(|(named, _)| named != variable)).collect();
    pairs.extend(others.iter().map(|&variable| (variable, model.stored[usize::from(variable)])));
    pairs.truncate(MOST_PAIRS);
    pairs
}

/// Every call on a graph, each in two versions: one move and the other. A keep and a taking back have a log of 64 such
/// moves; those of "back 64" have 64 pairs each.
fn calls_of(graph: &Graph) -> Vec<(&'static str, [Case; 2])> {
    let model = built(&Second, &graph.build);
    let [one, other] = &graph.moves;
    let both = |case: &Case| [case.clone(), case.clone()];
    let full = |moved: &[(u16, i32)]| {
        let mut full = model.clone().with_moves(&vec![moved.to_vec(); MOST_LOGGED]);
        full.session.kept = MOST_LOGGED as u32;
        full
    };
    let route = |route| [one, other].map(|moved| trial(&model, moved, &[graph.asked], route));
    let bytes = vec![0; 24 + 4 * model.n + 12 * model.m + 4 * model.e];
    let write = Case { call: Call::Write, bytes: bytes.into(), ..graph.build.clone() };
    let mut read = write.clone();
    Second.answer(&mut read);
    read.call = Call::Read;
    vec![
        ("build", both(&graph.build)),
        ("route 1", route(1)),
        ("route 2", route(2)),
        ("route 3", route(3)),
        ("keep", [one, other].map(|moved| keep(&full(moved), moved))),
        ("back", [one, other].map(|moved| take_back(&full(moved)))),
        ("back 64", [one, other].map(|moved| take_back(&full(&widened(&model, moved))))),
        ("read", both(&read)),
        ("write", both(&write)),
    ]
}
