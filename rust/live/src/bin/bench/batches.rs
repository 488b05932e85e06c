//! Batches beside the trials of their moves: 1,000 moves in one call, by one route and in figures by all three.

use std::hint::black_box;
use std::process::Command;
use std::time::Instant;

use compare::figures::batch;
use compare::runs::{built, trial};
use compare::trials::many;
use compare::{Case, Engine, Second};
use live::Proved;
use lukhandro::lent::MOST_MOVES;

use crate::graphs::Graph;

/// Rounds of each call.
const ROUNDS: usize = 7;

/// The head of the table.
pub fn print_head() {
    println!("graph              size     n     m      e  trial   trials  moves/s  ratio    3 routes  figures  ratio");
}

/// One line of the table: microseconds for each move, by route 3 alone and in a batch, and by the three routes and in figures.
pub fn print_line(graph: &Graph) {
    let model = built(&Second, &graph.build);
    let moves: Vec<Vec<(u16, i32)>> = graph.moves.iter().cycle().take(MOST_MOVES).cloned().collect();
    let each = |route| graph.moves.clone().map(|moved| trial(&model, &moved, &[graph.asked], route));
    let alone = [1, 2, 3].map(|route| best(&each(route)) / 2.0);
    let trials = best(&[many(&model, &moves, &[graph.asked], 3)]) / MOST_MOVES as f64;
    let figures = best(&[batch(&model, &moves, graph.asked)]) / MOST_MOVES as f64;
    let Case { n, m, e, .. } = graph.build;
    let three: f64 = alone.iter().sum();
    println!(
        "{:<16} {:>5} {n:>5} {m:>5} {e:>6} {:>6.2} {:>8.3} {:>8.0} {:>6.1}  {:>10.2} {:>8.3} {:>6.1}",
        graph.name,
        graph.size,
        alone[2] * 1e6,
        trials * 1e6,
        1.0 / trials,
        alone[2] / trials,
        three * 1e6,
        figures * 1e6,
        three / figures
    );
}

/// The day's sheet from Python, by numpy over a copy for each move and by the binding: `copies.py`, under the Python that
/// Debian's numpy is for.
pub fn print_copies() {
    println!();
    let script = concat!(env!("CARGO_MANIFEST_DIR"), "/src/bin/bench/copies.py");
    let run = Command::new("/usr/bin/python3").arg(script).env("PYTHONDONTWRITEBYTECODE", "1").status();
    if let Err(error) = run {
        println!("numpy is not measured: /usr/bin/python3: {error}");
    }
}

/// The best time of some calls one after another, in seconds.
fn best(calls: &[Case]) -> f64 {
    let mut lent = calls.to_vec();
    let times = if calls.len() == 1 { 1 } else { 500 };
    let round = |lent: &mut Vec<Case>| {
        let start = Instant::now();
        for _ in 0..times {
            for case in lent.iter_mut() {
                black_box(Proved.answer(case));
            }
        }
        start.elapsed().as_secs_f64() / times as f64
    };
    (0..ROUNDS).map(|_| round(&mut lent)).fold(f64::MAX, f64::min)
}
