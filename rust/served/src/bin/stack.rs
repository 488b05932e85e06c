//! Measures the least stack on which the proved engine answers each call on the deepest models, chains and rings of
//! 4,095 rows, in steps of 16 KiB: `cargo run --release --bin stack`. The stack is the whole program's, which has a few
//! KiB of its own.

use std::ops::Range;

use compare::deep::{STACK, calls, models, rings};
use compare::{Case, Second};
use served::Served;

/// What is measured is a multiple of this, in bytes.
const STEP: usize = 16 << 10;

/// What is measured begins here.
const LEAST: usize = 128 << 10;

fn main() {
    println!("KiB of stack for the deepest models, on {}:", std::env::consts::ARCH);
    println!("{:<19} {:>5} {:>5}", "", "chain", "ring");
    let [chains, rings] = [models(), rings()].map(|models| every_call(&models));
    for (which, (name, _)) in chains[0].iter().enumerate() {
        println!("{name:<19} {:>5} {:>5}", least_of(&chains, which), least_of(&rings, which));
    }
}

/// Every call on each of some models, by name.
fn every_call(models: &[Case]) -> Vec<Vec<(&'static str, Case)>> {
    models.iter().map(|model| calls(&Second, model).to_vec()).collect()
}

/// The least stack on which a call is answered on all models, in KiB.
fn least_of(models: &[Vec<(&'static str, Case)>], which: usize) -> usize {
    let cases: Vec<&Case> = models.iter().map(|calls| &calls[which].1).collect();
    least(LEAST / STEP..STACK / STEP + 1, &cases) * STEP / 1024
}

/// The least number of steps in a range on which all cases are answered.
fn least(mut steps: Range<usize>, cases: &[&Case]) -> usize {
    while steps.len() > 1 {
        let middle = steps.start + (steps.len() - 1) / 2;
        if answers_all(middle * STEP, cases) {
            steps.end = middle + 1;
        } else {
            steps.start = middle + 1;
        }
    }
    steps.start
}

/// Whether a server on so much stack answers all cases.
fn answers_all(stack: usize, cases: &[&Case]) -> bool {
    let server = Served::start_on(stack);
    cases.iter().all(|&case| server.try_answer(&mut case.clone()).is_ok())
}
