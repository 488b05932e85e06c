//! Every run that the specification names, and both sides of the edge of every refusal.

mod naive;

use compare::boards::{BOARDS, random_boards};
use compare::chains::CHAINS;
use compare::deep::deepest_models;
use compare::edges::EDGES;
use compare::figures::{FIGURES, random_batches};
use compare::files::FILES;
use compare::frequencies::{FREQUENCIES, random_frequencies};
use compare::merges::{MERGES, random_merges};
use compare::parts::{PARTS, random_parts};
use compare::reasons::REASONS;
use compare::runs::{RUNS, model_a};
use compare::salvages::{SALVAGES, damaged_files};
use compare::sessions::{long_sessions, sessions_over_closed_chains};
use compare::takings::TAKINGS;
use compare::trials::{TRIALS, random_trials};
use compare::versions::{VERSIONS, random_files};
use compare::{Case, Engine, Second, Test};
use naive::Naive;

fn hold(tests: &[Test], engine: &dyn Engine) {
    for (name, test) in tests {
        println!("{name}");
        test(engine);
    }
}

#[test]
fn runs() {
    hold(RUNS, &Second);
}

#[test]
fn keeps_and_takings_back() {
    hold(TAKINGS, &Second);
}

#[test]
fn long_sessions_of_keeps_and_takings_back() {
    long_sessions(&Second);
}

#[test]
fn long_sessions_over_closed_chains() {
    sessions_over_closed_chains(&Second);
}

#[test]
fn closed_chains() {
    hold(CHAINS, &Second);
}

#[test]
fn closed_chains_by_the_definitions() {
    hold(CHAINS, &Naive);
}

#[test]
fn refusals_on_both_sides() {
    hold(EDGES, &Second);
}

#[test]
fn runs_by_the_definitions() {
    hold(RUNS, &Naive);
}

#[test]
fn keeps_and_takings_back_by_the_definitions() {
    hold(TAKINGS, &Naive);
}

#[test]
fn reasons() {
    hold(REASONS, &Second);
}

#[test]
fn reasons_by_the_definitions() {
    let tiny = |name: &str| !["4,096 variables", "the longest chain"].contains(&name);
    let tests: Vec<_> = REASONS.iter().copied().filter(|(name, _)| tiny(name)).collect();
    hold(&tests, &Naive);
}

#[test]
fn refusals_by_the_definitions() {
    let large =
        ["1: counts", "1: reasons of 4,096 variables", "4: bounds of 4,096 variables", "6", "14: bounds", "19: bounds"];
    let tiny = |name: &str| !large.contains(&name);
    let tests: Vec<_> = EDGES.iter().copied().filter(|(name, _)| tiny(name)).collect();
    hold(&tests, &Naive);
}

#[test]
fn files_there_and_back() {
    hold(FILES, &Second);
}

#[test]
fn salvage_on_both_sides() {
    hold(SALVAGES, &Second);
}

#[test]
fn salvage_by_the_definitions() {
    let small = |name: &str| !["14", "16,384 entries", "undamaged files", "the largest files"].contains(&name);
    let tests: Vec<_> = SALVAGES.iter().copied().filter(|(name, _)| small(name)).collect();
    hold(&tests, &Naive);
}

#[test]
fn random_damaged_files_are_saved() {
    damaged_files(&Second);
}

#[test]
fn both_versions_on_both_sides() {
    hold(VERSIONS, &Second);
}

#[test]
fn both_versions_by_the_definitions() {
    let small = |name: &str| !["there and back with bounds", "the largest file with bounds"].contains(&name);
    let tests: Vec<_> = VERSIONS.iter().copied().filter(|(name, _)| small(name)).collect();
    hold(&tests, &Naive);
}

#[test]
fn random_files_of_both_versions_by_the_definitions() {
    random_files(&Naive);
}

#[test]
fn the_deepest_models_on_a_small_stack() {
    deepest_models(Second);
}

#[test]
fn batches_in_figures() {
    hold(FIGURES, &Second);
}

#[test]
fn batches_in_figures_by_the_definitions() {
    let small = |name: &str| !["the whole range", "figures: 1"].contains(&name);
    let tests: Vec<_> = FIGURES.iter().copied().filter(|(name, _)| small(name)).collect();
    hold(&tests, &Naive);
}

#[test]
fn random_batches_in_figures() {
    random_batches(&Second);
}

#[test]
fn figures_merged() {
    hold(MERGES, &Second);
    hold(MERGES, &Naive);
    random_merges(&Naive);
}

#[test]
fn many_moves_at_once() {
    hold(TRIALS, &Second);
}

#[test]
fn many_moves_at_once_by_the_definitions() {
    let tests: Vec<_> = TRIALS.iter().copied().filter(|(name, _)| *name != "trials: 1").collect();
    hold(&tests, &Naive);
}

#[test]
fn random_moves_many_at_once() {
    random_trials(&Second);
}

#[test]
fn departure_boards() {
    hold(BOARDS, &Second);
    hold(BOARDS, &Naive);
}

#[test]
fn random_departure_boards_by_the_definitions() {
    random_boards(&Naive);
}

#[test]
fn frequencies() {
    hold(FREQUENCIES, &Second);
    hold(FREQUENCIES, &Naive);
}

#[test]
fn random_frequencies_by_the_definitions() {
    random_frequencies(&Naive);
}

#[test]
fn inputs_of_rows() {
    hold(PARTS, &Second);
    hold(PARTS, &Naive);
    random_parts(&Naive);
}

#[test]
fn inputs_of_a_row() {
    let Case { m, e, firsts, counts, vars, .. } = model_a();
    let inputs = |m, e, row| second::inputs_of_row(m, e, &firsts, &counts, &vars, row).to_vec();
    assert_eq!(inputs(m, e, 1), [0, 1, 2]);
    assert_eq!(inputs(m, e, 2), [3]);
    assert_eq!(inputs(m, e, 3), [0; 0], "no such row");
    assert_eq!(inputs(4, e, 3), [0; 0], "no such row in the tables");
    assert_eq!(inputs(m, 6, 2), [0; 0], "a part that ends after e");
    assert_eq!(inputs(m, 6, 1), [0, 1, 2], "a part that ends at e");
    assert_eq!(inputs(m, 99, 2), [3], "e beyond the entries");
    let part = second::inputs_of_row(m, e, &firsts, &counts, &vars, 1);
    assert!(std::ptr::eq(part, &vars[3..6]), "the very part");
}
