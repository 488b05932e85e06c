//! Everything that an engine must pass, written once for every engine.

use crate::{Case, Engine, Random, Second, Sizes, Test, any_interlined, run, seed};

/// Runs tests one after another, each with its name printed.
pub fn hold(engine: &dyn Engine, tests: &[Test]) {
    for (name, test) in tests {
        println!("{name}");
        test(engine);
    }
}

/// A model of every size, a third of them with closed chains.
pub(crate) fn any_model(random: &mut Random) -> Case {
    if random.once_in(3) { any_interlined(random) } else { Sizes::any_model(random) }
}

/// The engine and the second implementation on 200,000 random calls: answer, record and every byte of every buffer.
///
/// # Panics
/// If they differ, or if a number or an accepted call hardly ever came back.
pub fn random_calls(engine: &dyn Engine) {
    let seed = seed();
    println!("seed {seed}");
    let tally = run(engine, &Second, seed, 200_000, any_model);
    let tally =
        tally.unwrap_or_else(|difference| panic!("seed {seed}: the engine is one, the second the other\n{difference}"));
    tally.assert_wide();
}

/// The tests of an engine: the runs that the specification names, why values are blank, closed chains, both sides of the edge of every
/// refusal, files there and back, the deepest models on a small stack, random calls beside the second implementation, long sessions of keeps
/// and takings back, the fuzz runs, files of both versions, damaged files that are saved, batches in figures, departure
/// boards, the inputs of rows, and frequencies.txt. The second expression is the engine whose calls have a stack of 2 MiB if their thread
/// has.
#[macro_export]
macro_rules! tests_of {
    ($engine:expr, $on_a_small_stack:expr) => {
        #[test]
        fn runs() {
            $crate::hold(&$engine, $crate::runs::RUNS);
        }

        #[test]
        fn keeps_and_takings_back() {
            $crate::hold(&$engine, $crate::takings::TAKINGS);
        }

        #[test]
        fn reasons() {
            $crate::hold(&$engine, $crate::reasons::REASONS);
        }

        #[test]
        fn closed_chains() {
            $crate::hold(&$engine, $crate::chains::CHAINS);
        }

        #[test]
        fn refusals_on_both_sides() {
            $crate::hold(&$engine, $crate::edges::EDGES);
        }

        #[test]
        fn files_there_and_back() {
            $crate::hold(&$engine, $crate::files::FILES);
        }

        #[test]
        fn the_deepest_models_on_a_stack_of_2_mib() {
            $crate::deep::deepest_models($on_a_small_stack);
        }

        #[test]
        fn two_hundred_thousand_random_calls() {
            $crate::random_calls(&$engine);
        }

        #[test]
        fn long_sessions_of_keeps_and_takings_back() {
            $crate::sessions::long_sessions(&$engine);
        }

        #[test]
        fn long_sessions_over_closed_chains() {
            $crate::sessions::sessions_over_closed_chains(&$engine);
        }

        #[test]
        fn kept_cases() {
            $crate::fuzz::kept_cases(&$engine);
        }

        #[test]
        fn mutated_files_through_read_and_build() {
            $crate::fuzz::mutated_files(&$engine);
        }

        #[test]
        fn scrambled_buffers_through_every_call() {
            $crate::fuzz::scrambled_buffers(&$engine);
        }

        #[test]
        fn salvage_on_both_sides() {
            $crate::hold(&$engine, $crate::salvages::SALVAGES);
        }

        #[test]
        fn both_versions_on_both_sides() {
            $crate::hold(&$engine, $crate::versions::VERSIONS);
        }

        #[test]
        fn random_files_of_both_versions() {
            $crate::versions::random_files(&$engine);
        }

        #[test]
        fn random_damaged_files_are_saved() {
            $crate::salvages::damaged_files(&$engine);
        }

        #[test]
        fn batches_in_figures() {
            $crate::hold(&$engine, $crate::figures::FIGURES);
        }

        #[test]
        fn random_batches_in_figures() {
            $crate::figures::random_batches(&$engine);
        }

        #[test]
        fn figures_merged() {
            $crate::hold(&$engine, $crate::merges::MERGES);
            $crate::merges::random_merges(&$engine);
        }

        #[test]
        fn many_moves_at_once() {
            $crate::hold(&$engine, $crate::trials::TRIALS);
        }

        #[test]
        fn random_moves_many_at_once() {
            $crate::trials::random_trials(&$engine);
        }

        #[test]
        fn departure_boards_on_both_sides() {
            $crate::hold(&$engine, $crate::boards::BOARDS);
        }

        #[test]
        fn random_departure_boards() {
            $crate::boards::random_boards(&$engine);
        }

        #[test]
        fn inputs_of_rows() {
            $crate::hold(&$engine, $crate::parts::PARTS);
            $crate::parts::random_parts(&$engine);
        }

        #[test]
        fn frequencies_on_both_sides() {
            $crate::hold(&$engine, $crate::frequencies::FREQUENCIES);
        }

        #[test]
        fn random_frequencies() {
            $crate::frequencies::random_frequencies(&$engine);
        }
    };
}
