//! What the binding says of check 1 is what the engine refuses with 1: a count, or the buffer that is too short.

use compare::edges::EDGES;
use compare::{Answer, Call, Case, Engine, Second, Sizes, run, seed};
use live::Proved;
use lukhandro::Cause;
use lukhandro::lent::{
    Asked, Batch, Bounds, Built, Figures, Keep, Move, State, Tables, TakeBack, Trial, Tried, unfit_for_build,
    unfit_for_figures, unfit_for_keep, unfit_for_take_back, unfit_for_trial,
};

/// The proved engine, which has to refuse with 1 just what is said to be unfit.
struct Explained;

impl Engine for Explained {
    fn answer(&self, case: &mut Case) -> Answer {
        let judged = matches!(case.call, Call::Build | Call::Trial | Call::Keep | Call::TakeBack | Call::Figures);
        let unfit = unfit(&mut case.clone());
        let answer = Proved.answer(case);
        assert!(!judged || unfit.is_some() == (answer.number == 1), "{unfit:?} and {answer:?}\n{:?}", case.fields());
        answer
    }
}

/// What is too large or too short for a call.
#[rustfmt::skip]
fn unfit(case: &mut Case) -> Option<Cause> {
    let Case { call, n, m, e, starts, kinds, makes, params, firsts, counts, vars, coefs, .. } = case;
    let tables = Tables { n: *n, m: *m, e: *e, kinds, makes, params, firsts, counts, vars, coefs };
    let bounds = Bounds { lows: &case.lows, highs: &case.highs };
    let moved = Move { pairs: case.pairs, vars: &case.move_vars, values: &case.move_values };
    let (numbers, order, stored, flags) = (&mut *case.numbers, &mut *case.order, &mut *case.stored, &mut *case.flags);
    let (reader_starts, reader_places) = (&mut *case.reader_starts, &mut *case.reader_places);
    let reasons = &mut *case.reasons;
    let (log_sizes, log_vars, log_values) = (&mut *case.log_sizes, &mut *case.log_vars, &mut *case.log_values);
    match call {
        Call::Build => {
            let built = Built { numbers, order, stored, reader_starts, reader_places, reasons, log_sizes };
            unfit_for_build(tables, bounds, starts, &built)
        }
        Call::Trial => {
            let state = State { numbers, order, stored, reader_starts, reader_places, reasons };
            let asked = Asked { asked: case.asked, vars: &case.asked_vars };
            let tried = Tried { results: &mut case.results, trial: &mut case.trial, flags, why: &mut case.why };
            unfit_for_trial(tables, bounds, &Trial { state, moved, asked, route: case.route, tried })
        }
        Call::Keep => {
            let keep = Keep {
                numbers, order, stored, reader_starts, reader_places, reasons, moved, flags, log_sizes, log_vars, log_values,
            };
            unfit_for_keep(tables, bounds, &keep)
        }
        Call::TakeBack => {
            let back = TakeBack {
                numbers, order, stored, reader_starts, reader_places, reasons, flags, log_sizes, log_vars, log_values,
            };
            unfit_for_take_back(tables, bounds, &back)
        }
        Call::Figures => {
            let (vars, values, by_number) = (&case.move_vars, &case.move_values, &mut *case.by_number);
            let batch = Batch { moves: case.moves, pairs: &case.move_pairs, vars, values };
            let asked = case.asked as u16;
            let lent = Figures { numbers, order, stored, reader_starts, reader_places, batch, asked, by_number };
            unfit_for_figures(&lent)
        }
        _ => None,
    }
}

#[test]
fn on_both_sides_of_every_edge() {
    EDGES.iter().for_each(|(name, test)| {
        println!("{name}");
        test(&Explained);
    });
}

#[test]
fn on_random_calls() {
    let tally = run(&Explained, &Second, seed(), 20_000, Sizes::any_model);
    assert!(tally.is_ok());
}

#[test]
fn on_batches() {
    compare::figures::FIGURES.iter().for_each(|(_, test)| test(&Explained));
}
