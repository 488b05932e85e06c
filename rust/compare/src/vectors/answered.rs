//! What an engine makes of a case, with what must hold of every call.

use crate::{Call, Case, Engine, Side};

/// The answer of an engine to a case, and the case as the call left it.
///
/// # Panics
/// If a guard is hurt, if a refused call changes anything, or if an accepted one changes what it is not lent to fill.
pub(super) fn answered(engine: &dyn Engine, what: &str, case: &Case) -> Side {
    let side = Side::of(engine, case);
    assert!(side.left.intact(), "{what}: a guard is hurt");
    if side.answer.number == 0 {
        assert!(filled(case, &side.left) == side.left, "{what}: more is changed than the call is lent to fill");
    } else {
        assert!(*case == side.left, "{what}: a refused call changes something");
    }
    side
}

/// The case, and of what the call left only that which it is lent to fill.
fn filled(case: &Case, left: &Case) -> Case {
    let Case { session, stored, reasons, flags, log_sizes, log_vars, log_values, .. } = left.clone();
    let case = case.clone();
    match case.call {
        Call::Build => built(case, left),
        Call::Trial => {
            let (results, trial, why) = (left.results.clone(), left.trial.clone(), left.why.clone());
            Case { session, results, trial, flags, why, ..case }
        }
        Call::Keep => Case { session, stored, reasons, flags, log_sizes, log_vars, log_values, ..case },
        Call::TakeBack => Case { session, stored, reasons, flags, log_sizes, ..case },
        Call::Read => read(case, left),
        Call::Salvage => Case { file: left.file.clone(), list: left.list.clone(), ..case },
        Call::Figures => Case { by_number: left.by_number.clone(), ..case },
        Call::Departures => Case { board: left.board.clone(), ..case },
        Call::Frequencies => windows(case, left),
        Call::WriteFrequencies => Case { file: left.file.clone(), ..case },
        other => panic!("no vectors have {other:?}"),
    }
}

/// What a build fills.
fn built(case: Case, left: &Case) -> Case {
    let Case { session, numbers, order, stored, reader_starts, reader_places, reasons, log_sizes, .. } = left.clone();
    Case { session, numbers, order, stored, reader_starts, reader_places, reasons, log_sizes, ..case }
}

/// What a read of frequencies.txt fills.
fn windows(case: Case, left: &Case) -> Case {
    let Case { name_places, name_lengths, name_doubled, starts, ends, headways, exacts, lines, .. } = left.clone();
    Case { name_places, name_lengths, name_doubled, starts, ends, headways, exacts, lines, ..case }
}

/// What a read fills.
fn read(case: Case, left: &Case) -> Case {
    let Case { starts, kinds, makes, params, firsts, counts, vars, coefs, .. } = left.clone();
    Case { starts, kinds, makes, params, firsts, counts, vars, coefs, ..case }
}
