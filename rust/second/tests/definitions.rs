//! The second implementation against the definitions: random calls on tiny models, byte by byte.

mod naive;

use std::panic::catch_unwind;

use compare::boards::random_boards;
use compare::figures::tiny_batches;
use compare::frequencies::random_frequencies;
use compare::merges::random_merges;
use compare::parts::random_parts;
use compare::salvages::tiny_damaged_files;
use compare::trials::tiny_trials;
use compare::{
    Answer, Call, Case, Engine, Random, Second, Side, Sizes, compare, has_closed_chain, interlined, model, run, seed,
};
use naive::Naive;
use second::{BLANK, HIGHEST, LOWEST};

/// A tiny model, every third with closed chains.
fn tiny_model(random: &mut Random) -> Case {
    if random.once_in(3) { interlined(random, Sizes::TINY) } else { model(random, Sizes::TINY) }
}

#[test]
fn agrees_with_the_definitions() {
    let seed = seed();
    println!("seed {seed}");
    let tally = run(&Second, &Naive, seed, 200_000, tiny_model);
    let tally = tally.unwrap_or_else(|difference| panic!("seed {seed}\n{difference}"));
    tally.assert_wide();
}

#[test]
fn saves_as_the_definitions_do() {
    tiny_damaged_files(&Naive);
}

#[test]
fn figures_as_the_definitions_have_them() {
    tiny_batches(&Naive);
}

#[test]
fn many_moves_as_the_definitions_have_them() {
    tiny_trials(&Naive);
}

/// A fault in a call above the engine, over what was lent, what is left and the answer.
type FaultAbove = fn(&Case, &mut Case, &mut Answer);

/// What is wrong, the test that is to find it, and the fault.
type Above = (&'static str, fn(&dyn Engine), FaultAbove);

/// An engine with such a fault.
struct FaultyAbove(FaultAbove);

impl Engine for FaultyAbove {
    fn answer(&self, case: &mut Case) -> Answer {
        let lent = case.clone();
        let mut answer = Second.answer(case);
        self.0(&lent, case, &mut answer);
        answer
    }
}

#[test]
fn finds_faults_above_the_engine() {
    let faults: [Above; 28] = [
        ("blank results left out", tiny_batches, |_, _, answer| answer.blank = 0),
        ("a sum of 32 bits", tiny_batches, |_, _, answer| answer.sum = i64::from(answer.sum as i32)),
        ("the least of no result is 0", tiny_batches, |_, _, answer| answer.least = answer.least.max(-i32::MAX)),
        ("one route for all", tiny_batches, |_, _, answer| answer.third = answer.second),
        ("accepted moves left out", tiny_batches, |_, case, _| case.by_number.put(0, 0)),
        ("a record that is set", tiny_batches, |_, case, answer| case.session.evaluations = answer.first),
        ("a refused batch that writes", tiny_batches, |_, case, answer| {
            if answer.number == 1 {
                case.by_number.put(0, 0);
            }
        }),
        ("a blank least that is kept", random_merges, |lent, _, answer| {
            if answer.number == 0 {
                answer.least = lent.parts[0].least.min(lent.parts[1].least);
            }
        }),
        ("figures of a refused batch", random_merges, |lent, _, answer| answer.blank = lent.parts[0].blank),
        ("the second refusal", random_merges, |lent, _, answer| {
            if lent.parts[1].number != 0 {
                answer.number = lent.parts[1].number;
            }
        }),
        ("what does not fit is written", random_merges, |lent, case, answer| {
            if answer.number == 1 {
                case.by_number.put(21, lent.first_by_number.first().copied().unwrap_or(0));
            }
        }),
        ("a move tried over what the move before left", tiny_trials, |_, case, _| {
            if (2..=case.move_numbers.len()).contains(&case.moves) && case.move_numbers[..2] == [0, 0] && case.asked > 0
            {
                let before = case.results[0];
                case.results.put(case.asked, before);
            }
        }),
        ("a refused move that writes", tiny_trials, |_, case, answer| {
            let refused = (0..case.moves).find(|&which| answer.number == 0 && case.move_numbers[which] != 0);
            if let Some(which) = refused {
                case.results.put(which * case.asked, BLANK);
            }
        }),
        ("evaluations of the last move alone", tiny_trials, |_, case, answer| {
            if answer.number == 0 && case.moves > 0 {
                answer.evaluations = case.move_evaluations[case.moves - 1];
            }
        }),
        ("a record that is set by many moves", tiny_trials, |_, case, answer| {
            case.session.evaluations = answer.evaluations
        }),
        ("a list that ends early", random_boards, |lent, case, _| {
            let last = case.board.len().saturating_sub(1);
            let before = lent.board.get(last).copied().unwrap_or(0);
            case.board.put(last, before);
        }),
        ("an overlap at the first window", random_boards, |_, _, answer| {
            if answer.number == 3 {
                answer.place = 0;
            }
        }),
        ("a short row before too many", random_boards, |_, _, answer| {
            if answer.number == 5 {
                answer.number = 4;
            }
        }),
        ("a length that is refused", random_boards, |_, case, answer| answer.length = case.board.len() as u32),
        ("a part from the front", random_parts, |_, _, answer| answer.first = 0),
        ("a line counted from 0", random_frequencies, |_, _, answer| answer.place = answer.place.saturating_sub(1)),
        ("start and end swapped", random_frequencies, |_, case, answer| {
            if case.call == Call::Frequencies && answer.number == 0 {
                std::mem::swap(&mut case.starts, &mut case.ends);
            }
        }),
        ("a name with the quote before it", random_frequencies, |_, case, answer| {
            if case.call == Call::Frequencies && answer.length > 0 && case.name_doubled[0] == 1 {
                case.name_places[0] -= 1;
            }
        }),
        ("quotes that are never double", random_frequencies, |_, case, answer| {
            if case.call == Call::Frequencies && answer.number == 0 {
                case.name_doubled[..answer.length as usize].fill(0);
            }
        }),
        ("the last window lost", random_frequencies, |_, case, answer| {
            if case.call == Call::Frequencies {
                answer.length = answer.length.saturating_sub(1);
            }
        }),
        ("a refused file that writes", random_frequencies, |_, case, answer| {
            if case.call == Call::Frequencies && answer.number > 4 {
                case.lines.put(0, 2);
            }
        }),
        ("no line feed at the end", random_frequencies, |_, case, answer| {
            if case.call == Call::WriteFrequencies && answer.number == 0 {
                case.file[answer.length as usize - 1] = 0xEE;
            }
        }),
        ("a written file that is refused", random_frequencies, |_, case, answer| {
            if case.call == Call::WriteFrequencies && answer.number == 9 {
                answer.number = 1;
            }
        }),
    ];
    for (name, test, fault) in faults {
        assert!(catch_unwind(|| test(&FaultyAbove(fault))).is_err(), "{name}");
    }
}

/// An engine with one fault that is easy to write.
struct Faulty(fn(&Case, &mut Case));

impl Engine for Faulty {
    fn answer(&self, case: &mut Case) -> Answer {
        let lent = case.clone();
        let mut answer = Second.answer(case);
        if answer.number == 0 {
            self.0(&lent, case);
            answer.evaluations =
                if matches!(case.call, Call::Read | Call::Write) { 0 } else { case.session.evaluations };
        }
        answer
    }
}

/// Finds the fault, and says how many rows the smallest case has on which it shows.
fn found(fault: fn(&Case, &mut Case)) -> usize {
    let found = run(&Faulty(fault), &Naive, 1, 20_000, |random| model(random, Sizes::TINY)).expect_err("a difference");
    assert!(compare(&Faulty(fault), &Naive, &found.case).is_err(), "the small case still shows the fault");
    found.case.m
}

#[test]
fn finds_a_buffer_of_another_length() {
    let fault = |_: &Case, case: &mut Case| case.trial = vec![0; case.trial.len() + 1].into();
    assert_eq!(found(fault), 0);
}

#[test]
fn finds_values_left_beyond_the_count() {
    let fault = |_: &Case, case: &mut Case| {
        if let Some(beyond) = case.flags.get_mut(case.n) {
            *beyond = 0;
        }
    };
    assert_eq!(found(fault), 0);
}

#[test]
fn finds_a_place_written_beyond_the_last_reader() {
    let fault = |_: &Case, case: &mut Case| {
        if case.call == Call::Build {
            let last = usize::from(case.reader_starts[case.n]);
            case.reader_places.put(last, 0);
        }
    };
    assert!(found(fault) <= 1);
}

#[test]
fn finds_old_values_put_back_only_where_asked() {
    let fault = |lent: &Case, case: &mut Case| {
        let asked = &case.asked_vars[..case.asked];
        for variable in (0..case.n).filter(|&variable| case.call == Call::Trial && !asked.contains(&(variable as u16)))
        {
            case.trial[variable] = lent.trial[variable];
        }
    };
    assert_eq!(found(fault), 0);
}

#[test]
fn finds_a_count_fixed_at_m() {
    let fault = |_: &Case, case: &mut Case| {
        if case.call == Call::Trial {
            case.session.evaluations = case.m as u32;
        }
    };
    assert!(found(fault) <= 1);
}

#[test]
fn finds_a_keep_that_leaves_the_values() {
    let fault = |lent: &Case, case: &mut Case| {
        if case.call == Call::Keep {
            case.stored = lent.stored.clone();
        }
    };
    assert_eq!(found(fault), 0);
}

#[test]
fn finds_a_record_that_keeps_its_count() {
    let fault = |lent: &Case, case: &mut Case| case.session.kept = lent.session.kept;
    assert_eq!(found(fault), 0);
}

#[test]
fn finds_a_number_of_blanks_that_stays() {
    for call in [Call::Build, Call::Keep, Call::TakeBack] {
        let fault: fn(&Case, &mut Case) = match call {
            Call::Build => |lent, case| keep_blanks(Call::Build, lent, case),
            Call::Keep => |lent, case| keep_blanks(Call::Keep, lent, case),
            _ => |lent, case| keep_blanks(Call::TakeBack, lent, case),
        };
        assert!(found(fault) <= 2, "{call:?}");
    }
}

/// Leaves the number of blanks as it was lent to a call.
fn keep_blanks(call: Call, lent: &Case, case: &mut Case) {
    if case.call == call {
        case.session.blanks = lent.session.blanks;
    }
}

#[test]
fn finds_a_trial_that_counts_the_blanks_of_its_own_row() {
    let fault = |_: &Case, case: &mut Case| {
        if case.call == Call::Trial {
            case.session.blanks = case.trial.iter().take(case.n).filter(|&&value| value == BLANK).count() as u32;
        }
    };
    assert!(found(fault) <= 2);
}

#[test]
fn finds_a_blank_beyond_the_variables_that_is_counted() {
    let fault = |_: &Case, case: &mut Case| {
        if case.call == Call::Keep {
            case.session.blanks += case.stored.iter().skip(case.n).filter(|&&value| value == BLANK).count() as u32;
        }
    };
    let beyond = |random: &mut Random| {
        let mut model = model(random, Sizes::TINY);
        model.stored.edit(|stored| stored.push(BLANK));
        model
    };
    let found = run(&Faulty(fault), &Naive, 1, 20_000, beyond).expect_err("a difference");
    assert_eq!(found.case.m, 0);
}

#[test]
fn finds_a_log_whose_oldest_move_stays() {
    let fault = |lent: &Case, case: &mut Case| {
        if case.call == Call::Keep && lent.logged() == 64 {
            case.log_vars[..4032].copy_from_slice(&lent.log_vars[..4032]);
            case.log_values[..4032].copy_from_slice(&lent.log_values[..4032]);
        }
    };
    assert_eq!(found(fault), 0);
}

#[test]
fn finds_a_log_of_new_values() {
    let fault = |lent: &Case, case: &mut Case| {
        if case.call == Call::Keep {
            let first = 64 * (case.logged() - 1);
            case.log_values[first..first + lent.pairs].copy_from_slice(&lent.move_values[..lent.pairs]);
        }
    };
    assert_eq!(found(fault), 0);
}

#[test]
fn finds_a_move_taken_back_that_stays_logged() {
    let fault = |lent: &Case, case: &mut Case| {
        if case.call == Call::TakeBack {
            case.log_sizes[0] = lent.log_sizes[0];
        }
    };
    assert_eq!(found(fault), 0);
}

#[test]
fn finds_a_number_kept_that_falls_from_its_ceiling() {
    let fault = |lent: &Case, case: &mut Case| {
        if case.call == Call::TakeBack {
            case.session.kept = lent.session.kept - 1;
        }
    };
    assert_eq!(found(fault), 0);
}

#[test]
fn finds_a_build_that_leaves_the_log() {
    let fault = |lent: &Case, case: &mut Case| {
        if case.call == Call::Build {
            case.log_sizes[0] = lent.log_sizes[0];
        }
    };
    assert_eq!(found(fault), 0);
}

#[test]
fn finds_a_max_that_one_blank_input_blanks() {
    let fault = |_: &Case, case: &mut Case| {
        for row in (0..case.m).filter(|&row| case.call == Call::Build && case.kinds[row] == 3) {
            let inputs = usize::from(case.firsts[row])..usize::from(case.firsts[row] + case.counts[row]);
            if case.vars[inputs].iter().any(|&variable| case.stored[usize::from(variable)] == BLANK) {
                case.stored[usize::from(case.makes[row])] = BLANK;
            }
        }
    };
    assert!(found(fault) <= 3);
}

/// Writes the reasons of a keep or a taking back anew where nothing was evaluated.
fn note_all(call: Call, case: &mut Case) {
    if case.call == call {
        let afresh = second::reasons(&case.tables(), &case.stored);
        for variable in (0..case.n).filter(|&variable| case.flags[variable] == 0).collect::<Vec<_>>() {
            case.reasons[variable] = afresh[variable];
        }
    }
}

#[test]
fn finds_a_reason_written_anew_where_nothing_was_evaluated() {
    assert!(found(|_, case| note_all(Call::Keep, case)) <= 1);
    assert!(found(|_, case| note_all(Call::TakeBack, case)) <= 1);
}

/// Leaves the reasons of search variables as they were lent to a call.
fn leave_search(call: Call, lent: &Case, case: &mut Case) {
    if case.call == call {
        for variable in (0..case.n).filter(|&variable| !is_made(case, variable)).collect::<Vec<_>>() {
            case.reasons[variable] = lent.reasons[variable];
        }
    }
}

#[test]
fn finds_a_search_variable_that_keeps_its_reason() {
    assert_eq!(found(|lent, case| leave_search(Call::Build, lent, case)), 0);
    assert_eq!(found(|lent, case| leave_search(Call::Keep, lent, case)), 0);
    assert_eq!(found(|lent, case| leave_search(Call::TakeBack, lent, case)), 0);
}

/// Puts another reason for each variable that a trial asks and did not evaluate.
fn give_otherwise(case: &mut Case, reason: fn(&Case, usize) -> u8) {
    for place in (0..case.asked).filter(|_| case.call == Call::Trial) {
        let asked = usize::from(case.asked_vars[place]);
        if case.flags[asked] == 0 {
            case.why[place] = reason(case, asked);
        }
    }
}

#[test]
fn finds_a_trial_that_does_not_give_the_stored_reason() {
    let none = |_: &Case, case: &mut Case| give_otherwise(case, |_, _| 0);
    assert_eq!(found(none), 0);
    let anew = |_: &Case, case: &mut Case| {
        give_otherwise(case, |case, asked| second::reasons(&case.tables(), &case.trial)[asked]);
    };
    assert_eq!(found(anew), 0);
    let of_made = |_: &Case, case: &mut Case| {
        give_otherwise(case, |case, asked| if is_made(case, asked) { 0 } else { case.reasons[asked] });
    };
    assert_eq!(found(of_made), 1);
}

#[test]
fn finds_a_trial_that_gives_every_stored_reason() {
    let fault = |_: &Case, case: &mut Case| {
        for place in (0..case.asked).filter(|_| case.call == Call::Trial) {
            case.why[place] = case.reasons[usize::from(case.asked_vars[place])];
        }
    };
    assert_eq!(found(fault), 1);
}

#[test]
fn finds_reasons_written_beyond_the_count() {
    let stored = |_: &Case, case: &mut Case| case.reasons.put(case.n, 0);
    assert_eq!(found(stored), 0);
    let asked = |_: &Case, case: &mut Case| case.why.put(case.asked, 0);
    assert_eq!(found(asked), 0);
}

#[test]
fn finds_reasons_in_another_order() {
    let headway_first = |_: &Case, case: &mut Case| {
        for row in (0..case.m).filter(|&row| case.call == Call::Build && case.kinds[row] >= 8) {
            let headway = usize::from(case.vars[usize::from(case.firsts[row]) + 2]);
            if case.stored[headway] <= 0 {
                case.reasons[usize::from(case.makes[row])] = 3;
            }
        }
    };
    assert!(found(headway_first) <= 2);
    let chosen_blank_outside = |_: &Case, case: &mut Case| {
        for row in (0..case.m).filter(|&row| case.call == Call::Build && case.kinds[row] == 4) {
            let (index, made) = (case.vars[usize::from(case.firsts[row])], usize::from(case.makes[row]));
            if case.stored[usize::from(index)] != BLANK && case.stored[made] == BLANK {
                case.reasons[made] = 2;
            }
        }
    };
    assert!(found(chosen_blank_outside) <= 2);
}

/// An engine that takes rows of reasons that are too short.
struct ShortReasons {
    stored: bool,
    asked: bool,
}

impl Engine for ShortReasons {
    fn answer(&self, case: &mut Case) -> Answer {
        let (reasons, why) = (case.reasons.len(), case.why.len());
        if self.stored {
            case.reasons.edit(|reasons| reasons.resize(reasons.len().max(case.n.min(4096)), 0));
        }
        if self.asked {
            case.why.edit(|why| why.resize(why.len().max(case.asked.min(32)), 0));
        }
        let answer = Second.answer(case);
        case.reasons.edit(|held| held.truncate(reasons));
        case.why.edit(|held| held.truncate(why));
        answer
    }
}

#[test]
fn finds_rows_of_reasons_that_may_be_too_short() {
    for (stored, asked) in [(true, false), (false, true)] {
        assert_eq!(found_in(&ShortReasons { stored, asked }).m, 0);
    }
}

/// An engine that writes although it refuses.
struct RefusedWrites(fn(&mut Case));

impl Engine for RefusedWrites {
    fn answer(&self, case: &mut Case) -> Answer {
        let answer = Second.answer(case);
        if answer.number != 0 {
            self.0(case);
        }
        answer
    }
}

#[test]
fn finds_reasons_written_by_a_refused_call() {
    assert_eq!(found_in(&RefusedWrites(|case| case.reasons.put(0, 0))).m, 0);
    assert_eq!(found_in(&RefusedWrites(|case| case.why.put(0, 0))).m, 0);
}

/// An engine that goes by other bounds than it is lent.
struct OtherBounds(fn(&mut Case));

impl Engine for OtherBounds {
    fn answer(&self, case: &mut Case) -> Answer {
        let lent = (case.lows.clone(), case.highs.clone());
        if (case.lows.len().min(case.highs.len())) >= case.n
            && matches!(case.call, Call::Build | Call::Trial | Call::Keep | Call::TakeBack)
        {
            self.0(case);
        }
        let answer = Second.answer(case);
        (case.lows, case.highs) = lent;
        answer
    }
}

/// An engine that refuses what it refuses with another number or at another place.
struct OtherRefusal(fn(&Case, Answer) -> Answer);

impl Engine for OtherRefusal {
    fn answer(&self, case: &mut Case) -> Answer {
        let answer = Second.answer(case);
        if answer.number == 0 { answer } else { self.0(case, answer) }
    }
}

/// The smallest case on which an engine differs from the definitions.
fn found_in(engine: &dyn Engine) -> Case {
    found_among(engine, |random| model(random, Sizes::TINY))
}

/// The smallest case on which an engine differs from the definitions, over models that are drawn so.
fn found_among(engine: &dyn Engine, draw: fn(&mut Random) -> Case) -> Case {
    let found = run(engine, &Naive, 1, 40_000, draw).expect_err("a difference");
    assert!(compare(engine, &Naive, &found.case).is_err(), "the small case still shows the fault");
    found.case
}

/// Whether some row makes a variable.
fn is_made(case: &Case, variable: usize) -> bool {
    case.makes.iter().take(case.m).any(|&made| usize::from(made) == variable)
}

/// Moves each bound of the search variables by a number, as far as there are such.
fn widen(case: &mut Case, below: i32, above: i32) {
    for variable in (0..case.n).filter(|&variable| !is_made(case, variable)).collect::<Vec<_>>() {
        let (low, high) = case.bounds(variable);
        if low != BLANK && low <= high {
            case.lows[variable] = low.saturating_sub(below).max(LOWEST);
            case.highs[variable] = high.saturating_add(above);
        }
    }
}

#[test]
fn finds_bounds_that_are_one_off() {
    for engine in [
        OtherBounds(|case| widen(case, 1, 0)),
        OtherBounds(|case| widen(case, 0, 1)),
        OtherBounds(|case| widen(case, -1, 0)),
        OtherBounds(|case| widen(case, 0, -1)),
    ] {
        assert_eq!(found_in(&engine).m, 0);
    }
}

#[test]
fn finds_a_call_without_bounds() {
    let without = |case: &mut Case| *case = std::mem::take(case).with_full_bounds();
    assert!(found_in(&OtherBounds(without)).m <= 1);
    for engine in [
        OtherBounds(|case| without_in(Call::Build, case)),
        OtherBounds(|case| without_in(Call::Trial, case)),
        OtherBounds(|case| without_in(Call::Keep, case)),
        OtherBounds(|case| without_in(Call::TakeBack, case)),
    ] {
        assert!(found_in(&engine).m <= 1);
    }
}

/// Goes by full bounds in a call.
fn without_in(call: Call, case: &mut Case) {
    if case.call == call && case.n <= 4096 {
        *case = std::mem::take(case).with_full_bounds();
    }
}

#[test]
fn finds_made_variables_with_bounds_of_their_own() {
    let full_where_made = |case: &mut Case| {
        for variable in (0..case.n).filter(|&variable| is_made(case, variable)).collect::<Vec<_>>() {
            (case.lows[variable], case.highs[variable]) = (LOWEST, HIGHEST);
        }
    };
    assert_eq!(found_in(&OtherBounds(full_where_made)).m, 1);
}

#[test]
fn finds_a_log_that_is_not_held_to_the_bounds() {
    let wide_enough = |case: &mut Case| {
        if case.call == Call::TakeBack && case.log_vars.len().min(case.log_values.len()) >= 4096 {
            for move_at in (0..4096).step_by(64).take(case.logged()) {
                let (variable, value) = (usize::from(case.log_vars[move_at]), case.log_values[move_at]);
                let stored = case.stored.get(variable).copied().unwrap_or(BLANK);
                let (low, high) = case.bounds(variable);
                if variable < case.n && value != BLANK && (low..=high).contains(&stored) && !is_made(case, variable) {
                    (case.lows[variable], case.highs[variable]) = (low.min(value), high.max(value));
                }
            }
        }
    };
    assert_eq!(found_in(&OtherBounds(wide_enough)).m, 0);
}

#[test]
fn finds_bounds_beyond_the_variables_that_are_looked_at() {
    struct Beyond;
    impl Engine for Beyond {
        fn answer(&self, case: &mut Case) -> Answer {
            let (low, high) = case.bounds(case.n);
            if case.call == Call::Keep && high < low {
                let mut refused = case.clone();
                let answer = Second.answer(&mut refused);
                return if answer.number == 0 {
                    Answer { number: 4, place: case.n as u32, ..Answer::default() }
                } else {
                    answer
                };
            }
            Second.answer(case)
        }
    }
    assert_eq!(found_in(&Beyond).m, 0);
}

/// The first pair of a move that the bounds do not allow; they allow no blank.
fn first_outside(case: &Case) -> Option<u32> {
    let mut pairs = (0..).zip(case.move_vars.iter().zip(&*case.move_values)).take(case.pairs);
    pairs.find_map(|(pair, (&variable, value))| {
        let (low, high) = case.bounds(variable.into());
        (!(low..=high).contains(value)).then_some(pair)
    })
}

#[test]
fn finds_a_move_outside_that_is_refused_otherwise() {
    let named_12: fn(&Case, Answer) -> Answer = |_, answer| match answer.number {
        17 => Answer { number: 12, ..answer },
        _ => answer,
    };
    let at_0: fn(&Case, Answer) -> Answer = |_, answer| match answer.number {
        17 => Answer { place: 0, ..answer },
        _ => answer,
    };
    let before_12: fn(&Case, Answer) -> Answer = |case, answer| match answer.number {
        12 => Answer { number: 17, place: first_outside(case).unwrap_or(0), ..answer },
        _ => answer,
    };
    let after_13: fn(&Case, Answer) -> Answer = |case, answer| {
        let unknown = (0..).zip(&*case.asked_vars).take(case.asked).find(|(_, asked)| usize::from(**asked) >= case.n);
        match (case.call, answer.number, unknown) {
            (Call::Trial, 17, Some((place, _))) => Answer { number: 13, place, ..answer },
            _ => answer,
        }
    };
    for told in [named_12, at_0, before_12, after_13] {
        assert_eq!(found_in(&OtherRefusal(told)).m, 0);
    }
}

#[test]
fn finds_wrong_bounds_that_are_refused_otherwise() {
    let after_5: fn(&Case, Answer) -> Answer = |case, answer| {
        let of_rows = Second.answer(&mut case.clone().with_full_bounds());
        if answer.number == 4 && of_rows.number == 5 { of_rows } else { answer }
    };
    let at_the_last: fn(&Case, Answer) -> Answer = |case, answer| {
        let of_rows = Second.answer(&mut case.clone().with_full_bounds());
        let in_order = |variable: &usize| {
            let (low, high) = case.bounds(*variable);
            low != BLANK && low <= high
        };
        match (0..case.n.min(4096)).rev().find(|variable| !in_order(variable)) {
            Some(last) if answer.number == 4 && of_rows.number != 4 => Answer { place: last as u32, ..answer },
            _ => answer,
        }
    };
    let made_twice: fn(&mut Random) -> Case = |random| {
        let mut model = model(random, Sizes::TINY);
        if let Some(&made) = model.makes.first() {
            model.makes.put(random.below(model.m), made);
            model.highs.put(made.into(), random.between(-1, 1));
        }
        model
    };
    let two_wrong: fn(&mut Random) -> Case = |random| {
        let mut model = model(random, Sizes::TINY);
        (0..2).for_each(|_| model.lows.put(random.below(model.n), BLANK));
        model
    };
    assert!(found_among(&OtherRefusal(after_5), made_twice).m <= 3);
    assert!(found_among(&OtherRefusal(at_the_last), two_wrong).m <= 1);
}

/// A small case on which an engine differs from the definitions, over models with closed chains.
fn found_round(engine: &dyn Engine) -> Case {
    found_among(engine, |random| interlined(random, Sizes::TINY))
}

/// Where a build from the stored values of the search variables, and the new ones of a move, is refused with 20.
fn round_after_the_move(case: &Case) -> Option<u32> {
    let mut starts = case.stored.to_vec();
    let pairs = case.move_vars.iter().zip(&*case.move_values).take(case.pairs);
    pairs.for_each(|(&variable, &value)| starts[usize::from(variable)] = value);
    case.makes.iter().take(case.m).for_each(|&made| starts[usize::from(made)] = 0);
    let log_sizes = vec![0; 65].into();
    let answer =
        Side::of(&Second, &Case { call: Call::Build, starts: starts.into(), log_sizes, ..case.clone() }).answer;
    (answer.number == 20).then_some(answer.place)
}

#[test]
fn finds_20_before_21() {
    let before: fn(&Case, Answer) -> Answer = |case, answer| match (case.call, answer.number) {
        (Call::Trial | Call::Keep, 21) => {
            round_after_the_move(case).map_or(answer, |place| Answer { number: 20, place, ..answer })
        }
        _ => answer,
    };
    assert!(found_round(&OtherRefusal(before)).m <= 5);
}

#[test]
fn finds_places_that_are_not_the_least() {
    for number in [6, 20, 21] {
        let told: fn(&Case, Answer) -> Answer = match number {
            6 => |case, answer| last_made(6, case, answer),
            20 => |case, answer| last_made(20, case, answer),
            _ => |case, answer| last_made(21, case, answer),
        };
        assert!(found_round(&OtherRefusal(told)).m <= 5, "{number}");
    }
}

/// Names the greatest made variable where a call is refused with this number.
fn last_made(number: u32, case: &Case, answer: Answer) -> Answer {
    let greatest = case.makes.iter().take(case.m).max();
    match greatest {
        Some(&place) if answer.number == number => Answer { place: place.into(), ..answer },
        _ => answer,
    }
}

/// An engine that refuses every closed chain, or takes every chain through a candidate.
struct OtherChains {
    none: bool,
}

impl Engine for OtherChains {
    fn answer(&self, case: &mut Case) -> Answer {
        let lent = case.clone();
        let answer = Second.answer(case);
        if self.none && case.call == Call::Build && answer.number == 0 && has_closed_chain(&lent) {
            *case = lent;
            return Answer { number: 6, ..Answer::default() };
        }
        if !self.none && answer.number == 6 && lent.kinds.contains(&4) {
            return Answer { number: 20, ..answer };
        }
        answer
    }
}

#[test]
fn finds_other_chains_that_are_permitted() {
    assert!(found_round(&OtherChains { none: true }).m <= 5);
    assert!(found_round(&OtherChains { none: false }).m <= 5);
}

/// Takes the flag off a variable made by an ELEMENT whose index and chosen candidate have not changed, after a keep.
fn follow_choices(lent: &Case, case: &mut Case) {
    for row in (0..case.m).filter(|&row| case.call == Call::Keep && case.kinds[row] == 4) {
        let (first, made) = (usize::from(case.firsts[row]), usize::from(case.makes[row]));
        let same = |entry: usize| {
            let input = usize::from(case.vars[entry]);
            lent.stored[input] == case.stored[input]
        };
        let index = case.stored[usize::from(case.vars[first])];
        let chosen = (0..i32::from(case.counts[row]) - 1).contains(&index).then(|| first + 1 + index as usize);
        if has_closed_chain(lent) && case.flags[made] == 1 && same(first) && chosen.is_none_or(same) {
            case.flags[made] = 0;
            case.session.evaluations -= 1;
        }
    }
}

#[test]
fn finds_a_route_1_that_follows_the_choices() {
    assert!(found_round(&Faulty(follow_choices)).m <= 5);
}

/// An engine that works stored values out anew where they are not the fresh ones.
struct Refreshing;

impl Engine for Refreshing {
    fn answer(&self, case: &mut Case) -> Answer {
        let answer = Second.answer(case);
        let still = Case { pairs: 0, ..case.clone() };
        if case.call != Call::Keep || answer.number != 21 || round_after_the_move(&still).is_some() {
            return answer;
        }
        let mut starts = case.stored.to_vec();
        case.makes.iter().take(case.m).for_each(|&made| starts[usize::from(made)] = 0);
        let fresh = Side::of(&Second, &Case { call: Call::Build, starts: starts.into(), ..case.clone() }).left;
        case.stored = fresh.stored;
        case.count_blanks();
        Second.answer(case)
    }
}

#[test]
fn finds_stored_values_that_are_worked_out_anew() {
    assert!(found_round(&Refreshing).m <= 5);
}
