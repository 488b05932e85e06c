//! The proved engine as an engine that can be compared.
#![forbid(unsafe_code)]
#![warn(missing_docs)]

use compare::{Answer, Calls};
use lent::{
    Bounds, BoundsMut, Built, Figures, Keep, NamedWindows, Session, Tables, TablesMut, TakeBack, Trial, Trials,
    WindowRows, Windows,
};
use lukhandro::sys::{FiguresOutcome, ListOutcome, MoveOutcome, Outcome, Part, ReadOutcome, SalvageOutcome};

/// The engine that the archive holds.
#[derive(Clone, Copy, Debug)]
pub struct Proved;

/// What a call is lent, in the binding's words: they are the same words as the comparison's, in a crate of its own.
macro_rules! in_its_words {
    ($words:ident { $($field:ident),+ } = $lent:expr) => {{
        let lent::$words { $($field),+ } = $lent;
        lukhandro::lent::$words { $($field),+ }
    }};
}

fn tables(lent: Tables<'_>) -> lukhandro::lent::Tables<'_> {
    in_its_words!(Tables { n, m, e, kinds, makes, params, firsts, counts, vars, coefs } = lent)
}

fn bounds(lent: Bounds<'_>) -> lukhandro::lent::Bounds<'_> {
    in_its_words!(Bounds { lows, highs } = lent)
}

fn filled(lent: TablesMut<'_>) -> lukhandro::lent::TablesMut<'_> {
    in_its_words!(TablesMut { starts, kinds, makes, params, firsts, counts, vars, coefs } = lent)
}

fn tried(lent: Trial<'_>) -> lukhandro::lent::Trial<'_> {
    let Trial { state, moved, asked, route, tried } = lent;
    let state = in_its_words!(State { numbers, order, stored, reader_starts, reader_places, reasons } = state);
    let moved = in_its_words!(Move { pairs, vars, values } = moved);
    let asked = in_its_words!(Asked { asked, vars } = asked);
    let tried = in_its_words!(Tried { results, trial, flags, why } = tried);
    lukhandro::lent::Trial { state, moved, asked, route, tried }
}

/// What a batch, or two merged, gave.
fn figured(outcome: FiguresOutcome) -> Answer {
    let FiguresOutcome { number, place, blank, least, greatest, sum, first, second, third } = outcome;
    Answer { number, place, blank, least, greatest, sum, first, second, third, ..Answer::default() }
}

/// A call over the record, which it may change.
fn over(record: &mut Session, call: impl FnOnce(&mut lukhandro::lent::Session) -> Outcome) -> Answer {
    let mut session = in_its_words!(Session { kept, evaluations, blanks } = *record);
    let outcome = call(&mut session);
    let lukhandro::lent::Session { kept, evaluations, blanks } = session;
    *record = Session { kept, evaluations, blanks };
    answer(outcome)
}

impl Calls for Proved {
    fn build(record: &mut Session, t: Tables<'_>, b: Bounds<'_>, starts: &[i32], built: Built<'_>) -> Answer {
        let built =
            in_its_words!(Built { numbers, order, stored, reader_starts, reader_places, reasons, log_sizes } = built);
        over(record, |session| lukhandro::lent::build(session, tables(t), bounds(b), starts, built))
    }

    fn trial(record: &mut Session, t: Tables<'_>, b: Bounds<'_>, lent: Trial<'_>) -> Answer {
        over(record, |session| lukhandro::lent::trial(session, tables(t), bounds(b), tried(lent)))
    }

    fn keep(record: &mut Session, t: Tables<'_>, b: Bounds<'_>, lent: Keep<'_>) -> Answer {
        let Keep { numbers, order, stored, reader_starts, reader_places, reasons, moved, flags, .. } = lent;
        let Keep { log_sizes, log_vars, log_values, .. } = lent;
        let moved = in_its_words!(Move { pairs, vars, values } = moved);
        #[rustfmt::skip]
        let lent = lukhandro::lent::Keep {
            numbers, order, stored, reader_starts, reader_places, reasons, moved, flags, log_sizes, log_vars, log_values,
        };
        over(record, |session| lukhandro::lent::keep(session, tables(t), bounds(b), lent))
    }

    #[rustfmt::skip]
    fn take_back(record: &mut Session, t: Tables<'_>, b: Bounds<'_>, lent: TakeBack<'_>) -> Answer {
        let lent = in_its_words!(TakeBack {
            numbers, order, stored, reader_starts, reader_places, reasons, flags, log_sizes, log_vars, log_values
        } = lent);
        over(record, |session| lukhandro::lent::take_back(session, tables(t), bounds(b), lent))
    }

    fn read(bytes: &[u8], tables: TablesMut<'_>) -> Answer {
        let ReadOutcome { number, place, n, m, e } = lukhandro::lent::read(bytes, filled(tables));
        Answer { number, place, n, m, e, ..Answer::default() }
    }

    fn write(t: Tables<'_>, starts: &[i32], bytes: &mut [u8]) -> Answer {
        answer(lukhandro::lent::write(tables(t), starts, bytes))
    }

    fn salvage(bytes: &[u8], file: &mut [u8], list: &mut [u16]) -> Answer {
        let SalvageOutcome { number, place, length, rows, values } = lukhandro::lent::salvage(bytes, file, list);
        let [length, rows, values] =
            [length, rows, values].map(|count| u32::try_from(count).expect("a count of a file"));
        Answer { number, place, length, rows, values, ..Answer::default() }
    }

    fn read_bounded(bytes: &[u8], tables: TablesMut<'_>, bounds: BoundsMut<'_>) -> Answer {
        let bounds = in_its_words!(BoundsMut { lows, highs } = bounds);
        let ReadOutcome { number, place, n, m, e } = lukhandro::lent::read_bounded(bytes, filled(tables), bounds);
        Answer { number, place, n, m, e, ..Answer::default() }
    }

    fn write_bounded(t: Tables<'_>, starts: &[i32], b: Bounds<'_>, bytes: &mut [u8]) -> Answer {
        answer(lukhandro::lent::write_bounded(tables(t), starts, bounds(b), bytes))
    }

    fn to_version_2(bytes: &[u8], file: &mut [u8]) -> Answer {
        moved(lukhandro::lent::to_version_2(bytes, file))
    }

    fn to_version_1(bytes: &[u8], file: &mut [u8]) -> Answer {
        moved(lukhandro::lent::to_version_1(bytes, file))
    }

    fn figures(record: &Session, t: Tables<'_>, b: Bounds<'_>, lent: Figures<'_>) -> Answer {
        let Figures { numbers, order, stored, reader_starts, reader_places, batch, asked, by_number } = lent;
        let batch = in_its_words!(Batch { moves, pairs, vars, values } = batch);
        #[rustfmt::skip]
        let lent = lukhandro::lent::Figures {
            numbers, order, stored, reader_starts, reader_places, batch, asked, by_number,
        };
        let session = in_its_words!(Session { kept, evaluations, blanks } = *record);
        figured(lukhandro::lent::figures(&session, tables(t), bounds(b), lent))
    }

    fn merge(parts: [Answer; 2], counted: [&[u32]; 2], by_number: &mut [u32]) -> Answer {
        let outcome = |part| {
            let Answer { number, place, blank, least, greatest, sum, first, second, third, .. } = part;
            FiguresOutcome { number, place, blank, least, greatest, sum, first, second, third }
        };
        figured(lukhandro::lent::merge(parts.map(outcome), counted, by_number))
    }

    fn trials(record: &Session, t: Tables<'_>, b: Bounds<'_>, lent: Trials<'_>) -> Answer {
        let Trials { state, batch, asked, route, given } = lent;
        let state = in_its_words!(State { numbers, order, stored, reader_starts, reader_places, reasons } = state);
        let batch = in_its_words!(Batch { moves, pairs, vars, values } = batch);
        let asked = in_its_words!(Asked { asked, vars } = asked);
        let given = in_its_words!(Given { numbers, places, evaluations, results, why } = given);
        let session = in_its_words!(Session { kept, evaluations, blanks } = *record);
        let lent = lukhandro::lent::Trials { state, batch, asked, route, given };
        answer(lukhandro::lent::trials(&session, tables(t), bounds(b), lent))
    }

    fn departures(windows: Windows<'_>, list: &mut [i32]) -> Answer {
        let windows = in_its_words!(Windows { windows, starts, ends, headways } = windows);
        listed(lukhandro::lent::departures(windows, list))
    }

    fn inputs_of_row(m: usize, e: usize, firsts: &[u16], counts: &[u16], vars: &[u16], row: usize) -> Answer {
        let Part { first, count } = lukhandro::lent::part_of_row(m, e, firsts, counts, vars, row);
        let inputs = lukhandro::lent::inputs_of_row(m, e, firsts, counts, vars, row);
        assert!(std::ptr::eq(inputs, &vars[first..first + count]), "the very part");
        Answer::of_part(first, count)
    }

    #[rustfmt::skip]
    fn frequencies(bytes: &[u8], rows: WindowRows<'_>) -> Answer {
        let rows = in_its_words!(WindowRows {
            name_places, name_lengths, name_doubled, starts, ends, headways, exacts, lines
        } = rows);
        listed(lukhandro::lent::frequencies(bytes, rows))
    }

    #[rustfmt::skip]
    fn write_frequencies(windows: NamedWindows<'_>, bytes: &mut [u8]) -> Answer {
        let windows = in_its_words!(NamedWindows {
            windows, text, name_places, name_lengths, name_doubled, starts, ends, headways, exacts
        } = windows);
        listed(lukhandro::lent::write_frequencies(windows, bytes))
    }
}

/// What a call gave, as an answer that can be compared.
fn answer(Outcome { number, place, evaluations }: Outcome) -> Answer {
    Answer { number, place, evaluations, ..Answer::default() }
}

/// What a board or a call on frequencies.txt gave.
fn listed(ListOutcome { number, place, length }: ListOutcome) -> Answer {
    let length = u32::try_from(length).expect("the length of a list");
    Answer { number, place, length, ..Answer::default() }
}

/// What a move from one version to the other gave.
fn moved(MoveOutcome { number, place, length }: MoveOutcome) -> Answer {
    let length = u32::try_from(length).expect("the length of a file");
    Answer { number, place, length, ..Answer::default() }
}
