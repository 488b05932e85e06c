//! Who answers a case.

use lent::{
    Asked, Batch, Bounds, BoundsMut, Built, Figures, Given, Keep, Move, NamedWindows, Session, State, Tables,
    TablesMut, TakeBack, Trial, Trials, Tried, WindowRows, Windows,
};

use crate::{Answer, Call, Case};

/// An implementation of the calls.
pub trait Engine {
    /// Answers the case, and leaves in it what the call leaves.
    fn answer(&self, case: &mut Case) -> Answer;
}

/// A test of any engine, with its name.
pub type Test = (&'static str, fn(&dyn Engine));

/// The calls over what is lent to them.
pub trait Calls {
    /// Numbers, order, values, readers and reasons from tables and start values, and an empty log.
    fn build(session: &mut Session, tables: Tables<'_>, bounds: Bounds<'_>, starts: &[i32], built: Built<'_>)
    -> Answer;

    /// A move tried by a route.
    fn trial(session: &mut Session, tables: Tables<'_>, bounds: Bounds<'_>, lent: Trial<'_>) -> Answer;

    /// A move kept.
    fn keep(session: &mut Session, tables: Tables<'_>, bounds: Bounds<'_>, lent: Keep<'_>) -> Answer;

    /// The latest kept move taken back.
    fn take_back(session: &mut Session, tables: Tables<'_>, bounds: Bounds<'_>, lent: TakeBack<'_>) -> Answer;

    /// Tables from a file.
    fn read(bytes: &[u8], tables: TablesMut<'_>) -> Answer;

    /// A file from tables.
    fn write(tables: Tables<'_>, starts: &[i32], bytes: &mut [u8]) -> Answer;

    /// A file from a damaged one, and a list of what was not saved.
    fn salvage(bytes: &[u8], file: &mut [u8], list: &mut [u16]) -> Answer;

    /// Tables and bounds from a file of version 2.
    fn read_bounded(bytes: &[u8], tables: TablesMut<'_>, bounds: BoundsMut<'_>) -> Answer;

    /// A file of version 2 from tables and bounds.
    fn write_bounded(tables: Tables<'_>, starts: &[i32], bounds: Bounds<'_>, bytes: &mut [u8]) -> Answer;

    /// A file of version 2 from one of version 1.
    fn to_version_2(bytes: &[u8], file: &mut [u8]) -> Answer;

    /// A file of version 1 from one of version 2.
    fn to_version_1(bytes: &[u8], file: &mut [u8]) -> Answer;

    /// A batch of moves in figures.
    fn figures(session: &Session, tables: Tables<'_>, bounds: Bounds<'_>, lent: Figures<'_>) -> Answer;

    /// The figures of two batches merged.
    fn merge(parts: [Answer; 2], counted: [&[u32]; 2], by_number: &mut [u32]) -> Answer;

    /// Many moves tried by a route.
    fn trials(session: &Session, tables: Tables<'_>, bounds: Bounds<'_>, lent: Trials<'_>) -> Answer;

    /// The departures of one trip's windows in time order.
    fn departures(windows: Windows<'_>, list: &mut [i32]) -> Answer;

    /// The inputs of a row, as a part of the lent entries.
    fn inputs_of_row(m: usize, e: usize, firsts: &[u16], counts: &[u16], vars: &[u16], row: usize) -> Answer;

    /// The windows of a frequencies.txt.
    fn frequencies(bytes: &[u8], rows: WindowRows<'_>) -> Answer;

    /// A frequencies.txt from windows and the names of their trips.
    fn write_frequencies(windows: NamedWindows<'_>, bytes: &mut [u8]) -> Answer;
}

impl<C: Calls> Engine for C {
    fn answer(&self, case: &mut Case) -> Answer {
        let Case { call, session, n, m, e, starts, kinds, makes, params, firsts, counts, vars, coefs, .. } = case;
        let tables = Tables { n: *n, m: *m, e: *e, kinds, makes, params, firsts, counts, vars, coefs };
        let bounds = Bounds { lows: &case.lows, highs: &case.highs };
        let moved = Move { pairs: case.pairs, vars: &case.move_vars, values: &case.move_values };
        let (numbers, order, stored, flags) = (&mut case.numbers, &mut case.order, &mut case.stored, &mut case.flags);
        let (reader_starts, reader_places) = (&mut case.reader_starts, &mut case.reader_places);
        let reasons = &mut case.reasons;
        let (log_sizes, log_vars, log_values) = (&mut case.log_sizes, &mut case.log_vars, &mut case.log_values);
        match call {
            Call::Build => {
                let built = Built { numbers, order, stored, reader_starts, reader_places, reasons, log_sizes };
                C::build(session, tables, bounds, starts, built)
            }
            Call::Trial => {
                let state = State { numbers, order, stored, reader_starts, reader_places, reasons };
                let asked = Asked { asked: case.asked, vars: &case.asked_vars };
                let tried = Tried { results: &mut case.results, trial: &mut case.trial, flags, why: &mut case.why };
                C::trial(session, tables, bounds, Trial { state, moved, asked, route: case.route, tried })
            }
            Call::Keep => C::keep(
                session,
                tables,
                bounds,
                Keep {
                    numbers,
                    order,
                    stored,
                    reader_starts,
                    reader_places,
                    reasons,
                    moved,
                    flags,
                    log_sizes,
                    log_vars,
                    log_values,
                },
            ),
            Call::TakeBack => C::take_back(
                session,
                tables,
                bounds,
                TakeBack {
                    numbers,
                    order,
                    stored,
                    reader_starts,
                    reader_places,
                    reasons,
                    flags,
                    log_sizes,
                    log_vars,
                    log_values,
                },
            ),
            Call::Read => C::read(&case.bytes, TablesMut { starts, kinds, makes, params, firsts, counts, vars, coefs }),
            Call::Write => C::write(tables, starts, &mut case.bytes),
            Call::Salvage => C::salvage(&case.bytes, &mut case.file, &mut case.list),
            Call::ReadBounded => {
                let tables = TablesMut { starts, kinds, makes, params, firsts, counts, vars, coefs };
                C::read_bounded(&case.bytes, tables, BoundsMut { lows: &mut case.lows, highs: &mut case.highs })
            }
            Call::WriteBounded => C::write_bounded(tables, starts, bounds, &mut case.bytes),
            Call::ToVersion2 => C::to_version_2(&case.bytes, &mut case.file),
            Call::ToVersion1 => C::to_version_1(&case.bytes, &mut case.file),
            Call::Figures => {
                let (vars, values) = (&case.move_vars, &case.move_values);
                let batch = Batch { moves: case.moves, pairs: &case.move_pairs, vars, values };
                let (asked, by_number) = (case.asked as u16, &mut case.by_number);
                let lent = Figures { numbers, order, stored, reader_starts, reader_places, batch, asked, by_number };
                C::figures(session, tables, bounds, lent)
            }
            Call::Merge => {
                let counted: [&[u32]; 2] = [&case.first_by_number, &case.second_by_number];
                C::merge(case.parts, counted, &mut case.by_number)
            }
            Call::Trials => {
                let (vars, values) = (&case.move_vars, &case.move_values);
                let batch = Batch { moves: case.moves, pairs: &case.move_pairs, vars, values };
                let state = State { numbers, order, stored, reader_starts, reader_places, reasons };
                let asked = Asked { asked: case.asked, vars: &case.asked_vars };
                let given = Given {
                    numbers: &mut case.move_numbers,
                    places: &mut case.move_places,
                    evaluations: &mut case.move_evaluations,
                    results: &mut case.results,
                    why: &mut case.why,
                };
                C::trials(session, tables, bounds, Trials { state, batch, asked, route: case.route, given })
            }
            Call::Departures => {
                let windows = Windows { windows: case.windows, starts, ends: &case.ends, headways: &case.headways };
                C::departures(windows, &mut case.board)
            }
            Call::InputsOfRow => C::inputs_of_row(*m, *e, firsts, counts, vars, case.row),
            Call::Frequencies => {
                let rows = WindowRows {
                    name_places: &mut case.name_places,
                    name_lengths: &mut case.name_lengths,
                    name_doubled: &mut case.name_doubled,
                    starts,
                    ends: &mut case.ends,
                    headways: &mut case.headways,
                    exacts: &mut case.exacts,
                    lines: &mut case.lines,
                };
                C::frequencies(&case.bytes, rows)
            }
            Call::WriteFrequencies => {
                let windows = NamedWindows {
                    windows: case.windows,
                    text: &case.bytes,
                    name_places: &case.name_places,
                    name_lengths: &case.name_lengths,
                    name_doubled: &case.name_doubled,
                    starts,
                    ends: &case.ends,
                    headways: &case.headways,
                    exacts: &case.exacts,
                };
                C::write_frequencies(windows, &mut case.file)
            }
        }
    }
}

/// The second implementation.
#[derive(Clone, Copy, Debug)]
pub struct Second;

impl Calls for Second {
    fn build(
        session: &mut Session,
        tables: Tables<'_>,
        bounds: Bounds<'_>,
        starts: &[i32],
        built: Built<'_>,
    ) -> Answer {
        Answer::of_call(second::build(session, tables, bounds, starts, built))
    }

    fn trial(session: &mut Session, tables: Tables<'_>, bounds: Bounds<'_>, lent: Trial<'_>) -> Answer {
        Answer::of_call(second::trial(session, tables, bounds, lent))
    }

    fn keep(session: &mut Session, tables: Tables<'_>, bounds: Bounds<'_>, lent: Keep<'_>) -> Answer {
        Answer::of_call(second::keep(session, tables, bounds, lent))
    }

    fn take_back(session: &mut Session, tables: Tables<'_>, bounds: Bounds<'_>, lent: TakeBack<'_>) -> Answer {
        Answer::of_call(second::take_back(session, tables, bounds, lent))
    }

    fn read(bytes: &[u8], tables: TablesMut<'_>) -> Answer {
        Answer::of_read(second::read(bytes, tables))
    }

    fn write(tables: Tables<'_>, starts: &[i32], bytes: &mut [u8]) -> Answer {
        Answer::of_call(second::write(tables, starts, bytes).map(|()| 0))
    }

    fn salvage(bytes: &[u8], file: &mut [u8], list: &mut [u16]) -> Answer {
        Answer::of_salvage(second::salvage(bytes, file, list))
    }

    fn read_bounded(bytes: &[u8], tables: TablesMut<'_>, bounds: BoundsMut<'_>) -> Answer {
        Answer::of_read(second::read_bounded(bytes, tables, bounds))
    }

    fn write_bounded(tables: Tables<'_>, starts: &[i32], bounds: Bounds<'_>, bytes: &mut [u8]) -> Answer {
        Answer::of_call(second::write_bounded(tables, starts, bounds, bytes).map(|()| 0))
    }

    fn to_version_2(bytes: &[u8], file: &mut [u8]) -> Answer {
        Answer::of_length(second::to_version_2(bytes, file))
    }

    fn to_version_1(bytes: &[u8], file: &mut [u8]) -> Answer {
        Answer::of_length(second::to_version_1(bytes, file))
    }

    fn figures(session: &Session, tables: Tables<'_>, bounds: Bounds<'_>, lent: Figures<'_>) -> Answer {
        Answer::of_figures(second::figures(session, tables, bounds, lent))
    }

    fn merge(parts: [Answer; 2], counted: [&[u32]; 2], by_number: &mut [u32]) -> Answer {
        Answer::of_figures(second::merge(parts.map(Answer::figures), counted, by_number))
    }

    fn trials(session: &Session, tables: Tables<'_>, bounds: Bounds<'_>, lent: Trials<'_>) -> Answer {
        Answer::of_call(second::trials(session, tables, bounds, lent))
    }

    fn departures(windows: Windows<'_>, list: &mut [i32]) -> Answer {
        Answer::of_length(second::departures(windows, list))
    }

    fn inputs_of_row(m: usize, e: usize, firsts: &[u16], counts: &[u16], vars: &[u16], row: usize) -> Answer {
        let part = second::part_of_row(m, e, firsts, counts, vars, row);
        Answer::of_part(part.start, part.len())
    }

    fn frequencies(bytes: &[u8], rows: WindowRows<'_>) -> Answer {
        Answer::of_length(second::frequencies(bytes, rows))
    }

    fn write_frequencies(windows: NamedWindows<'_>, bytes: &mut [u8]) -> Answer {
        Answer::of_length(second::write_frequencies(windows, bytes))
    }
}
