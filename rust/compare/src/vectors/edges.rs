//! Builds, trials, keeps, takings back and batches on both sides of every edge. `tools/edges` writes them.
//!
//! A file has the number of its cases and the bytes of its three pools (4 bytes each), the pools (numbers of two bytes,
//! signed ones of two, signed ones of four), and the cases. Rows stand in the pools, as parts of them. The first two
//! pools have 17,000 numbers and the third 4,200, with zeros past those that are written; the third has full bounds of
//! 4,097 variables behind them, the lowest from place 4,200 on and the highest from place 8,297 on.
//!
//! A case is a call with all that it is lent. Its numbers have two bytes each, but for moves kept, route and blanks,
//! which have four. From these bytes on stand:
//!
//! - 0: length of the case, length of its name, length of its values, all in bytes;
//! - 6: which call: 1 a trial, 2 a keep, 3 a build, 4 a batch in figures, 5 a taking back;
//! - 8: n, m, e, pairs, asked;
//! - 18: where each of sixteen rows starts in its pool and how long it is: kinds, made variables, firsts, counts, entry
//!   variables, numbers, order, reader starts, reader places, move variables and asked variables; then coefficients;
//!   then parameters, new values, lowest and highest allowed numbers;
//! - 82: how many stored values, results, trial values and flags are lent; of a build start values, numbers, rows of
//!   the order, stored values, reader starts and reader places;
//! - 94: how many results are shown, of a build how many reader starts and reader places, and how many of each other
//!   row;
//! - 98: moves kept, route, and the record's number of blanks;
//! - 110: how many sizes, variables and values of the log are lent; the length of its sizes and of its pairs in bytes;
//!   how many sizes are shown;
//! - 122: the name; the stored values, zeros past the end, of a build its start values; the log's sizes, zeros past the
//!   end; its pairs, each with place, variable and value, the value of four bytes.
//!
//! Of a batch, pairs is how many moves there are, asked the asked variable, the asked variables are how many pairs each
//! move has, and the results the counts by number. Before a call, a row to be filled holds 77 everywhere, flags and
//! reasons hold 7; and 77 stands where the log has no pair.

use lent::Session;
use second::{HIGHEST, LOWEST};

use super::Expected;
use super::answered::answered;
use super::numbers::{Numbers, Place, filled, part};
use super::shown::{Shown, first, row, signed};
use crate::{Answer, Call, Case, Engine, Side};

/// The numbers of each of the first two pools, and of the third without its bounds; and how many bounds there are.
const ROOM: usize = 17_000;
const WORDS: usize = 4_200;
const BOUNDS: usize = 4_097;

/// What stands in a log's rows where it has no pair.
const NO_PAIR: (u16, i32) = (77, 77);

/// The pools of a file.
struct Pools {
    halves: Vec<u16>,
    coefs: Vec<i16>,
    words: Vec<i32>,
}

/// A case by its name, and how many are shown of two kinds of rows, and of the log's sizes.
struct Named<'a> {
    name: &'a str,
    case: Case,
    shown: [usize; 2],
    sizes_shown: usize,
}

/// The rows of a case in their pools, and how many places are lent of each row to be filled.
struct Plan {
    rows: [Place; 16],
    rooms: [usize; 6],
}

/// Answers the cases of a file.
pub(super) fn answer(engine: &dyn Engine, numbers: &mut Numbers<'_>, expected: &mut Expected<'_>) -> usize {
    let [cases, halves, coefs, words] = numbers.words().map(|count| count as usize);
    let (halves, coefs) = (filled(numbers.take(halves), ROOM), filled(numbers.take(coefs), ROOM));
    let mut words = filled(numbers.take(words), WORDS);
    words.extend([[LOWEST; BOUNDS], [HIGHEST; BOUNDS]].concat());
    let pools = Pools { halves, coefs, words };
    for place in 1..=cases {
        let length = numbers.half();
        let named = pools.read(numbers.part(length - 2));
        let what = expected.named(format!("case {place}, {}", named.name));
        expected.hold(&what, &named.line(&answered(engine, &what, &named.case)));
    }
    cases
}

impl Pools {
    /// The case that these numbers are.
    fn read<'a>(&self, mut numbers: Numbers<'a>) -> Named<'a> {
        let [named, values, call, n, m, e, pairs, asked] = numbers.halves();
        let rows = [(); 16].map(|()| numbers.halves());
        let (rooms, shown) = (numbers.halves(), numbers.halves());
        let [kept, route, blanks] = numbers.words();
        let log_rooms = numbers.halves();
        let [sizes, log_pairs, sizes_shown] = numbers.halves();
        let name = numbers.text(named);
        let values = numbers.take(values);
        let (sizes, log_pairs) = (numbers.take(sizes), numbers.take(log_pairs));
        assert!(numbers.is_empty(), "{name}: nothing stands behind the log");
        let session = Session { kept, evaluations: 9, blanks };
        let reasons = vec![7; n].into();
        let case = Case { session, n, m, e, pairs, asked, route, reasons, ..Case::default() };
        let (case, plan) = (with_log(case, log_rooms, sizes, log_pairs), Plan { rows, rooms });
        Named { name, case: self.lent(case, &plan, call, values), shown, sizes_shown }
    }

    /// The case with the rows of its call.
    fn lent(&self, case: Case, plan: &Plan, call: usize, values: &[u8]) -> Case {
        let case = self.with_tables(case, plan);
        match call {
            1 => self.with_state(trial(case, plan), plan, values),
            2 => self.with_state(keep(case, plan, Call::Keep), plan, values),
            3 => build(case, plan, values),
            4 => batch(self.with_state(case, plan, values), plan),
            5 => self.with_state(keep(case, plan, Call::TakeBack), plan, values),
            _ => panic!("no call has the number {call}"),
        }
    }

    /// The case with its tables and bounds.
    fn with_tables(&self, case: Case, plan: &Plan) -> Case {
        let Pools { halves, coefs, words } = self;
        let rows = &plan.rows;
        Case {
            kinds: part(halves, rows[0]),
            makes: part(halves, rows[1]),
            firsts: part(halves, rows[2]),
            counts: part(halves, rows[3]),
            vars: part(halves, rows[4]),
            coefs: part(coefs, rows[11]),
            params: part(words, rows[12]),
            lows: part(words, rows[14]),
            highs: part(words, rows[15]),
            ..case
        }
    }

    /// The case with what build left, and the move.
    fn with_state(&self, case: Case, plan: &Plan, values: &[u8]) -> Case {
        let (halves, rows) = (&self.halves, &plan.rows);
        Case {
            numbers: part(halves, rows[5]),
            order: part(halves, rows[6]),
            reader_starts: part(halves, rows[7]),
            reader_places: part(halves, rows[8]),
            move_vars: part(halves, rows[9]),
            asked_vars: part(halves, rows[10]),
            move_values: part(&self.words, rows[13]),
            stored: filled(values, plan.rooms[0]).into(),
            ..case
        }
    }
}

/// The case with a log that has rooms for so many sizes, variables and values.
fn with_log(case: Case, rooms: [usize; 3], sizes: &[u8], pairs: &[u8]) -> Case {
    let (mut vars, mut values) = (vec![NO_PAIR.0; rooms[1]], vec![NO_PAIR.1; rooms[2]]);
    let mut pairs = Numbers::of(pairs);
    while !pairs.is_empty() {
        let [place, variable] = pairs.halves();
        (vars[place], values[place]) = (variable as u16, pairs.row(1)[0]);
    }
    Case { log_sizes: filled(sizes, rooms[0]).into(), log_vars: vars.into(), log_values: values.into(), ..case }
}

/// A build of the case.
fn build(case: Case, plan: &Plan, values: &[u8]) -> Case {
    let [starts, numbers, order, stored, reader_starts, reader_places] = plan.rooms;
    let log_sizes = vec![77; case.log_sizes.len()].into();
    Case {
        call: Call::Build,
        starts: filled(values, starts).into(),
        numbers: vec![77; numbers].into(),
        order: vec![77; order].into(),
        stored: vec![77; stored].into(),
        reader_starts: vec![77; reader_starts].into(),
        reader_places: vec![77; reader_places].into(),
        log_sizes,
        ..case
    }
}

/// A trial of the case.
fn trial(case: Case, plan: &Plan) -> Case {
    let [_, results, trial, flags, ..] = plan.rooms;
    let why = vec![7; case.asked].into();
    let (results, trial, flags) = (vec![77; results].into(), vec![77; trial].into(), vec![7; flags].into());
    Case { call: Call::Trial, results, trial, flags, why, ..case }
}

/// A keep or a taking back of the case.
fn keep(case: Case, plan: &Plan, call: Call) -> Case {
    Case { call, flags: vec![7; plan.rooms[3]].into(), ..case }
}

/// A batch of the case.
fn batch(case: Case, plan: &Plan) -> Case {
    let (moves, move_pairs) = (case.pairs, case.asked_vars.clone());
    Case { call: Call::Figures, moves, move_pairs, by_number: vec![77; plan.rooms[1]].into(), ..case }
}

impl Named<'_> {
    /// The line of a case: which call, its name, the answer, the record, and the rows that are left.
    fn line(&self, side: &Side) -> String {
        let Side { left, .. } = side;
        let [results, others] = self.shown;
        match self.case.call {
            Call::Build => self.come_to("build", side) + &self.built(left),
            Call::Trial => {
                let results = if results == 0 { String::new() } else { first("results", &left.results, results) };
                let rows = results + &first("trial", &left.trial, others) + &first("flags", &left.flags, others);
                self.come_to(&format!("trial by {}", self.case.route), side) + &rows
            }
            Call::Keep => self.come_to("keep", side) + &self.kept(left),
            Call::TakeBack => self.come_to("take back", side) + &self.kept(left),
            _ => format!("figures, {}: {}", self.name, figures(side.answer)) + &row("by number", &left.by_number),
        }
    }

    /// What a call comes to.
    fn come_to(&self, call: &str, side: &Side) -> String {
        let Answer { number, place, evaluations, .. } = side.answer;
        let Session { kept, evaluations: last, blanks } = side.left.session;
        format!("{call}, {}: {number} {place} {evaluations}; record {kept} {last} {blanks}", self.name)
    }

    /// The rows that a build leaves.
    fn built(&self, left: &Case) -> String {
        let [readers, others] = self.shown;
        [
            first("numbers", &left.numbers, others),
            first("order", &left.order, others),
            first("stored", &left.stored, others),
            first("reader starts", &left.reader_starts, readers),
            first("reader places", &left.reader_places, readers),
            first("log", &left.log_sizes, self.sizes_shown),
        ]
        .concat()
    }

    /// The rows that a keep or a taking back leaves: stored values, flags, and the log with the place of each pair.
    fn kept(&self, left: &Case) -> String {
        let [_, others] = self.shown;
        let rows = first("stored", &left.stored, others) + &first("flags", &left.flags, others);
        let pairs = left.log_vars.iter().zip(left.log_values.iter()).enumerate();
        let pairs = pairs.filter(|&(_, (&variable, &value))| (variable, value) != NO_PAIR);
        let pairs = pairs.map(|(place, (variable, value))| format!(" {place}: {variable} {}", value.text()));
        rows + &first("log", &left.log_sizes, self.sizes_shown) + "; pairs" + &pairs.collect::<String>()
    }
}

/// The figures of a batch, or its refusal.
fn figures(answer: Answer) -> String {
    let Answer { number, place, blank, least, greatest, sum, first, second, third, .. } = answer;
    if number != 0 {
        return format!("{number} {place}");
    }
    let [least, greatest, sum] = [least.text(), greatest.text(), signed(sum)];
    format!(
        "0 {place}; blank {blank}; least {least}; greatest {greatest}; sum {sum}; evaluations {first} {second} {third}"
    )
}
