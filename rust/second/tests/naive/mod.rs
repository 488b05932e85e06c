//! A third version of the calls, straight from the definitions and with no thought of time: for tiny models only.
//!
//! A check is the list of all places that offend; a value is worked out anew each time it is looked at.

mod above;
mod frequencies;
mod salvage;
mod versions;

use std::collections::BTreeSet;

use compare::{Answer, Call, Case, Engine};
use second::{BLANK, Refused};

/// The definitions as an engine.
#[derive(Clone, Copy, Debug)]
pub struct Naive;

/// Variable and coefficient of each input.
type Inputs = Vec<(usize, i128)>;

/// A row as the specification speaks of it.
struct Row {
    kind: u16,
    makes: usize,
    parameter: i128,
    inputs: Inputs,
}

/// A model: n variables and the rows, whose tables have passed checks 1 to 3; and the chains that lead on from each variable.
struct Model {
    n: usize,
    rows: Vec<Row>,
    chains: Vec<BTreeSet<Chain>>,
}

/// A chain of one link or more from a variable: where it ends, and whether it passes a candidate and an index of ELEMENT.
/// Of chains that are equal in this one stands for all.
#[derive(Clone, Copy, PartialEq, Eq, PartialOrd, Ord)]
struct Chain {
    end: usize,
    candidate: bool,
    index: bool,
}

/// The bounds that allow every number.
const FULL: (i32, i32) = (-2_147_483_647, 2_147_483_647);

/// A check: its number and every place that offends.
type Check = (u32, Vec<usize>);

impl Engine for Naive {
    fn answer(&self, case: &mut Case) -> Answer {
        if case.call == Call::Read {
            return read(case);
        }
        if case.call == Call::Merge {
            return above::answer(case);
        }
        if case.call == Call::Salvage {
            return salvage::salvage(case);
        }
        if matches!(case.call, Call::ReadBounded | Call::WriteBounded | Call::ToVersion2 | Call::ToVersion1) {
            return versions::answer(case);
        }
        if matches!(case.call, Call::Figures | Call::Trials | Call::Departures | Call::InputsOfRow) {
            return above::answer(case);
        }
        if matches!(case.call, Call::Frequencies | Call::WriteFrequencies) {
            return frequencies::answer(case);
        }
        match verdict(case) {
            Some(refused) => Answer::refused(refused),
            None => accepted(case),
        }
    }
}

/// The first check with an offending place, and the smallest such place.
fn first(checks: impl IntoIterator<Item = Check>) -> Option<Refused> {
    let (number, places) = checks.into_iter().find(|(_, places)| !places.is_empty())?;
    Some(Refused { number, place: places.into_iter().min()? as u32 })
}

/// A check with place 0.
fn fixed(number: u32, good: bool) -> Check {
    (number, if good { vec![] } else { vec![0] })
}

/// The places below `end` that offend.
fn places(number: u32, end: usize, offends: impl Fn(usize) -> bool) -> Check {
    (number, (0..end).filter(|&place| offends(place)).collect())
}

fn verdict(case: &Case) -> Option<Refused> {
    let check_1 = fixed(1, check_1(case));
    if case.call == Call::Write || !check_1.1.is_empty() {
        return first([check_1]);
    }
    first([check_2(case), check_3(case)]).or_else(|| {
        let model = Model::of(case);
        let mut checks = vec![check_4(&model), model.check_4_of_bounds(case), check_5(&model)];
        match case.call {
            Call::Build => checks.extend([model.check_6(), model.check_7(case)]),
            Call::Trial => {
                checks.extend([model.check_8(case), check_19(case), model.check_7(case)]);
                checks.push(fixed(9, [1, 2, 3].contains(&case.route)));
                checks.extend(model.checks_of_a_move(case, &Moved::of(case)));
                checks.push(places(13, case.asked, |place| usize::from(case.asked_vars[place]) >= case.n));
            }
            Call::TakeBack => {
                checks.extend([model.check_8(case), check_19(case), model.check_7(case), model.check_16(case)]);
                checks.push(fixed(15, case.log_sizes[0] > 0));
            }
            _ => {
                checks.extend([model.check_8(case), check_19(case), model.check_7(case)]);
                checks.extend(model.checks_of_a_move(case, &Moved::of(case)));
                checks.push(model.check_16(case));
            }
        }
        first(checks).or_else(|| model.checks_of_choices(case))
    })
}

/// Check 1 of counts and tables.
fn check_1_tables(case: &Case) -> bool {
    let Case { n, m, e, .. } = *case;
    (1..=4096).contains(&n)
        && m <= n
        && e <= 16384
        && case.kinds.len() >= m
        && case.makes.len() >= m
        && case.params.len() >= m
        && case.firsts.len() >= m
        && case.counts.len() >= m
        && case.vars.len() >= e
        && case.coefs.len() >= e
}

/// Check 1 of bounds.
fn check_1_bounds(case: &Case) -> bool {
    case.lows.len() >= case.n && case.highs.len() >= case.n
}

/// Check 1 of every call but read, salvage, those over version 2 and those above the engine.
fn check_1(case: &Case) -> bool {
    let Case { n, m, e, pairs, asked, .. } = *case;
    let tables = check_1_tables(case);
    let bounds = check_1_bounds(case);
    let index = case.reader_starts.len() > n && case.reader_places.len() >= e;
    let reasons = case.reasons.len() >= n;
    let state =
        case.numbers.len() >= n && case.order.len() >= m && case.stored.len() >= n && index && bounds && reasons;
    let moved = pairs <= 64 && case.move_vars.len() >= pairs && case.move_values.len() >= pairs;
    let changes = tables && state && case.flags.len() >= n;
    let sizes = case.log_sizes.len() >= 65;
    let log = sizes && case.log_vars.len() >= 4096 && case.log_values.len() >= 4096;
    let answers = case.results.len() >= asked && case.why.len() >= asked;
    let questions = asked <= 32 && case.asked_vars.len() >= asked && answers;
    match case.call {
        Call::Build => tables && state && case.starts.len() >= n && sizes,
        Call::Trial => changes && moved && questions && case.trial.len() >= n,
        Call::Keep => changes && moved && log,
        Call::TakeBack => changes && log,
        Call::Read | Call::Salvage | Call::Merge => true,
        Call::ReadBounded | Call::WriteBounded | Call::ToVersion2 | Call::ToVersion1 => true,
        Call::Figures | Call::Trials | Call::Departures | Call::InputsOfRow => true,
        Call::Frequencies | Call::WriteFrequencies => true,
        Call::Write => tables && case.starts.len() >= n && case.bytes.len() >= 24 + 4 * n + 12 * m + 4 * e,
    }
}

fn check_2(case: &Case) -> Check {
    places(2, case.m, |row| case.kinds[row] < 1 || case.kinds[row] > 9)
}

fn check_3(case: &Case) -> Check {
    let before = |row: usize| case.counts[..row].iter().map(|&count| u64::from(count)).sum::<u64>();
    let offends = |row: usize| {
        let count = u64::from(case.counts[row]);
        let suits = match case.kinds[row] {
            4 => (2..=256).contains(&count),
            7 => count == 2,
            8 | 9 => count == 3,
            _ => (1..=256).contains(&count),
        };
        let placed = u64::from(case.firsts[row]) == before(row) && before(row) + count <= case.e as u64;
        let known = |variable: u16| usize::from(variable) < case.n;
        !(known(case.makes[row]) && suits && placed)
            || (before(row)..before(row) + count).any(|entry| !known(case.vars[entry as usize]))
    };
    let (number, mut offending) = places(3, case.m, offends);
    if offending.is_empty() && before(case.m) != case.e as u64 {
        offending.push(if case.m == 0 { 0 } else { case.m - 1 });
    }
    (number, offending)
}

fn check_4(model: &Model) -> Check {
    places(4, model.rows.len(), |row| {
        let Row { kind, parameter, ref inputs, .. } = model.rows[row];
        let coefficients = if kind == 1 { -1000..=1000 } else { 1..=1 };
        let parameters = if kind == 1 || kind == 6 { -1_000_000_000..=1_000_000_000 } else { 0..=0 };
        !parameters.contains(&parameter) || inputs.iter().any(|(_, coefficient)| !coefficients.contains(coefficient))
    })
}

fn check_5(model: &Model) -> Check {
    places(5, model.rows.len(), |row| model.rows[..row].iter().any(|earlier| earlier.makes == model.rows[row].makes))
}

/// Whether a number lies below the lowest or above the highest allowed one of a variable; no variable beyond n has bounds.
fn is_outside(case: &Case, variable: usize, value: i32) -> bool {
    variable < case.n && (value < case.lows[variable] || case.highs[variable] < value)
}

/// How many variables have a blank stored value.
fn blanks(case: &Case) -> u32 {
    count(case.n, |variable| case.stored[variable] == BLANK) as u32
}

fn check_19(case: &Case) -> Check {
    fixed(19, case.session.blanks == blanks(case))
}

impl Model {
    fn of(case: &Case) -> Model {
        let row = |row: usize| {
            let first = usize::from(case.firsts[row]);
            let entry = |entry: usize| (usize::from(case.vars[entry]), i128::from(case.coefs[entry]));
            Row {
                kind: case.kinds[row],
                makes: usize::from(case.makes[row]),
                parameter: i128::from(case.params[row]),
                inputs: (first..first + usize::from(case.counts[row])).map(entry).collect(),
            }
        };
        let mut model = Model { n: case.n, rows: (0..case.m).map(row).collect(), chains: Vec::new() };
        model.chains = (0..case.n).map(|variable| model.chains_from(variable)).collect();
        model
    }

    /// The links of a variable: one to each input of its row.
    fn links(&self, variable: usize) -> Vec<Chain> {
        let Some(row) = self.maker(variable) else { return Vec::new() };
        let element = row.kind == 4;
        let link = |(place, &(end, _)): (usize, &(usize, i128))| Chain {
            end,
            candidate: element && place > 0,
            index: element && place == 0,
        };
        row.inputs.iter().enumerate().map(link).collect()
    }

    /// All chains from a variable, each made longer by every link.
    fn chains_from(&self, variable: usize) -> BTreeSet<Chain> {
        let mut found = BTreeSet::new();
        let mut longer = self.links(variable);
        while let Some(chain) = longer.pop() {
            if found.insert(chain) {
                longer.extend(self.links(chain.end).into_iter().map(|link| Chain {
                    end: link.end,
                    candidate: chain.candidate || link.candidate,
                    index: chain.index || link.index,
                }));
            }
        }
        found
    }

    /// The closed chains through a variable.
    fn closed(&self, variable: usize) -> impl Iterator<Item = &Chain> {
        self.chains[variable].iter().filter(move |chain| chain.end == variable)
    }

    /// Whether the model has a closed chain.
    fn has_closed(&self) -> bool {
        (0..self.n).any(|variable| self.closed(variable).next().is_some())
    }

    /// Whether a variable is on a closed chain, or leads to one.
    fn leads_round(&self, variable: usize) -> bool {
        self.chains[variable].iter().any(|chain| self.closed(chain.end).next().is_some())
    }

    /// Whether a variable leads to another.
    fn leads(&self, from: usize, to: usize) -> bool {
        self.chains[from].iter().any(|chain| chain.end == to)
    }

    /// Whether a variable is another, or each leads to the other.
    fn together(&self, one: usize, other: usize) -> bool {
        one == other || (self.leads(one, other) && self.leads(other, one))
    }

    /// The row that makes a variable.
    fn maker(&self, variable: usize) -> Option<&Row> {
        self.rows.iter().find(|row| row.makes == variable)
    }

    /// The topological number of a variable: 1 plus the greatest among the inputs of its group that are outside it.
    fn number(&self, variable: usize) -> usize {
        if self.maker(variable).is_none() {
            return 0;
        }
        let group = (0..self.n).filter(|&member| self.together(variable, member));
        let inputs = group.flat_map(|member| self.links(member)).map(|link| link.end);
        1 + inputs.filter(|&input| !self.together(variable, input)).map(|input| self.number(input)).max().unwrap_or(0)
    }

    /// The order: rows by number, ties by row.
    fn order(&self) -> Vec<usize> {
        let mut order: Vec<usize> = (0..self.rows.len()).collect();
        order.sort_by_key(|&row| (self.number(self.rows[row].makes), row));
        order
    }

    /// A closed chain must pass a candidate and no index.
    fn check_6(&self) -> Check {
        places(6, self.n, |variable| self.closed(variable).any(|chain| chain.index || !chain.candidate))
    }

    /// Checks 21 and 20, of a case that has passed all others.
    fn checks_of_choices(&self, case: &Case) -> Option<Refused> {
        let moved = match case.call {
            Call::TakeBack => Moved::back(case, usize::from(case.log_sizes[0]) - 1),
            Call::Build => Moved { pairs: Vec::new() },
            _ => Moved::of(case),
        };
        let route = Route { model: self, case, moved: &moved };
        let new = |search: usize| if case.call == Call::Build { case.starts[search] } else { route.moved(search) };
        let stored = |variable: usize| Some(case.stored[variable]);
        let fresh = |variable: usize| self.worked_out(variable, &|search| case.stored[search], self.n);
        let held = case.call != Call::Build && self.has_closed();
        first([
            places(21, self.n, |variable| held && fresh(variable) != stored(variable)),
            places(20, self.n, |variable| self.worked_out(variable, &new, self.n).is_none()),
        ])
    }

    /// The value of a variable by following the choices from the values of the search variables, unless more than this many
    /// steps lead on from it.
    fn worked_out(&self, variable: usize, search: &dyn Fn(usize) -> i32, steps: usize) -> Option<i32> {
        let Some(row) = self.maker(variable) else { return Some(search(variable)) };
        let steps = steps.checked_sub(1)?;
        let input = |place: usize| self.worked_out(row.inputs[place].0, search, steps);
        let mut values = vec![BLANK; row.inputs.len()];
        if row.kind == 4 {
            values[0] = input(0)?;
            if let Some(chosen) = chosen(row, values[0]) {
                values[chosen] = input(chosen)?;
            }
        } else {
            for (place, value) in values.iter_mut().enumerate() {
                *value = input(place)?;
            }
        }
        Some(formula(row, &|place| values[place]))
    }

    fn check_4_of_bounds(&self, case: &Case) -> Check {
        let in_range = |exact: i128| (-2_147_483_647..=2_147_483_647).contains(&exact);
        places(4, self.n, |variable| {
            let (low, high) = (i128::from(case.lows[variable]), i128::from(case.highs[variable]));
            match self.maker(variable) {
                Some(_) => (case.lows[variable], case.highs[variable]) != FULL,
                None => !in_range(low) || !in_range(high) || low > high,
            }
        })
    }

    fn check_7(&self, case: &Case) -> Check {
        places(7, self.n, |variable| match (case.call, self.maker(variable)) {
            (Call::Build, None) => case.starts[variable] == BLANK || is_outside(case, variable, case.starts[variable]),
            (Call::Build, Some(_)) => case.starts[variable] != 0,
            (_, None) => case.stored[variable] == BLANK || is_outside(case, variable, case.stored[variable]),
            (_, Some(_)) => false,
        })
    }

    fn check_8(&self, case: &Case) -> Check {
        let permitted = self.check_6().1.is_empty();
        let numbered = (0..self.n).all(|variable| self.number(variable) == usize::from(case.numbers[variable]));
        let lent: Vec<usize> = case.order[..case.m].iter().map(|&row| usize::from(row)).collect();
        let (starts, places) = self.index();
        let indexed = case.reader_starts[..=case.n] == *starts && case.reader_places.starts_with(&places);
        fixed(8, permitted && numbered && self.order() == lent && indexed)
    }

    /// The rows that read a variable, ascending.
    fn readers(&self, variable: usize) -> Vec<u16> {
        let reads = |row: &usize| self.rows[*row].inputs.iter().any(|&(input, _)| input == variable);
        (0..self.rows.len()).filter(reads).map(|row| row as u16).collect()
    }

    /// The index: how many readers the variables below each have, and the readers of one variable after another.
    fn index(&self) -> (Vec<u16>, Vec<u16>) {
        let below = |end: usize| (0..end).flat_map(|variable| self.readers(variable)).collect::<Vec<u16>>();
        ((0..=self.n).map(|end| below(end).len() as u16).collect(), below(self.n))
    }

    /// Checks 10 to 12, and 17.
    fn checks_of_a_move(&self, case: &Case, moved: &Moved) -> [Check; 4] {
        let variable = |pair: usize| moved.pairs[pair].0;
        let pairs = moved.pairs.len();
        [
            places(10, pairs, |pair| variable(pair) >= self.n || self.maker(variable(pair)).is_some()),
            places(11, pairs, |pair| (0..pair).any(|earlier| variable(earlier) == variable(pair))),
            places(12, pairs, |pair| moved.pairs[pair].1 == BLANK),
            places(17, pairs, |pair| is_outside(case, variable(pair), moved.pairs[pair].1)),
        ]
    }

    /// A log holds at most 64 moves and no more than were kept, and each is at most 64 pairs that a move may have.
    fn check_16(&self, case: &Case) -> Check {
        let moves = usize::from(case.log_sizes[0]);
        let fit = |k: usize| first(self.checks_of_a_move(case, &Moved::back(case, k))).is_none();
        let good = |k: usize| case.log_sizes[k + 1] <= 64 && fit(k);
        fixed(16, moves <= 64 && moves <= case.session.kept as usize && (0..moves).all(good))
    }
}

/// A move: variable and new value of each pair.
struct Moved {
    pairs: Vec<(usize, i32)>,
}

impl Moved {
    /// The move that a case is lent.
    fn of(case: &Case) -> Moved {
        let pair = |pair: usize| (usize::from(case.move_vars[pair]), case.move_values[pair]);
        Moved { pairs: (0..case.pairs).map(pair).collect() }
    }

    /// The move that takes move k of the log back: the pairs from place 64 k on.
    fn back(case: &Case, k: usize) -> Moved {
        let pair = |place: usize| (usize::from(case.log_vars[place]), case.log_values[place]);
        Moved { pairs: (64 * k..64 * k + usize::from(case.log_sizes[k + 1])).map(pair).collect() }
    }
}

/// The log after a keep: the oldest of 64 moves is taken out, with its places, and the move is put behind the others.
fn note(case: &mut Case, moved: &Moved) {
    let (mut sizes, mut vars, mut values) = (case.log_sizes.to_vec(), case.log_vars.to_vec(), case.log_values.to_vec());
    let mut moves = usize::from(sizes[0]);
    if moves == 64 {
        // a place that comes free at the end stays as it was
        sizes.insert(65, sizes[64]);
        sizes.remove(0);
        vars.splice(4096..4096, vars[4032..4096].to_vec());
        vars.drain(..64);
        values.splice(4096..4096, values[4032..4096].to_vec());
        values.drain(..64);
        moves = 63;
    }
    sizes[0] = moves as u16 + 1;
    sizes[moves + 1] = moved.pairs.len() as u16;
    for (pair, &(variable, _)) in moved.pairs.iter().enumerate() {
        vars[64 * moves + pair] = variable as u16;
        values[64 * moves + pair] = case.stored[variable];
    }
    case.log_sizes.copy_from_slice(&sizes);
    case.log_vars.copy_from_slice(&vars);
    case.log_values.copy_from_slice(&values);
}

/// What an accepted call leaves, and its answer.
fn accepted(case: &mut Case) -> Answer {
    if case.call == Call::Write {
        let file = file(case);
        case.bytes[..file.len()].copy_from_slice(&file);
        return Answer::default();
    }
    let model = Model::of(case);
    if case.call == Call::Build {
        return build(case, &model);
    }
    let moved = match case.call {
        Call::TakeBack => Moved::back(case, usize::from(case.log_sizes[0]) - 1),
        _ => Moved::of(case),
    };
    let (new, reasons, evaluated) = {
        let route = Route { model: &model, case, moved: &moved };
        let number = if case.call == Call::Trial { case.route } else { 1 };
        let evaluated = route.evaluated(number);
        let new: Vec<i32> = (0..case.n).map(|variable| route.left(number, &evaluated, variable)).collect();
        let reasons: Vec<u8> = (0..case.n).map(|variable| route.reason_after(number, &evaluated, variable)).collect();
        (new, reasons, evaluated)
    };
    if case.call == Call::Keep {
        note(case, &moved);
    }
    let values = if case.call == Call::Trial { &mut case.trial } else { &mut case.stored };
    values[..new.len()].copy_from_slice(&new);
    for variable in 0..case.n {
        case.flags[variable] = u8::from(evaluated.contains(&variable));
    }
    if case.call == Call::Trial {
        for place in 0..case.asked {
            let asked = usize::from(case.asked_vars[place]);
            (case.results[place], case.why[place]) = (new[asked], reasons[asked]);
        }
    } else {
        for (variable, reason) in reasons.into_iter().enumerate() {
            case.reasons[variable] = if model.maker(variable).is_some() { reason } else { 0 };
        }
    }
    if case.call == Call::Keep {
        case.session.kept = case.session.kept.saturating_add(1);
        case.session.blanks = blanks(case);
    } else if case.call == Call::TakeBack {
        case.session.kept -= u32::from(case.session.kept != 4_294_967_295);
        case.session.blanks = blanks(case);
        case.log_sizes[0] -= 1;
    }
    case.session.evaluations = evaluated.len() as u32;
    Answer { evaluations: case.session.evaluations, ..Answer::default() }
}

fn build(case: &mut Case, model: &Model) -> Answer {
    let route = Route { model, case, moved: &Moved { pairs: Vec::new() } };
    let fresh = |variable| route.fresh(variable, &|search| case.starts[search]);
    let values: Vec<i32> = (0..case.n).map(fresh).collect();
    let reasons: Vec<u8> = (0..case.n).map(|variable| model.reason(variable, &fresh)).collect();
    let numbers: Vec<u16> = (0..case.n).map(|variable| model.number(variable) as u16).collect();
    let order: Vec<u16> = model.order().into_iter().map(|row| row as u16).collect();
    case.stored[..values.len()].copy_from_slice(&values);
    case.reasons[..reasons.len()].copy_from_slice(&reasons);
    case.numbers[..numbers.len()].copy_from_slice(&numbers);
    case.order[..order.len()].copy_from_slice(&order);
    let (starts, places) = model.index();
    case.reader_starts[..starts.len()].copy_from_slice(&starts);
    case.reader_places[..places.len()].copy_from_slice(&places);
    case.log_sizes[0] = 0;
    case.session.kept = 0;
    case.session.evaluations = case.m as u32;
    case.session.blanks = blanks(case);
    Answer { evaluations: case.session.evaluations, ..Answer::default() }
}

/// The rules of the routes over one case.
struct Route<'a> {
    model: &'a Model,
    case: &'a Case,
    moved: &'a Moved,
}

impl Route<'_> {
    fn old(&self, variable: usize) -> i32 {
        self.case.stored[variable]
    }

    /// The new value of a search variable.
    fn moved(&self, variable: usize) -> i32 {
        let pair = self.moved.pairs.iter().find(|(named, _)| *named == variable);
        pair.map_or(self.old(variable), |&(_, value)| value)
    }

    /// The value from the formulas alone, given the search variables. It is determined.
    fn fresh(&self, variable: usize, search: &dyn Fn(usize) -> i32) -> i32 {
        self.model.worked_out(variable, search, self.model.n).expect("a value")
    }

    /// The value from the formulas alone after the move.
    fn freshly(&self, variable: usize) -> i32 {
        self.fresh(variable, &|search| self.moved(search))
    }

    /// Route 1: whether some input's new value differs from the old one.
    fn differs(&self, row: &Row) -> bool {
        row.inputs.iter().any(|&(input, _)| self.swept(input) != self.old(input))
    }

    /// Route 1: the new value. In a model with a closed chain no rule leads to it step by step: it is the fresh one.
    fn swept(&self, variable: usize) -> i32 {
        match self.model.maker(variable) {
            _ if self.model.has_closed() => self.freshly(variable),
            None => self.moved(variable),
            Some(row) if self.differs(row) => formula_of(row, &|input| self.swept(input)),
            Some(_) => self.old(variable),
        }
    }

    /// Route 3: whether a variable is marked, as one that leads to a search variable whose new value differs.
    fn marked(&self, variable: usize) -> bool {
        let differs = |search: usize| self.model.maker(search).is_none() && self.moved(search) != self.old(search);
        differs(variable) || self.model.chains[variable].iter().any(|chain| differs(chain.end))
    }

    /// Route 3: the new value.
    fn guided(&self, variable: usize) -> i32 {
        match self.model.maker(variable) {
            _ if self.model.has_closed() => self.freshly(variable),
            None => self.moved(variable),
            Some(_) if !self.marked(variable) => self.old(variable),
            Some(row) => formula_of(row, &|input| self.guided(input)),
        }
    }

    /// The new value by a route.
    fn new_value(&self, route: u32, variable: usize) -> i32 {
        match route {
            1 => self.swept(variable),
            2 => self.freshly(variable),
            _ => self.guided(variable),
        }
    }

    /// Adds a variable to those needed, with all that it asks in turn.
    fn need(&self, route: u32, variable: usize, needed: &mut BTreeSet<usize>) {
        needed.insert(variable);
        let Some(row) = self.model.maker(variable) else { return };
        if route == 3 && !self.marked(variable) {
            return;
        }
        for (place, &(input, _)) in row.inputs.iter().enumerate() {
            let index = || i64::from(self.new_value(route, row.inputs[0].0));
            if row.kind != 4 || place == 0 || index() == place as i64 - 1 {
                self.need(route, input, needed);
            }
        }
    }

    /// The variables that a route evaluates.
    fn evaluated(&self, route: u32) -> BTreeSet<usize> {
        if route == 1 {
            return self.model.rows.iter().filter(|row| self.differs(row)).map(|row| row.makes).collect();
        }
        let mut needed = BTreeSet::new();
        for place in 0..self.case.asked {
            self.need(route, usize::from(self.case.asked_vars[place]), &mut needed);
        }
        needed.retain(|&variable| self.model.maker(variable).is_some() && (route == 2 || self.marked(variable)));
        needed
    }

    /// The reason of a variable after a call: over the new values if it was evaluated, else the stored one.
    fn reason_after(&self, route: u32, evaluated: &BTreeSet<usize>, variable: usize) -> u8 {
        if evaluated.contains(&variable) {
            self.model.reason(variable, &|input| self.new_value(route, input))
        } else {
            self.case.reasons[variable]
        }
    }

    /// The value that a call leaves: the new one of a variable moved or evaluated, the old one elsewhere.
    fn left(&self, route: u32, evaluated: &BTreeSet<usize>, variable: usize) -> i32 {
        if evaluated.contains(&variable) {
            self.new_value(route, variable)
        } else if self.model.maker(variable).is_none() {
            self.moved(variable)
        } else {
            self.old(variable)
        }
    }
}

impl Model {
    /// The reason of a variable over values; 0 for a search variable.
    fn reason(&self, variable: usize, value: &dyn Fn(usize) -> i32) -> u8 {
        self.maker(variable).map_or(0, |row| reason(row, value))
    }
}

/// Why the formula of a row has no value over the values of variables, 0 if it has one: each reason by itself, and the first
/// of those that hold.
fn reason(row: &Row, value: &dyn Fn(usize) -> i32) -> u8 {
    if formula_of(row, value) != BLANK {
        return 0;
    }
    let inputs: Vec<i32> = row.inputs.iter().map(|&(variable, _)| value(variable)).collect();
    let blanks = inputs.iter().filter(|&&input| input == BLANK).count();
    let chosen = usize::try_from(inputs[0]).ok().and_then(|index| inputs.get(1 + index));
    let stopped = match row.kind {
        2 | 3 => blanks == inputs.len(),
        4 => inputs[0] == BLANK || chosen == Some(&BLANK),
        _ => blanks > 0,
    };
    let headway = [8, 9].contains(&row.kind) && inputs[2] <= 0;
    let outside = row.kind == 4 && chosen.is_none();
    let no_departures = row.kind == 9 && inputs[0] >= inputs[1];
    let reasons = [(4, stopped), (3, headway), (2, outside), (5, no_departures), (1, true)];
    reasons.into_iter().find(|&(_, holds)| holds).map_or(0, |(number, _)| number)
}

/// The place of the candidate that an index chooses, if there is one.
fn chosen(row: &Row, index: i32) -> Option<usize> {
    (1..row.inputs.len()).find(|&place| i64::from(index) == place as i64 - 1)
}

/// The formula of a row over the values of variables.
fn formula_of(row: &Row, value: &dyn Fn(usize) -> i32) -> i32 {
    formula(row, &|place| value(row.inputs[place].0))
}

/// The formula of a row over the values at its places.
fn formula(row: &Row, input: &dyn Fn(usize) -> i32) -> i32 {
    if row.kind == 4 {
        return chosen(row, input(0)).map_or(BLANK, input);
    }
    let inputs: Vec<i32> = (0..row.inputs.len()).map(input).collect();
    if ![2, 3].contains(&row.kind) && inputs.contains(&BLANK) {
        return BLANK;
    }
    let valued = inputs.iter().filter(|&&input| input != BLANK);
    let exact = |place: usize| i128::from(inputs[place]);
    let result = match row.kind {
        1 => Some(row.parameter + row.inputs.iter().zip(&inputs).map(|(&(_, c), &x)| c * i128::from(x)).sum::<i128>()),
        2 => valued.min().map(|&least| least.into()),
        3 => valued.max().map(|&greatest| greatest.into()),
        5 => Some(count(inputs.len(), |i| (0..inputs.len()).any(|j| j != i && inputs[j] == inputs[i]))),
        6 => Some(count(inputs.len(), |i| exact(i) == row.parameter)),
        7 => Some(if exact(0) > exact(1) { exact(0) - exact(1) } else { 0 }),
        8 => departures(exact(0), exact(1), exact(2)),
        9 => departures(exact(0), exact(1), exact(2))
            .filter(|&trips| trips > 0)
            .map(|trips| exact(0) + (trips - 1) * exact(2)),
        _ => None,
    };
    let in_range = |exact: i128| (-2_147_483_647..=2_147_483_647).contains(&exact);
    result.filter(|&exact| in_range(exact)).map_or(BLANK, |exact| exact as i32)
}

fn count(end: usize, holds: impl Fn(usize) -> bool) -> i128 {
    (0..end).filter(|&place| holds(place)).count() as i128
}

/// How many times start + k headway lie strictly before end; none if the headway is 0 or less.
///
/// Times ascend, so the number is the least k whose time is not before end: found by doubling and halving.
fn departures(start: i128, end: i128, headway: i128) -> Option<i128> {
    let before = |k: i128| start + k * headway < end;
    if headway <= 0 {
        return None;
    }
    let mut step = 1;
    while before(step) {
        step *= 2;
    }
    let mut trips = 0;
    while step > 0 {
        if before(trips + step - 1) {
            trips += step;
        }
        step /= 2;
    }
    Some(trips)
}

/// The bytes of a model's file.
fn file(case: &Case) -> Vec<u8> {
    let Case { n, m, e, .. } = *case;
    let mut file = Vec::new();
    for short in [1, n, m, e] {
        file.extend((short as u16).to_le_bytes());
    }
    for long in [24, 24 + 4 * n, 24 + 4 * n + 12 * m, 24 + 4 * n + 12 * m + 4 * e] {
        file.extend((long as u32).to_le_bytes());
    }
    case.starts[..n].iter().for_each(|start| file.extend(start.to_le_bytes()));
    for row in 0..m {
        file.extend(case.kinds[row].to_le_bytes());
        file.extend(case.makes[row].to_le_bytes());
        file.extend(case.params[row].to_le_bytes());
        file.extend(case.firsts[row].to_le_bytes());
        file.extend(case.counts[row].to_le_bytes());
    }
    for entry in 0..e {
        file.extend(case.vars[entry].to_le_bytes());
        file.extend(case.coefs[entry].to_le_bytes());
    }
    file
}

/// Reading: the header's fields in turn, then the lengths of the lent tables.
fn read(case: &mut Case) -> Answer {
    let bytes = case.bytes.to_vec();
    if bytes.len() < 24 {
        return Answer::refused(Refused { number: 14, place: bytes.len() as u32 });
    }
    let field = |at: usize, width: usize| (0..width).map(|i| usize::from(bytes[at + i]) << (8 * i)).sum::<usize>();
    let (n, m, e) = (field(2, 2), field(4, 2), field(6, 2));
    let fields = [
        (0, field(0, 2) == 1),
        (2, (1..=4096).contains(&n)),
        (4, m <= n),
        (6, e <= 16384),
        (8, field(8, 4) == 24),
        (12, field(12, 4) == 24 + 4 * n),
        (16, field(16, 4) == 24 + 4 * n + 12 * m),
        (20, field(20, 4) == 24 + 4 * n + 12 * m + 4 * e && field(20, 4) == bytes.len()),
    ];
    if let Some(&(place, _)) = fields.iter().find(|(_, right)| !right) {
        return Answer::refused(Refused { number: 14, place });
    }
    let rows = [&case.kinds, &case.makes, &case.firsts, &case.counts];
    let long = case.starts.len() >= n
        && rows.iter().all(|table| table.len() >= m)
        && case.params.len() >= m
        && case.vars.len() >= e
        && case.coefs.len() >= e;
    if !long {
        return Answer::refused(Refused { number: 1, place: 0 });
    }
    let (rows, entries) = (24 + 4 * n, 24 + 4 * n + 12 * m);
    (0..n).for_each(|variable| case.starts[variable] = field(24 + 4 * variable, 4) as u32 as i32);
    for row in 0..m {
        let at = rows + 12 * row;
        case.kinds[row] = field(at, 2) as u16;
        case.makes[row] = field(at + 2, 2) as u16;
        case.params[row] = field(at + 4, 4) as u32 as i32;
        case.firsts[row] = field(at + 8, 2) as u16;
        case.counts[row] = field(at + 10, 2) as u16;
    }
    for entry in 0..e {
        case.vars[entry] = field(entries + 4 * entry, 2) as u16;
        case.coefs[entry] = field(entries + 4 * entry + 2, 2) as u16 as i16;
    }
    Answer { n: n as u32, m: m as u32, e: e as u32, ..Answer::default() }
}
