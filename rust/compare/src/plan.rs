//! Random calls one after another: models of every size, the calls on each, whole and damaged.

use second::MOST_LOGGED;

use crate::bounds::move_outside;
use crate::logs::is_search;
use crate::shrink::rebuilt;
use crate::{
    Call, Case, Difference, Engine, Guarded, Random, Second, Side, Sizes, agreed, chain, damage, draw_log,
    has_closed_chain, lengthen, model, model_of, shorten, shrink, value, within,
};

/// The seed of a run without another.
const SEED: u64 = 20_261_115;

/// The seed of a run: the number in the environment variable `LUKHANDRO_SEED`, else a fixed one.
#[must_use]
pub fn seed() -> u64 {
    std::env::var("LUKHANDRO_SEED").ok().and_then(|seed| seed.parse().ok()).unwrap_or(SEED)
}

/// How many calls were compared, by the number that came back: 0 is accepted.
#[derive(Clone, Copy, Debug, Default, PartialEq, Eq)]
pub struct Tally {
    /// The calls by number.
    pub by_number: [usize; 22],
    /// The accepted calls by call: build, trial, keep, taking back, read, write. Salvage is tried by itself.
    pub accepted: [usize; 6],
    /// The calls refused with 8 by the index of readers alone.
    pub by_index: usize,
    /// The keeps refused with 16, and the takings back.
    pub unfit: [usize; 2],
    /// The accepted keeps that pushed a move out of the log.
    pub pushed: usize,
    /// Of the calls on models with a closed chain, by call: build, trial, keep, taking back: the accepted ones, those refused
    /// with 20, and those with 21.
    pub chained: [[usize; 3]; 4],
    /// The reasons that accepted calls gave, by call: build, trial, keep, taking back.
    pub by_reason: [[usize; 6]; 4],
    /// The stored bytes that are no reason and that accepted calls left or handed on, by call.
    pub no_reason: [usize; 4],
}

impl Tally {
    /// All calls.
    #[must_use]
    pub fn calls(&self) -> usize {
        self.by_number.iter().sum()
    }

    fn note(&mut self, case: &Case, made: &Side) {
        let number = made.answer.number;
        if let Some(calls) = self.by_number.get_mut(number as usize) {
            *calls += 1;
        }
        if number == 0 {
            self.accepted[case.call as usize] += 1;
            self.pushed += usize::from(case.call == Call::Keep && case.logged() == MOST_LOGGED);
            self.note_reasons(&made.left);
        }
        if let (Some(by_number), Some(which)) =
            (self.chained.get_mut(case.call as usize), [0, 20, 21].iter().position(|&came| came == number))
        {
            by_number[which] += usize::from(has_closed_chain(case));
        }
        if number == 16 {
            self.unfit[usize::from(case.call == Call::TakeBack)] += 1;
        }
        self.by_index += usize::from(number == 8 && passes_with_its_index(case));
    }

    /// Counts the reasons that an accepted call left: of the variables evaluated, and bytes that are none of the others.
    fn note_reasons(&mut self, left: &Case) {
        let call = left.call as usize;
        let left_of = |variable: usize| (variable, left.reasons[variable]);
        let reasons: Vec<(usize, u8)> = match left.call {
            Call::Build | Call::Keep | Call::TakeBack => (0..left.n).map(left_of).collect(),
            Call::Trial => asked_of(left).map(usize::from).zip(left.why.iter().copied()).collect(),
            _ => Vec::new(),
        };
        let evaluated = |variable: usize| match left.call {
            Call::Build => left.numbers[variable] > 0,
            _ => left.flags[variable] == 1,
        };
        for (variable, reason) in reasons {
            if evaluated(variable) {
                self.by_reason[call][usize::from(reason)] += 1;
            } else {
                self.no_reason[call] += usize::from(reason > 5);
            }
        }
    }

    /// Asserts that every number, every accepted call, a wrong index, a log unfit or full, every reason, and stored bytes that
    /// are none came often.
    ///
    /// # Panics
    /// If one hardly ever came.
    pub fn assert_wide(&self) {
        println!("{self:?}");
        let often = |number: usize| self.by_number[number] > 100 || number == 18;
        assert!((0..22).all(often), "every number that a check has comes back often: {self:?}");
        assert!(self.accepted.iter().all(|&calls| calls > 1_000), "every call is accepted often: {self:?}");
        assert!(self.by_index > 1_000, "the index alone is often wrong: {self:?}");
        assert!(self.unfit.iter().all(|&calls| calls > 1_000), "a log is often unfit: {self:?}");
        assert!(self.pushed > 1_000, "a log is often full: {self:?}");
        let [built, others @ ..] = self.chained;
        let often = |calls: &usize| *calls > 100;
        assert!(built[..2].iter().chain(others.as_flattened()).all(often), "closed chains come often: {self:?}");
        assert_eq!(built[2], 0, "a build does not look at stored values: {self:?}");
        assert!(self.by_reason.as_flattened().iter().all(|&given| given > 100), "every reason is given: {self:?}");
        assert!(self.no_reason[1..].iter().all(|&left| left > 100), "stored bytes are any: {self:?}");
        assert_eq!(self.no_reason[0], 0, "a build leaves nothing but reasons: {self:?}");
    }
}

/// The variables that a trial asks.
fn asked_of(tried: &Case) -> impl Iterator<Item = u16> {
    tried.asked_vars.iter().copied().take(tried.asked)
}

/// Whether check 8 passes once the index of a case is put right.
fn passes_with_its_index(case: &Case) -> bool {
    rebuilt(case).is_some_and(|Case { reader_starts, reader_places, .. }| {
        Second.answer(&mut Case { reader_starts, reader_places, ..case.clone() }).number != 8
    })
}

/// Compares two engines on random calls, at least as many as told, over models that `draw` gives.
///
/// # Errors
/// The first difference, made smaller.
pub fn run(
    one: &dyn Engine,
    other: &dyn Engine,
    seed: u64,
    calls: usize,
    draw: impl Fn(&mut Random) -> Case,
) -> Result<Tally, Box<Difference>> {
    let mut random = Random::new(seed);
    let mut tally = Tally::default();
    while tally.calls() < calls {
        let model = draw(&mut random);
        for case in calls_on(&mut random, &model) {
            let made = agreed(one, other, &case).map_err(|found| shrink(one, other, found))?;
            tally.note(&case, &made);
        }
    }
    Ok(tally)
}

/// Every call on a model, whole and damaged, in the order in which a caller makes them.
pub fn calls_on(random: &mut Random, build: &Case) -> Vec<Case> {
    let mut calls = vec![build.clone()];
    for _ in 0..3 {
        calls.push(damaged(random, build));
    }
    let mut built = build.clone();
    Second.answer(&mut built);
    for route in 1..=3 {
        let mut tried = trial_of(random, &built);
        tried.route = route;
        calls.push(tried);
    }
    let stale = stale(random, &built);
    for from in [&built, &stale] {
        let tried = trial_of(random, from);
        calls.push(damaged(random, &tried));
        calls.push(damaged(random, &tried));
        calls.extend(outside(random, &tried));
        calls.push(tried);
        let mut kept = keep_of(random, from);
        calls.extend(outside(random, &kept));
        calls.push(damaged(random, &kept));
        calls.push(kept.clone());
        Second.answer(&mut kept);
        calls.push(Case { call: Call::TakeBack, flags: Guarded::junk(random, kept.n), ..kept.clone() });
        calls.push(trial_of(random, &without_log(kept)));
        let taken = take_back_of(random, from);
        calls.push(damaged(random, &taken));
        calls.push(taken);
    }
    if has_closed_chain(build) {
        calls.extend(choosing(random, build, &built));
    }
    calls.extend(files_of(random, build));
    for case in &mut calls {
        if random.once_in(3) {
            draw_reasons(random, case);
        }
        if random.once_in(3) {
            lengthen(random, case);
        }
    }
    calls
}

/// Calls on a model with a closed chain whose values choose among candidates: a build, a trial, a keep and a taking back.
fn choosing(random: &mut Random, build: &Case, built: &Case) -> [Case; 4] {
    let mut again = build.clone();
    for variable in 0..build.n {
        if random.once_in(2) && !build.makes.contains(&(variable as u16)) {
            again.starts[variable] = choice(random, build, variable, build.starts[variable]);
        }
    }
    let moving = |random: &mut Random, mut case: Case| {
        for pair in 0..case.pairs {
            case.move_values[pair] = choice(random, &case, case.move_vars[pair].into(), case.move_values[pair]);
        }
        case
    };
    let (tried, kept) = (trial_of(random, built), keep_of(random, built));
    let mut taken = take_back_of(random, built);
    for place in taken.logged_places() {
        taken.log_values[place] = choice(random, &taken, taken.log_vars[place].into(), taken.log_values[place]);
    }
    [again, moving(random, tried), moving(random, kept), taken]
}

/// A value that chooses a candidate, if the bounds of its variable allow it, else this one.
fn choice(random: &mut Random, case: &Case, variable: usize, value: i32) -> i32 {
    let (low, high) = case.bounds(variable);
    Some(random.between(-1, 3)).filter(|choice| (low..=high).contains(choice)).unwrap_or(value)
}

/// The same move beyond a bound if it can be, alone and with one or two things wrong.
fn outside(random: &mut Random, case: &Case) -> [Case; 2] {
    let mut case = case.clone();
    move_outside(random, &mut case);
    [damaged(random, &case), case]
}

/// A case with one or two things wrong, or a buffer one too short.
fn damaged(random: &mut Random, case: &Case) -> Case {
    let mut case = case.clone();
    for _ in 0..1 + random.below(2) {
        damage(random, &mut case);
    }
    if random.once_in(6) {
        shorten(random, &mut case);
    }
    case
}

/// The same model with stored values that no call produced, and their number of blanks.
fn stale(random: &mut Random, built: &Case) -> Case {
    let mut stale = built.clone();
    for place in 0..stale.n {
        if random.once_in(3) {
            let made = stale.numbers.get(place).is_some_and(|&number| number > 0);
            let blank = made && random.once_in(3);
            let value = value(random);
            let allowed = within(random, &stale, place, value);
            stale.stored.put(place, if blank { second::BLANK } else { allowed });
        }
    }
    stale.count_blanks();
    stale
}

/// Gives a case stored reasons that no call left: any reasons, or any bytes at all.
fn draw_reasons(random: &mut Random, case: &mut Case) {
    let end = random.pick(&[6, 256]);
    case.reasons.iter_mut().for_each(|reason| *reason = random.below(end) as u8);
}

/// A trial of a random move on a model that was built, by a random route.
pub fn trial_of(random: &mut Random, built: &Case) -> Case {
    let mut case = Case { call: Call::Trial, route: 1 + random.below(3) as u32, ..built.clone() };
    draw_move(random, &mut case);
    case.asked = if random.once_in(8) { random.below(33) } else { random.below(4) };
    case.asked_vars = (0..case.asked).map(|_| random.below(case.n) as u16).collect::<Vec<_>>().into();
    case.results = Guarded::junk(random, case.asked);
    case.trial = Guarded::junk(random, case.n);
    case.flags = Guarded::junk(random, case.n);
    case.why = Guarded::junk(&mut random.aside(), case.asked);
    case
}

/// A keep of a random move on a model that was built, with a random log.
pub fn keep_of(random: &mut Random, built: &Case) -> Case {
    let mut case = Case { call: Call::Keep, ..built.clone() };
    draw_move(random, &mut case);
    draw_record(random, &mut case);
    case.flags = Guarded::junk(random, case.n);
    case
}

/// A taking back on a model that was built, from a random log.
pub fn take_back_of(random: &mut Random, built: &Case) -> Case {
    let mut case = Case { call: Call::TakeBack, ..built.clone() };
    draw_record(random, &mut case);
    case.flags = Guarded::junk(random, case.n);
    case
}

/// Gives a case a number of moves kept, and a log that it allows.
fn draw_record(random: &mut Random, case: &mut Case) {
    case.session.kept = random.pick(&[case.session.kept, 1, 64, 64, 1000, 1000, u32::MAX - 1, u32::MAX]);
    draw_log(random, case);
}

/// The case without the rows of its log, for the calls that are not lent them.
fn without_log(case: Case) -> Case {
    Case { log_sizes: Guarded::default(), log_vars: Guarded::default(), log_values: Guarded::default(), ..case }
}

/// Gives a case a move: search variables, each once, with values that their bounds allow, some with the value that they have.
pub fn draw_move(random: &mut Random, case: &mut Case) {
    let is_search = |&variable: &u16| is_search(case, variable);
    let wanted = if random.once_in(8) { random.below(65) } else { random.below(4) };
    let mut variables: Vec<u16> = Vec::new();
    for _ in 0..2 * wanted {
        let variable = random.below(case.n) as u16;
        if variables.len() < wanted && is_search(&variable) && !variables.contains(&variable) {
            variables.push(variable);
        }
    }
    let new_value = |random: &mut Random, variable: u16| match case.stored.get(usize::from(variable)) {
        Some(&stored) if random.once_in(4) => stored,
        Some(&stored) if stored < i32::MAX && random.once_in(2) => stored + 1,
        _ => value(random),
    };
    let mut allowed = |variable: u16| {
        let value = new_value(random, variable);
        within(random, case, variable.into(), value)
    };
    let values: Vec<i32> = variables.iter().map(|&variable| allowed(variable)).collect();
    case.pairs = variables.len();
    case.move_vars = variables.into();
    case.move_values = values.into();
}

/// Writing and reading a model, whole and damaged.
fn files_of(random: &mut Random, build: &Case) -> Vec<Case> {
    let mut write = Case { call: Call::Write, ..build.clone() };
    write.bytes = Guarded::junk(random, 24 + 4 * build.n + 12 * build.m + 4 * build.e);
    let mut read = write.clone();
    Second.answer(&mut read);
    read.call = Call::Read;
    forget(random, &mut read);
    vec![damaged(random, &write), write, damaged(random, &read), damaged(random, &read), read]
}

/// Fills the tables of a read with what means nothing.
fn forget(random: &mut Random, read: &mut Case) {
    for table in [&mut read.kinds, &mut read.makes, &mut read.firsts, &mut read.counts, &mut read.vars] {
        *table = Guarded::junk(random, table.len());
    }
    read.coefs = Guarded::junk(random, read.coefs.len());
    read.params = Guarded::junk(random, read.params.len());
    read.starts = Guarded::junk(random, read.starts.len());
}

impl Sizes {
    /// Few variables, so that a definition can be followed step by step.
    pub const TINY: Sizes = Sizes { variables: 7, entries: 18, inputs: 4 };

    /// Models of every size up to the bounds, mostly small.
    pub fn any_model(random: &mut Random) -> Case {
        let sizes = |variables, entries, inputs| Sizes { variables, entries, inputs };
        match random.below(400) {
            0 => {
                let inputs = random.pick(&[4, 16, 256]);
                model_of(random, 4096, sizes(4096, 16384, inputs))
            }
            1 => {
                let kind = random.pick(&[1, 2, 3, 4, 5, 6]);
                chain(kind, 4095, 4, random.between(-1, 2))
            }
            2..=20 => model(random, sizes(300, 1200, 256)),
            21..=120 => model(random, sizes(40, 160, 8)),
            _ => model(random, sizes(9, 36, 5)),
        }
    }
}
