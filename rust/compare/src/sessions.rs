//! Long sessions over one log, as tests of any engine beside the second implementation: many more keeps than the log
//! holds, takings back among them, and now and then a trial, a refused call or a build anew. Taking back leaves the values
//! before the move byte for byte, and their reasons, and the log is as it was before it; the record's number of blanks is
//! that of the stored values after every call, and the stored values and reasons are those worked out afresh. A trial gives
//! by every route the reasons that a keep of its move would store. Half the models have narrow bounds: every stored value of
//! a search variable lies within them, and a move outside is refused.

use std::collections::VecDeque;

use second::{BLANK, MOST_LOGGED};

use crate::{
    Call, Case, Difference, Engine, Guarded, Random, Second, Side, Sizes, agreed, compare, draw_move, has_closed_chain,
    interlined, model, seed, shrink, trial_of,
};

/// How many sessions, and the calls of each.
const SESSIONS: usize = 80;
const CALLS: usize = 300;

/// Runs the sessions.
///
/// # Panics
/// If the engine differs from the second implementation, or if a session is not as it must be.
pub fn long_sessions(engine: &dyn Engine) {
    let tally = sessions(engine, draw);
    assert!(tally.round == 0 && tally.unfresh == 0, "no chain is closed: {tally:?}");
}

/// Runs as many sessions over models with closed chains: a move that leads round one is refused, and so is every call over
/// stored values that are not the fresh ones.
///
/// # Panics
/// If the engine differs from the second implementation, or if a session is not as it must be.
pub fn sessions_over_closed_chains(engine: &dyn Engine) {
    let tally = sessions(engine, draw_chained);
    assert!(tally.round > 200 && tally.unfresh > 50, "closed chains matter often: {tally:?}");
}

/// Runs sessions over models that are drawn so.
fn sessions(engine: &dyn Engine, draw: fn(&mut Random) -> Case) -> Tally {
    let seed = seed();
    println!("seed {seed}");
    let mut random = Random::new(seed);
    let mut tally = Tally::default();
    for _ in 0..SESSIONS {
        let mut session = Session::of(engine, draw(&mut random));
        for call in 0..CALLS {
            session.turn(&mut random, call);
        }
        session.all_back();
        tally.add(&session.tally);
    }
    println!("{tally:?}");
    let Tally { kept, pushed, taken, spent, more, fewer, outside, blank, .. } = tally;
    assert!(kept > 10_000 && pushed > 1_000 && taken > 5_000 && spent > 100, "every turn comes often: {tally:?}");
    assert!(more > 300 && fewer > 300, "blanks come and go: {tally:?}");
    assert!(outside > 50, "moves outside the bounds are refused: {tally:?}");
    assert!(blank > 100, "trials say why a value is blank: {tally:?}");
    tally
}

/// A model with a closed chain that build accepts.
fn draw_chained(random: &mut Random) -> Case {
    let sizes = |variables, entries, inputs| Sizes { variables, entries, inputs };
    loop {
        let sizes = random.pick(&[sizes(9, 36, 5), sizes(9, 36, 5), sizes(40, 160, 8), sizes(200, 400, 8)]);
        let drawn = interlined(random, sizes);
        if has_closed_chain(&drawn) && Side::of(&Second, &drawn).answer.number == 0 {
            return drawn;
        }
    }
}

/// A model of some size, with more search variables than a move has pairs at times.
fn draw(random: &mut Random) -> Case {
    let sizes = |variables, entries, inputs| Sizes { variables, entries, inputs };
    let sizes = random.pick(&[sizes(9, 36, 5), sizes(9, 36, 5), sizes(40, 160, 8), sizes(200, 400, 8)]);
    model(random, sizes)
}

/// What happened: keeps, keeps that pushed a move out of the log, takings back, and those with nothing left; calls that left
/// more blanks, and fewer; moves outside the bounds; blank values that trials gave a reason for; moves that lead round a
/// closed chain, and calls over stored values that are not fresh.
#[derive(Clone, Copy, Debug, Default)]
struct Tally {
    kept: usize,
    pushed: usize,
    taken: usize,
    spent: usize,
    more: usize,
    fewer: usize,
    outside: usize,
    blank: usize,
    round: usize,
    unfresh: usize,
}

impl Tally {
    fn add(&mut self, other: &Tally) {
        self.kept += other.kept;
        self.pushed += other.pushed;
        self.taken += other.taken;
        self.spent += other.spent;
        self.more += other.more;
        self.fewer += other.fewer;
        self.outside += other.outside;
        self.blank += other.blank;
        self.round += other.round;
        self.unfresh += other.unfresh;
    }
}

/// A byte that stands behind the stored reasons.
const BEHIND: u8 = 0xEE;

/// A session: the model as the calls left it, whether it has a closed chain, and the values and reasons before each move that
/// can be taken back.
struct Session<'a> {
    engine: &'a dyn Engine,
    model: Case,
    before: VecDeque<(Vec<i32>, Vec<u8>)>,
    chained: bool,
    kept: u32,
    tally: Tally,
}

impl<'a> Session<'a> {
    /// The session of a build.
    fn of(engine: &'a dyn Engine, build: Case) -> Session<'a> {
        let mut model = Case { flags: vec![7; build.n].into(), ..build.with_log() };
        model.reasons.edit(|reasons| reasons.push(BEHIND));
        let chained = has_closed_chain(&model);
        let mut session = Session { engine, model, before: VecDeque::new(), chained, kept: 0, tally: Tally::default() };
        session.make(Call::Build, 0);
        session
    }

    /// One turn; long stretches of keeps and of takings back, and either by turns.
    fn turn(&mut self, random: &mut Random, call: usize) {
        let back = match call / 50 {
            3 => !random.once_in(8),
            4 => random.once_in(2),
            _ => random.once_in(8),
        };
        match random.below(60) {
            0 if self.chained && random.once_in(2) => self.unfresh(random),
            0 => self.refused(random),
            1..=4 => self.tried(random),
            5 if random.once_in(10) => self.built_anew(),
            _ if back => self.taken_back(),
            _ => self.kept(random),
        }
    }

    /// Makes a call, which gives this number, and leaves in the model what the call leaves.
    fn make(&mut self, call: Call, number: u32) {
        self.model.call = call;
        let differs = |found: Box<Difference>| panic!("{}", shrink(self.engine, &Second, found));
        let answer = compare(self.engine, &Second, &self.model).unwrap_or_else(differs);
        assert_eq!(answer.number, number, "{call:?}");
        let before = self.model.session.blanks;
        Second.answer(&mut self.model);
        self.tally.more += usize::from(self.model.session.blanks > before);
        self.tally.fewer += usize::from(self.model.session.blanks < before);
    }

    fn kept(&mut self, random: &mut Random) {
        let before = (self.model.stored.to_vec(), self.model.reasons.to_vec());
        draw_move(random, &mut self.model);
        self.model.flags = Guarded::junk(random, self.model.n);
        if let Some(place) = self.leads_round(&self.model) {
            self.make(Call::Keep, 20);
            assert_eq!(Side::of(self.engine, &self.model).answer.place, place, "the least variable");
            self.tally.round += 1;
            return;
        }
        self.make(Call::Keep, 0);
        self.before.push_back(before);
        if self.before.len() > MOST_LOGGED {
            self.before.pop_front();
            self.tally.pushed += 1;
        }
        self.kept += 1;
        self.tally.kept += 1;
        self.holds();
    }

    fn taken_back(&mut self) {
        let Some((stored, reasons)) = self.before.pop_back() else {
            self.make(Call::TakeBack, 15);
            self.tally.spent += 1;
            return;
        };
        self.make(Call::TakeBack, 0);
        assert_eq!(*self.model.stored, *stored, "the values before the move");
        assert_eq!(*self.model.reasons, *reasons, "the reasons before the move");
        self.kept -= 1;
        self.tally.taken += 1;
        self.holds();
    }

    /// A refused keep logs nothing, and a record with another number of blanks refuses every call.
    fn refused(&mut self, random: &mut Random) {
        draw_move(random, &mut self.model);
        let blanks = self.model.session.blanks;
        self.model.session.blanks = random.pick(&[blanks + 1, blanks.wrapping_sub(1), u32::MAX]);
        self.make(Call::Keep, 19);
        self.make(Call::TakeBack, 19);
        self.model.session.blanks = blanks;
        self.outside(random);
        self.model.pairs = 1;
        self.model.move_vars = vec![self.model.n as u16].into();
        self.model.move_values = vec![0].into();
        self.model.flags = Guarded::junk(random, self.model.n);
        self.make(Call::Keep, 10);
        self.holds();
    }

    /// A move one beyond a bound, if some search variable has such a number.
    fn outside(&mut self, random: &mut Random) {
        let search = (0..self.model.n).filter(|&variable| self.model.numbers[variable] == 0);
        let beyond = |variable: usize| {
            let (low, high) = self.model.bounds(variable);
            let values = [low.checked_sub(1).filter(|&value| value != BLANK), high.checked_add(1)];
            values.into_iter().flatten().map(move |value| (variable as u16, value))
        };
        let pairs: Vec<(u16, i32)> = search.flat_map(beyond).collect();
        if let Some(&(variable, value)) = pairs.get(random.below(pairs.len())) {
            self.model.pairs = 1;
            self.model.move_vars = vec![variable].into();
            self.model.move_values = vec![value].into();
            self.make(Call::Keep, 17);
            self.tally.outside += 1;
        }
    }

    /// A trial is not lent the log. By every route it gives the values and the reasons that a keep of its move would store.
    fn tried(&mut self, random: &mut Random) {
        let tried = trial_of(random, &self.model);
        if let Some(place) = self.leads_round(&tried) {
            for route in 1..=3 {
                let side = Side::of(self.engine, &Case { route, ..tried.clone() });
                assert_eq!((side.answer.number, side.answer.place), (20, place), "route {route}");
            }
            return;
        }
        let kept = Side::of(self.engine, &Case { call: Call::Keep, ..tried.clone() }).left;
        let left_of = |&asked: &u16| (kept.stored[usize::from(asked)], kept.reasons[usize::from(asked)]);
        let (values, reasons): (Vec<i32>, Vec<u8>) = tried.asked_vars.iter().map(left_of).unzip();
        for route in 1..=3 {
            let differs = |found: Box<Difference>| panic!("{}", shrink(self.engine, &Second, found));
            let by_route = Case { route, ..tried.clone() };
            let Side { answer, left } = agreed(self.engine, &Second, &by_route).unwrap_or_else(differs);
            assert_eq!((answer.number, &*left.results, &*left.why), (0, &*values, &*reasons), "route {route}");
        }
        self.tally.blank += reasons.iter().filter(|&&reason| reason != 0).count();
    }

    /// A build empties the log.
    fn built_anew(&mut self) {
        self.make(Call::Build, 0);
        self.before.clear();
        self.kept = 0;
        self.holds();
        self.make(Call::TakeBack, 15);
    }

    /// The least variable that is not determined after the move of a case: where a build of the model with the new values of its
    /// search variables is refused for it.
    fn leads_round(&self, moving: &Case) -> Option<u32> {
        let mut starts: Vec<i32> = self.model.stored.iter().take(self.model.n).copied().collect();
        let pairs = moving.move_vars.iter().zip(&*moving.move_values).take(moving.pairs);
        pairs.for_each(|(&variable, &value)| starts[usize::from(variable)] = value);
        self.model.makes.iter().for_each(|&made| starts[usize::from(made)] = 0);
        let build = Case { call: Call::Build, starts: starts.into(), ..self.model.clone() };
        let answer = Side::of(&Second, &build).answer;
        (answer.number == 20).then_some(answer.place)
    }

    /// A stored value that is not the fresh one refuses every call on a model with a closed chain.
    fn unfresh(&mut self, random: &mut Random) {
        if self.before.is_empty() {
            return;
        }
        let variable = usize::from(self.model.makes[random.below(self.model.m)]);
        let (stored, blanks) = (self.model.stored[variable], self.model.session.blanks);
        self.model.stored[variable] = if stored == BLANK { 0 } else { stored ^ 1 };
        self.model.count_blanks();
        (self.model.pairs, self.model.move_vars, self.model.move_values) = (0, vec![].into(), vec![].into());
        for call in [Call::Keep, Call::TakeBack] {
            self.make(call, 21);
            assert_eq!(Side::of(self.engine, &self.model).answer.place, variable as u32, "the variable");
        }
        (self.model.stored[variable], self.model.session.blanks) = (stored, blanks);
        self.tally.unfresh += 1;
        self.holds();
    }

    /// The model built anew from the values that its search variables have now.
    fn afresh(&self) -> Case {
        let start = |(&value, &number): (&i32, &u16)| if number == 0 { value } else { 0 };
        let starts: Vec<i32> = self.model.stored.iter().zip(&*self.model.numbers).map(start).collect();
        Side::of(&Second, &Case { call: Call::Build, starts: starts.into(), ..self.model.clone() }).left
    }

    /// The log holds what can be taken back, and the record what was kept and not taken back, and the blanks; the values and
    /// the reasons are those worked out afresh.
    fn holds(&self) {
        let afresh = self.afresh();
        assert_eq!(*self.model.stored, *afresh.stored, "the values worked out afresh");
        assert_eq!(*self.model.reasons, *afresh.reasons, "the reasons worked out afresh");
        assert_eq!(self.model.reasons.last(), Some(&BEHIND), "what lies behind the reasons");
        assert_eq!((self.model.logged(), self.model.session.kept), (self.before.len(), self.kept));
        assert_eq!(self.model.session.blanks, self.model.blanks(), "the number of blanks");
        let within = |variable: usize| {
            let (low, high) = self.model.bounds(variable);
            self.model.numbers[variable] > 0 || (low..=high).contains(&self.model.stored[variable])
        };
        assert!((0..self.model.n).all(within), "every search variable lies within its bounds");
    }

    /// Takes back whatever is left.
    fn all_back(&mut self) {
        while !self.before.is_empty() {
            self.taken_back();
        }
        self.taken_back();
    }
}
