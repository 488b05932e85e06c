//! Records random sessions with the answers of the second implementation: `cargo run --release --bin record -- FOLDER`
//! writes the sessions to `FOLDER/data/sessions-01` and on, and their lines to `FOLDER/expected/sessions-01` and on.
//! What it writes is always the same; `tools/record` puts it into the repository.
//!
//! [`compare::vectors::replay`] says how a session and its lines are laid out. All keeps and takings back of a session
//! have one log, which the last files try over sessions of many calls; two of these have narrow bounds. The files
//! before them have models with closed chains. Reasons are not recorded.

use std::path::Path;
use std::{env, fs, io};

use compare::vectors::replay::{
    CALL, MOST, ROWS, build_line, building, call_line, change_line, go_on, put_field, read_line, reading, with_rows,
};
use compare::{
    Call, Case, Engine, Random, Second, Sizes, damage, interlined, model, model_of, move_outside, near_a_bound,
    trial_of, value,
};
use second::{BLANK, HIGHEST, LOWEST};

/// Where the random numbers start.
const SEED: u64 = 20_261_115;

/// The files, and the sessions of each; then files of sessions over models with closed chains; then files of one long
/// session each, and its turns.
const FILES: usize = 26;
const SESSIONS: u32 = 13;
const CHAINED_FILES: usize = 11;
const CHAINED_SESSIONS: u32 = 10;
const LONG_FILES: usize = 4;
const TURNS: usize = 230;

/// The least calls of a long session that leave another number of blanks, and the least variables of a narrow one whose
/// bounds are not full.
const RECOUNTED: usize = 40;
const NARROW: usize = 3;

fn main() -> io::Result<()> {
    let folder = env::args().nth(1).ok_or(io::Error::other("record FOLDER"))?;
    let folder = Path::new(&folder);
    for part in ["data", "expected"] {
        fs::create_dir_all(folder.join(part))?;
    }
    let mut random = Random::new(SEED);
    for file in 1..=FILES + CHAINED_FILES + LONG_FILES {
        let long = file > FILES + CHAINED_FILES;
        let sessions = if long { 1 } else { [SESSIONS, CHAINED_SESSIONS][usize::from(file > FILES)] };
        let (mut data, mut lines) = (sessions.to_le_bytes().to_vec(), String::new());
        for _ in 0..sessions {
            let recorded = if long {
                Recording::of_long_session(&mut random, file % 2 == 0)
            } else {
                Recording::of_session(&mut random, file > FILES)
            };
            data.extend(recorded.data());
            lines += &recorded.lines;
        }
        fs::write(folder.join(format!("data/sessions-{file:02}")), data)?;
        fs::write(folder.join(format!("expected/sessions-{file:02}")), lines)?;
    }
    Ok(())
}

/// A session as far as it is recorded.
#[derive(Default)]
struct Recording {
    bounds: Vec<u8>,
    file: Vec<u8>,
    calls: Vec<u8>,
    lines: String,
    recounted: usize,
    chained: bool,
}

impl Recording {
    /// The session of a random model, with closed chains or of any kind: a read, a build, and calls one after another.
    fn of_session(random: &mut Random, chained: bool) -> Recording {
        let file = any_reading(random, chained);
        let mut session = Recording { chained, ..Recording::of_file(&file) };
        if let Some(mut model) = session.read_and_build(file) {
            for _ in 0..2 + random.below(11) {
                session.turn(random, &mut model);
            }
        }
        session
    }

    /// A session without calls.
    fn of_file(file: &Case) -> Recording {
        let bounds = file.lows.iter().chain(&*file.highs).flat_map(|bound| bound.to_le_bytes()).collect();
        Recording { bounds, file: file.bytes.to_vec(), ..Recording::default() }
    }

    /// A session of so many keeps that the log is full, then takings back among them, until none is left; over it
    /// blanks come and go. Its bounds are narrow or full.
    fn of_long_session(random: &mut Random, narrow: bool) -> Recording {
        loop {
            let (session, bounded) = Recording::of_keeps_and_takings_back(random);
            let asked = if narrow { bounded >= NARROW } else { bounded == 0 };
            if session.recounted >= RECOUNTED && asked {
                return session;
            }
        }
    }

    /// Such a session, with the number of variables whose bounds are not full.
    fn of_keeps_and_takings_back(random: &mut Random) -> (Recording, usize) {
        let sizes = Sizes { variables: 12, entries: 48, inputs: 5 };
        let mut session = Recording::default();
        let mut model = None;
        while model.is_none() {
            let drawn = model_of(random, 12, sizes);
            let length = length_of(&drawn);
            let file = with_bounds(written(drawn, length));
            session = Recording::of_file(&file);
            model = session.read_and_build(file);
        }
        let mut model = model.unwrap_or_default();
        for turn in 0..TURNS {
            let back = if turn < 110 { random.once_in(8) } else { !random.once_in(8) };
            let name = if back { Call::TakeBack } else { Call::Keep };
            session.call(random, &mut model, name, false);
        }
        let bounded = (0..model.n).filter(|&variable| model.bounds(variable) != (LOWEST, HIGHEST)).count();
        (session, bounded)
    }

    /// The bytes of the session.
    fn data(&self) -> Vec<u8> {
        let counts = [self.file.len(), self.calls.len() / CALL].map(|count| (count as u32).to_le_bytes());
        [&counts.concat()[..], &self.bounds, &self.file, &self.calls].concat()
    }

    /// Reads and builds; gives the model if both are accepted.
    fn read_and_build(&mut self, file: Case) -> Option<Case> {
        let mut model = file;
        let answer = Second.answer(&mut model);
        self.line(&read_line(answer));
        if answer.number != 0 {
            return None;
        }
        model = building(model, answer);
        let answer = Second.answer(&mut model);
        self.line(&build_line(answer, &model));
        (answer.number == 0).then_some(model)
    }

    /// A call on the model, at times between a change of one field and the change back.
    fn turn(&mut self, random: &mut Random, model: &mut Case) {
        let changed = random.once_in(2).then(|| match self.chained && random.once_in(2) {
            true => Change::of_chosen(random, model),
            false => Change::random(random, model),
        });
        if let Some(change) = changed {
            let before = change.put(model);
            self.change(change);
            if change.row == STORED && !random.once_in(4) {
                self.count_blanks(model);
            }
            self.any_call(random, model, (SIZES..=VALUES).contains(&change.row));
            if change.row != STORED || !random.once_in(4) {
                let back = Change { field: before, ..change };
                back.put(model);
                self.change(back);
            }
            self.count_blanks(model);
        }
        self.any_call(random, model, false);
    }

    /// Changes the record's number of blanks to that of the stored values, if it is another.
    fn count_blanks(&mut self, model: &mut Case) {
        let right = Change { row: RECORD, place: 1, field: model.blanks() };
        if right.put(model) != right.field {
            self.change(right);
        }
    }

    /// A random trial, keep or taking back on the model, at times spoilt; no trial if it is to have a log.
    fn any_call(&mut self, random: &mut Random, model: &mut Case, logged: bool) {
        let names = [Call::Keep, Call::Keep, Call::TakeBack, Call::TakeBack, Call::Trial, Call::Trial, Call::Trial];
        let name = random.pick(if logged { &names[..4] } else { &names });
        let spoilt = random.once_in(3);
        self.call(random, model, name, spoilt);
    }

    /// A trial, a keep or a taking back on the model, which is then as the call leaves it.
    fn call(&mut self, random: &mut Random, model: &mut Case, name: Call, spoilt: bool) {
        let mut case = cut(Case { call: name, ..trial_of(random, model) });
        if self.chained {
            choose(random, &mut case);
        }
        if spoilt {
            spoil(random, &mut case);
        }
        self.calls.extend(bytes_of(&case));
        let answer = Second.answer(&mut case);
        self.line(&call_line(answer, &case));
        self.recounted += usize::from(case.session.blanks != model.session.blanks);
        *model = go_on(std::mem::take(model), case);
    }

    /// A change.
    fn change(&mut self, change: Change) {
        let Change { row, place, field } = change;
        for number in [3, row, place, field] {
            self.calls.extend(number.to_le_bytes());
        }
        self.calls.extend([0; CALL - 16]);
        self.line(&change_line(row, place, field));
    }

    /// The next line.
    fn line(&mut self, line: &str) {
        self.lines += line;
        self.lines.push('\n');
    }
}

/// The read of a random model's file, at times damaged.
fn any_reading(random: &mut Random, chained: bool) -> Case {
    let sizes = Sizes { variables: 12, entries: 48, inputs: 5 };
    let mut case = match random.below(16) {
        _ if chained => interlined(random, sizes),
        0 => model_of(random, ROWS + 1, sizes),
        _ => model(random, sizes),
    };
    let length = length_of(&case);
    match random.below(if chained { 48 } else { 12 }) {
        0 => case.makes.put(random.below(case.m), case.makes.first().copied().unwrap_or(0)),
        1 => case.kinds.put(random.below(case.m), random.pick(&[0, 10])),
        2..=5 => damage(random, &mut case),
        _ => {}
    }
    case = written(case, length);
    if !chained && random.once_in(8) {
        damage(random, &mut case);
    }
    with_bounds(case)
}

/// The length of a model's file.
fn length_of(model: &Case) -> usize {
    24 + 4 * model.n + 12 * model.m + 4 * model.e
}

/// The read of a model's file of this length.
fn written(model: Case, length: usize) -> Case {
    let mut case = Case { call: Call::Write, bytes: vec![0; length].into(), ..model };
    Second.answer(&mut case);
    Case { call: Call::Read, ..case }
}

/// A read into the tables of a session, with as many bounds.
fn with_bounds(mut case: Case) -> Case {
    case.lows.edit(|lows| lows.resize(ROWS, LOWEST));
    case.highs.edit(|highs| highs.resize(ROWS, HIGHEST));
    reading(case)
}

/// The case with the rows of a session, and no more pairs and asked variables than they hold.
fn cut(mut case: Case) -> Case {
    case.pairs = case.pairs.min(MOST);
    case.asked = case.asked.min(MOST);
    case.move_vars.edit(|vars| vars.resize(MOST, 0));
    case.move_values.edit(|values| values.resize(MOST, 0));
    case.asked_vars.edit(|vars| vars.resize(MOST, 0));
    with_rows(case)
}

/// Gives some pairs of the move values that choose a candidate, where their bounds allow them.
fn choose(random: &mut Random, case: &mut Case) {
    for pair in 0..case.pairs {
        let (low, high) = case.bounds(case.move_vars[pair].into());
        let choice = random.between(-1, 3);
        if (low..=high).contains(&choice) && random.once_in(2) {
            case.move_values[pair] = choice;
        }
    }
}

/// Makes the move, the asked list, the route or a count wrong, or only other than it was.
fn spoil(random: &mut Random, case: &mut Case) {
    let place = random.below(case.pairs);
    match random.below(10) {
        6..=9 => move_outside(random, case),
        0 => case.move_vars.put(place, random.below(2 * case.n) as u16),
        1 => case.move_vars.put(place, case.move_vars[0]),
        2 => case.move_values.put(place, BLANK),
        3 => case.asked_vars.put(random.below(case.asked), random.below(2 * case.n) as u16),
        4 => case.route = random.pick(&[0, 4, 65536]),
        _ => case.pairs = random.pick(&[MOST + 1, 64, 65]),
    }
}

/// A trial, a keep or a taking back as it is recorded.
fn bytes_of(case: &Case) -> Vec<u8> {
    if case.call == Call::TakeBack {
        return [&4u32.to_le_bytes()[..], &[0; CALL - 4]].concat();
    }
    let tries = case.call == Call::Trial;
    let (name, route, asked) = if tries { (1, case.route, case.asked) } else { (2, 0, 0) };
    let mut bytes = Vec::with_capacity(CALL);
    for field in [name, route, case.pairs as u32, asked as u32] {
        bytes.extend(field.to_le_bytes());
    }
    bytes.extend(case.move_vars.iter().flat_map(|variable| variable.to_le_bytes()));
    bytes.extend(case.move_values.iter().flat_map(|value| value.to_le_bytes()));
    bytes.extend(case.asked_vars.iter().flat_map(|variable| variable.to_le_bytes()));
    bytes
}

/// The numbers of the record, of the stored values, of the log's rows and of the bounds among the rows that a change
/// names.
const RECORD: u32 = 0;
const STORED: u32 = 10;
const SIZES: u32 = 13;
const VARS: u32 = 14;
const VALUES: u32 = 15;
const LOWS: u32 = 16;
const HIGHS: u32 = 17;

/// A change of one field.
#[derive(Clone, Copy)]
struct Change {
    row: u32,
    place: u32,
    field: u32,
}

impl Change {
    /// A change that may be refused, or may be one model for another.
    fn random(random: &mut Random, model: &Case) -> Change {
        if random.once_in(6)
            && let Some(change) = Change::outside(random, model)
        {
            return change;
        }
        let log = [SIZES, SIZES, VARS, VALUES, VALUES];
        let row = random.pick(&[
            RECORD, RECORD, RECORD, 1, 1, 2, 2, 3, 4, 5, 6, 7, 8, 9, STORED, STORED, STORED, STORED, STORED, 11, 11,
            12, 12,
        ]);
        let row = match random.below(8) {
            0 => random.pick(&[LOWS, HIGHS]),
            1 | 2 => random.pick(&log),
            _ => row,
        };
        let place = match row {
            RECORD => usize::from(!random.once_in(3)),
            6 | 7 | 12 => random.below(model.e),
            8 | STORED | LOWS | HIGHS => random.below(model.n),
            11 => random.below(model.n + 1),
            SIZES => random.below(model.logged() + 1),
            VARS | VALUES => 64 * random.below(model.logged()) + usize::from(random.once_in(4)),
            _ => random.below(model.m),
        };
        let (variable, blanks) = (random.below(model.n + 1) as u32, model.session.blanks);
        let bounded = if row == VALUES { usize::from(model.log_vars[place]) } else { place };
        let near = near_a_bound(random, model, bounded) as u32;
        let field = match row {
            RECORD if place == 0 => random.pick(&[0, u32::MAX - 1, u32::MAX]),
            RECORD => random.pick(&[blanks + 1, blanks + 1, blanks.wrapping_sub(1), 0, u32::MAX]),
            1 => random.pick(&[0, 1, 2, 3, 4, 5, 10, 65535]),
            2 if random.once_in(2) => model.makes[random.below(model.m)].into(),
            3 => random.pick(&[0, 1, 1_000_000_000, 1_000_000_001, (-1_000_000_001_i32) as u32]),
            7 => random.pick(&[1, 2, 1000, 1001, 0xFFFF, 0xFC17]),
            LOWS | HIGHS => random.pick(&[near, near, BLANK as u32, LOWEST as u32, HIGHEST as u32, 0]),
            STORED | VALUES if random.once_in(2) => BLANK as u32,
            STORED | VALUES if random.once_in(2) => near,
            VALUES => value(random) as u32,
            SIZES => random.pick(&[0, 1, 2, 3, 64, 65, 65535]),
            STORED => value(random) as u32,
            _ => variable,
        };
        Change { row, place: place as u32, field }
    }

    /// A stored value, which then is not the fresh one, or the first value of the latest logged move, which then may
    /// choose another candidate.
    fn of_chosen(random: &mut Random, model: &Case) -> Change {
        let held = model.logged().checked_sub(1).filter(|&latest| model.log_sizes[latest + 1] > 0);
        match held.filter(|_| random.once_in(2)) {
            Some(latest) => Change { row: VALUES, place: 64 * latest as u32, field: random.between(-1, 3) as u32 },
            None => Change { row: STORED, place: random.below(model.n) as u32, field: random.between(-1, 3) as u32 },
        }
    }

    /// A stored or a logged value of a search variable one beyond a bound, if some variable has such a value.
    fn outside(random: &mut Random, model: &Case) -> Option<Change> {
        let stored = (0..model.n).filter(|&variable| model.numbers[variable] == 0).map(|place| (STORED, place, place));
        let held = (0..model.logged()).filter(|kept| model.log_sizes[kept + 1] > 0).map(|kept| 64 * kept);
        let logged = held.map(|place| (VALUES, place, usize::from(model.log_vars[place])));
        let beyond = |(row, place, variable): (u32, usize, usize)| {
            let (low, high) = model.bounds(variable);
            let values = [low.checked_sub(1).filter(|&value| value != BLANK), high.checked_add(1)];
            values.into_iter().flatten().map(move |value| Change { row, place: place as u32, field: value as u32 })
        };
        let changes: Vec<Change> = stored.chain(logged).flat_map(beyond).collect();
        changes.get(random.below(changes.len())).copied()
    }

    /// Makes the change, and gives the field that was there.
    fn put(self, model: &mut Case) -> u32 {
        put_field(model, self.row, self.place as usize, self.field)
    }
}
