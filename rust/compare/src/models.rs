//! Random models: tables and start values that build accepts.

use lent::LOG_SIZES;

use crate::{Call, Case, Guarded, Random, draw_bounds};

const LINEAR: u16 = 1;
const MAX: u16 = 3;
const ELEMENT: u16 = 4;
const COUNT: u16 = 6;
const OVER: u16 = 7;
const DEPARTURES: u16 = 8;
const LAST: u16 = 9;

/// The bounds inside which a random model is drawn.
#[derive(Clone, Copy, Debug)]
pub struct Sizes {
    /// The most variables.
    pub variables: usize,
    /// The most entries.
    pub entries: usize,
    /// The most entries of one row.
    pub inputs: usize,
}

/// How values are drawn: small ones that are often equal and make good indices, times of a day, or the whole range.
#[derive(Clone, Copy, Debug)]
enum Spread {
    Small,
    Times,
    Wide,
}

/// A value that a search variable may have.
pub fn value(random: &mut Random) -> i32 {
    let spread = random.pick(&[Spread::Small, Spread::Small, Spread::Times, Spread::Wide]);
    value_of(random, spread)
}

fn value_of(random: &mut Random, spread: Spread) -> i32 {
    match spread {
        Spread::Small => random.between(-1, 4),
        Spread::Times => 60 * random.between(1, 1500),
        Spread::Wide if random.once_in(3) => random.pick(&[i32::MAX, -i32::MAX, i32::MAX - 1, 0, 1, -1, 1 - i32::MAX]),
        Spread::Wide => random.between(-i32::MAX, i32::MAX),
    }
}

/// One row of a model, before its place among the rows is known.
#[derive(Clone, Debug)]
pub struct Row {
    /// 1 to 9.
    pub kind: u16,
    /// The variable made.
    pub makes: u16,
    /// The parameter.
    pub parameter: i32,
    /// Variable and coefficient of each entry.
    pub entries: Vec<(u16, i16)>,
}

impl Row {
    /// A row without parameter and with every coefficient 1.
    #[must_use]
    pub fn plain(kind: u16, makes: u16, inputs: &[u16]) -> Row {
        Row { kind, makes, parameter: 0, entries: inputs.iter().map(|&variable| (variable, 1)).collect() }
    }
}

/// A build of a random model that it accepts, with buffers that are just as long as the counts ask.
pub fn model(random: &mut Random, sizes: Sizes) -> Case {
    let n = 1 + random.below(sizes.variables);
    model_of(random, n, sizes)
}

/// A random model of n variables. If its entries reach their bound they fill it.
pub fn model_of(random: &mut Random, n: usize, sizes: Sizes) -> Case {
    let most_rows = random.below(n + 1).min(n - 1);
    let mut variables: Vec<u16> = (0..n as u16).collect();
    random.shuffle(&mut variables);
    let spread = random.pick(&[Spread::Small, Spread::Small, Spread::Times, Spread::Wide]);
    let mut room = sizes.entries;
    let mut rows = Vec::new();
    for known in n - most_rows..n {
        if room < sizes.inputs.max(3) {
            rows.extend((room > 0).then(|| Row::plain(MAX, variables[known], &vec![variables[0]; room])));
            break;
        }
        let row = draw_row(random, sizes.inputs, &variables[..known], variables[known]);
        room -= row.entries.len();
        rows.push(row);
    }
    random.shuffle(&mut rows);
    let mut starts: Vec<i32> = (0..n).map(|_| value_of(random, spread)).collect();
    for row in &rows {
        starts[usize::from(row.makes)] = 0;
    }
    let mut case = of_rows(starts, &rows);
    draw_bounds(random, &mut case);
    junk(random, &mut case);
    case
}

/// A row that makes a variable from known ones.
fn draw_row(random: &mut Random, most: usize, known: &[u16], makes: u16) -> Row {
    let kind = random.pick(&[1, 1, 2, 3, 4, 4, 4, 5, 6, 7, 8, 9]);
    let count = match kind {
        OVER => 2,
        DEPARTURES | LAST => 3,
        ELEMENT => 2 + random.below(most.saturating_sub(1)),
        _ => 1 + random.below(most),
    };
    let parameter = match kind {
        LINEAR => random.pick(&[0, 0, 1, 2, -1, 1_000_000_000, -1_000_000_000]),
        COUNT => random.between(-1, 3),
        _ => 0,
    };
    let near = random.once_in(3);
    let mut input = || {
        let reach = if near { known.len().min(3) } else { known.len() };
        known[known.len() - 1 - random.below(reach)]
    };
    let inputs: Vec<u16> = (0..count).map(|_| input()).collect();
    let coefficient = |random: &mut Random| match kind {
        LINEAR => random.pick(&[1, 1, -1, 2, -2, 0, 4, 1000, -1000]),
        _ => 1,
    };
    let entries = inputs.into_iter().map(|variable| (variable, coefficient(random))).collect();
    Row { kind, makes, parameter, entries }
}

/// A build of these rows over these start values and full bounds, with buffers that are just as long as the counts ask.
#[must_use]
pub fn of_rows(starts: Vec<i32>, rows: &[Row]) -> Case {
    let (n, m) = (starts.len(), rows.len());
    let counts: Vec<u16> = rows.iter().map(|row| row.entries.len() as u16).collect();
    let firsts: Vec<u16> =
        counts.iter().scan(0u16, |next, count| Some(std::mem::replace(next, next.wrapping_add(*count)))).collect();
    let (vars, coefs): (Vec<u16>, Vec<i16>) = rows.iter().flat_map(|row| row.entries.iter().copied()).unzip();
    Case {
        call: Call::Build,
        n,
        m,
        e: vars.len(),
        kinds: rows.iter().map(|row| row.kind).collect::<Vec<_>>().into(),
        makes: rows.iter().map(|row| row.makes).collect::<Vec<_>>().into(),
        params: rows.iter().map(|row| row.parameter).collect::<Vec<_>>().into(),
        firsts: firsts.into(),
        counts: counts.into(),
        vars: vars.into(),
        coefs: coefs.into(),
        starts: starts.into(),
        ..Case::default()
    }
    .with_room()
}

impl Case {
    /// The case with buffers for a build that are just as long as its counts ask, and full bounds unless it has some.
    #[must_use]
    pub fn with_room(self) -> Case {
        let bounded = if self.lows.is_empty() { self.with_full_bounds() } else { self };
        let Case { n, m, e, .. } = bounded;
        Case {
            numbers: vec![0; n].into(),
            order: vec![0; m].into(),
            stored: vec![0; n].into(),
            reader_starts: vec![0; n + 1].into(),
            reader_places: vec![0; e].into(),
            reasons: vec![0; n].into(),
            log_sizes: vec![0; LOG_SIZES].into(),
            ..bounded
        }
    }
}

/// Fills the record and the buffers that a build fills with what means nothing.
pub(crate) fn junk(random: &mut Random, case: &mut Case) {
    case.numbers = Guarded::junk(random, case.n);
    case.order = Guarded::junk(random, case.m);
    case.stored = Guarded::junk(random, case.n);
    case.reader_starts = Guarded::junk(random, case.n + 1);
    case.reader_places = Guarded::junk(random, case.e);
    case.log_sizes = Guarded::junk(random, LOG_SIZES);
    case.session.kept = random.pick(&[0, 1, u32::MAX - 1, u32::MAX]);
    case.session.evaluations = random.bits() as u32;
    case.session.blanks = random.pick(&[0, 1, case.n as u32, u32::MAX]);
    case.reasons = Guarded::junk(&mut random.aside(), case.n);
}

/// A build of a chain: each row of this kind reads the variable before its own `inputs` times, an ELEMENT its index at 0.
///
/// With 4,095 rows and 4 inputs it is as deep and as long as a model can be.
#[must_use]
pub fn chain(kind: u16, rows: u16, inputs: usize, start: i32) -> Case {
    let row = |above: u16| {
        let mut row = Row::plain(kind, above + 1, &vec![above; inputs]);
        if kind == ELEMENT {
            row.entries[0].0 = 0;
        }
        row
    };
    let mut starts = vec![0; usize::from(rows) + 1];
    starts[0] = start;
    of_rows(starts, &(0..rows).map(row).collect::<Vec<_>>())
}
