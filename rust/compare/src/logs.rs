//! Logs: rows for one, random ones that hold moves as they may, and where their pairs stand.

use lent::{LOG_PLACES, LOG_SIZES};
use second::{MOST_LOGGED, MOST_PAIRS};

use crate::{Case, Guarded, Random, value, within};

impl Case {
    /// The case with rows for a log, empty and just as long as they must be, unless it has some.
    #[must_use]
    pub fn with_log(mut self) -> Case {
        if self.log_vars.is_empty() {
            self.log_sizes.edit(|sizes| sizes.resize(sizes.len().max(LOG_SIZES), 0));
            self.log_vars = vec![0; LOG_PLACES].into();
            self.log_values = vec![0; LOG_PLACES].into();
        }
        self
    }

    /// The case with these moves in its log, as if they had been kept: the variables of each with the values before it.
    ///
    /// # Panics
    /// If they are more than a log holds.
    #[must_use]
    pub fn with_moves(self, moves: &[Vec<(u16, i32)>]) -> Case {
        let mut case = self.with_log();
        case.log_sizes[0] = moves.len() as u16;
        for (place, pairs) in moves.iter().enumerate() {
            case.log_sizes[place + 1] = pairs.len() as u16;
            for (at, &(variable, value)) in (MOST_PAIRS * place..).zip(pairs) {
                (case.log_vars[at], case.log_values[at]) = (variable, value);
            }
        }
        case
    }

    /// How many moves its log holds; 0 if it has none.
    #[must_use]
    pub fn logged(&self) -> usize {
        self.log_sizes.first().map_or(0, |&moves| usize::from(moves).min(MOST_LOGGED))
    }

    /// The places of the pairs that its log holds, as far as there are such places.
    pub(crate) fn logged_places(&self) -> Vec<usize> {
        let sizes = self.log_sizes.iter().skip(1).take(self.logged());
        let stretch = |(place, &size): (usize, &u16)| {
            let first = MOST_PAIRS * place;
            first..first + usize::from(size).min(MOST_PAIRS)
        };
        let rows = self.log_vars.len().min(self.log_values.len());
        sizes.enumerate().flat_map(stretch).filter(|&place| place < rows).collect()
    }
}

/// Gives a case a log of random moves, as many as its record has kept at the most, and what means nothing elsewhere.
pub fn draw_log(random: &mut Random, case: &mut Case) {
    case.log_sizes = Guarded::junk(random, LOG_SIZES);
    case.log_vars = Guarded::junk(random, LOG_PLACES);
    case.log_values = Guarded::junk(random, LOG_PLACES);
    let moves = match random.below(8) {
        0 => 0,
        1 | 2 => MOST_LOGGED,
        3 => MOST_LOGGED - 1,
        4 => random.below(MOST_LOGGED + 1),
        _ => 1 + random.below(4),
    };
    let search: Vec<u16> = (0..case.n as u16).filter(|&variable| is_search(case, variable)).collect();
    let moves = moves.min(case.session.kept as usize);
    let moves: Vec<_> = (0..moves).map(|_| draw_pairs(random, case, &search)).collect();
    *case = std::mem::take(case).with_moves(&moves);
}

/// Whether a variable of a model that was built is a search variable.
pub(crate) fn is_search(case: &Case, variable: u16) -> bool {
    case.numbers.get(usize::from(variable)) == Some(&0)
}

/// A random move in a log: search variables, each once, with values that their bounds allow.
fn draw_pairs(random: &mut Random, case: &Case, search: &[u16]) -> Vec<(u16, i32)> {
    let most = search.len().min(MOST_PAIRS);
    let wanted = if random.once_in(8) { most } else { random.below(4).min(most) };
    let first = random.below(search.len());
    let variables = search.iter().cycle().skip(first).take(wanted);
    let mut draw = |variable: u16| {
        let value = value(random);
        within(random, case, variable.into(), value)
    };
    variables.map(|&variable| (variable, draw(variable))).collect()
}
