//! Bounds on what may be moved: full ones, random ones around the values that a model has, and numbers that they allow.

use second::{HIGHEST, LOWEST, MOST_VARIABLES};

use crate::{Case, Random};

impl Case {
    /// The case with full bounds of its variables, and no more than there may be and one.
    #[must_use]
    pub fn with_full_bounds(self) -> Case {
        let places = self.n.min(MOST_VARIABLES + 1);
        Case { lows: vec![LOWEST; places].into(), highs: vec![HIGHEST; places].into(), ..self }
    }

    /// The case with these bounds of a variable: the lowest and the highest.
    #[must_use]
    pub fn with_bounds(mut self, variable: usize, low: i32, high: i32) -> Case {
        (self.lows[variable], self.highs[variable]) = (low, high);
        self
    }

    /// The bounds of a variable, full ones if it has none.
    #[must_use]
    pub fn bounds(&self, variable: usize) -> (i32, i32) {
        let low = self.lows.get(variable).copied().unwrap_or(LOWEST);
        (low, self.highs.get(variable).copied().unwrap_or(HIGHEST))
    }

    /// The number that is next to a value among those that the bounds of a variable allow; they are in order.
    #[must_use]
    pub(crate) fn allowed(&self, variable: usize, value: i32) -> i32 {
        let (low, high) = self.bounds(variable);
        value.max(low).min(high)
    }
}

/// Gives the search variables of a build bounds that allow their start values, half the models full ones.
pub fn draw_bounds(random: &mut Random, case: &mut Case) {
    if random.once_in(2) {
        return;
    }
    let mut search = vec![true; case.n];
    case.makes.iter().for_each(|&made| search[usize::from(made)] = false);
    for variable in (0..case.n).filter(|&variable| search[variable]) {
        let start = case.starts[variable];
        let (below, above) = (apart(random), apart(random));
        let (low, high) = (start.saturating_sub(below).max(LOWEST), start.saturating_add(above));
        let (low, high) = random.pick(&[(low, high), (low, high), (LOWEST, high), (low, HIGHEST), (LOWEST, HIGHEST)]);
        case.lows.put(variable, low);
        case.highs.put(variable, high);
    }
}

/// How far a bound lies from a value.
fn apart(random: &mut Random) -> i32 {
    random.pick(&[0, 0, 1, 2, 3, 5, 600, 86_400, 1 << 30])
}

/// A number that the bounds of a variable allow: this one or the nearest to it, and now and then a bound.
pub fn within(random: &mut Random, case: &Case, variable: usize, value: i32) -> i32 {
    let (low, high) = case.bounds(variable);
    match random.below(16) {
        0 => low,
        1 => high,
        _ => case.allowed(variable, value),
    }
}

/// A number next to a bound of a variable, on one side of it or the other.
pub fn near_a_bound(random: &mut Random, case: &Case, variable: usize) -> i32 {
    let (low, high) = case.bounds(variable);
    random.pick(&[low, low.wrapping_sub(1), low.wrapping_add(1), high, high.wrapping_sub(1), high.wrapping_add(1)])
}

/// Gives a pair of a move a value beyond a bound of its variable, if there is such a pair and such a value.
pub fn move_outside(random: &mut Random, case: &mut Case) {
    let first = random.below(case.pairs);
    for pair in (first..case.pairs).chain(0..first) {
        let (low, high) = case.bounds(case.move_vars[pair].into());
        let beyond = [low.saturating_sub(1), low.saturating_sub(600), high.saturating_add(1), high.saturating_add(600)];
        let value = random.pick(&beyond).max(LOWEST);
        if !(low..=high).contains(&value) {
            case.move_values[pair] = value;
            return;
        }
    }
}

/// Makes a bound of some variable wrong, or only other than it was.
pub(crate) fn damage_bounds(random: &mut Random, case: &mut Case) {
    let variable = random.below(case.n);
    let (low, high) = case.bounds(variable);
    let near = near_a_bound(random, case, variable);
    let bound = random.pick(&[near, near, second::BLANK, LOWEST, HIGHEST, low, high, 0]);
    let row = if random.once_in(2) { &mut case.lows } else { &mut case.highs };
    row.put(variable, bound);
}
