//! Makes a case on which two engines differ smaller, as long as they still differ on it.

use std::time::{Duration, Instant};

use lent::{LOG_PLACES, LOG_SIZES, Session};
use second::{BLANK, HIGHEST, LOWEST, MOST_PAIRS};

use crate::{Call, Case, Difference, Element, Engine, Guarded, Second, compare};

/// How long a smaller case is looked for.
const PATIENCE: Duration = Duration::from_secs(10);

/// A smaller case on which the two still differ.
#[must_use]
pub fn shrink(one: &dyn Engine, other: &dyn Engine, found: Box<Difference>) -> Box<Difference> {
    let mut search = Search { one, other, best: found, until: Instant::now() + PATIENCE };
    while search.round() {}
    search.best
}

struct Search<'a> {
    one: &'a dyn Engine,
    other: &'a dyn Engine,
    best: Box<Difference>,
    until: Instant,
}

impl Search<'_> {
    /// One round over all ways to make the case smaller: whether one of them did.
    fn round(&mut self) -> bool {
        let case = &self.best.case;
        let (n, m, e, pairs, asked, logged) = (case.n, case.m, case.e, case.pairs, case.asked, case.logged());
        let (moves, windows) = (case.moves, case.windows);
        let damaged = if matches!(case.call, Call::Salvage | Call::Frequencies) { case.bytes.len() } else { 0 };
        let written = if case.call == Call::Frequencies { damaged } else { 0 };
        let mut smaller = self.try_case(cut);
        smaller |= self.without(damaged, |case, place| shorter(&mut case.bytes, place));
        smaller |= self.without(damaged, |case, place| plain(&mut case.bytes, place, 0));
        smaller |= self.without(written, |case, place| taken(&mut case.bytes, place));
        smaller |= self.try_case(plain_beyond_log);
        smaller |= self.without(logged, remove_logged);
        smaller |= self.without(m, remove_row);
        smaller |= self.without(pairs, remove_pair);
        smaller |= self.without(moves, remove_move);
        smaller |= self.without(windows, remove_window);
        smaller |= self.without(asked, remove_asked);
        smaller |= self.without(e, remove_entry);
        smaller |= self.without(n, remove_variable);
        smaller |= self.without(n, plain_bounds);
        smaller |= self.without(n, plain_values);
        smaller |= self.without(pairs, |case, pair| plain(&mut case.move_values, pair, 0));
        smaller |= self.without(asked, |case, place| plain(&mut case.why, place, 0));
        smaller |= self.without(m, |case, row| plain(&mut case.params, row, 0));
        smaller |= self.without(e, |case, entry| plain(&mut case.coefs, entry, 1));
        smaller | self.try_case(plain_record)
    }

    /// Takes away stretches of places, the longest first and from the last to the first.
    fn without(&mut self, places: usize, remove: impl Fn(&mut Case, usize) -> bool) -> bool {
        let mut smaller = false;
        let mut stretch = places.min(4096);
        while stretch > 0 {
            let mut end = places.min(16384);
            while end > 0 {
                let start = end.saturating_sub(stretch);
                smaller |= self.try_case(|case| (start..end).rev().fold(false, |any, place| remove(case, place) | any));
                end = start;
            }
            stretch /= 2;
        }
        smaller
    }

    /// Takes a changed case if the two still differ on it, as it is or with its numbers, order and index put right. A number of
    /// blanks that was right is so in the changed case.
    fn try_case(&mut self, change: impl FnOnce(&mut Case) -> bool) -> bool {
        let mut case = self.best.case.clone();
        let counted = case.session.blanks == case.blanks();
        if Instant::now() > self.until || !change(&mut case) {
            return false;
        }
        if counted {
            case.count_blanks();
        }
        let Err(found) = compare(self.one, self.other, &case).and_then(|_| {
            number(&mut case);
            compare(self.one, self.other, &case)
        }) else {
            return false;
        };
        self.best = found;
        true
    }
}

/// Cuts what lies beyond the counts.
fn cut(case: &mut Case) -> bool {
    let Case { n, m, e, pairs, asked, .. } = *case;
    let rows = [&mut case.kinds, &mut case.makes, &mut case.firsts, &mut case.counts, &mut case.order];
    let mut any = rows.into_iter().fold(false, |any, row| shorter(row, m) | any);
    any |= shorter(&mut case.params, m) | shorter(&mut case.vars, e) | shorter(&mut case.coefs, e);
    any |= shorter(&mut case.numbers, n) | shorter(&mut case.flags, n) | shorter(&mut case.reasons, n);
    any |= shorter(&mut case.lows, n) | shorter(&mut case.highs, n);
    any |= shorter(&mut case.starts, n) | shorter(&mut case.stored, n) | shorter(&mut case.trial, n);
    any |= shorter(&mut case.reader_starts, n.saturating_add(1)) | shorter(&mut case.reader_places, e);
    any |= shorter(&mut case.move_vars, pairs) | shorter(&mut case.move_values, pairs);
    any |= shorter(&mut case.log_sizes, LOG_SIZES);
    any |= shorter(&mut case.log_vars, LOG_PLACES) | shorter(&mut case.log_values, LOG_PLACES);
    any | shorter(&mut case.asked_vars, asked) | shorter(&mut case.results, asked) | shorter(&mut case.why, asked)
}

fn shorter<T: Element>(row: &mut Guarded<T>, length: usize) -> bool {
    let longer = row.len() > length;
    if longer {
        row.edit(|held| held.truncate(length));
    }
    longer
}

/// Takes the element at a place away: whether there is one.
fn taken<T: Element>(row: &mut Guarded<T>, place: usize) -> bool {
    let there = place < row.len();
    remove(row, place);
    there
}

/// Takes the element at a place away, if there is one.
fn remove<T: Element>(row: &mut Guarded<T>, place: usize) {
    if place < row.len() {
        row.edit(|held| {
            held.remove(place);
        });
    }
}

/// Takes a row away with its part of the entries; what it made has a value then, as a search variable must.
fn remove_row(case: &mut Case, row: usize) -> bool {
    if row >= case.m || row >= case.counts.len() {
        return false;
    }
    for _ in 0..case.counts[row] {
        if !remove_entry_of(case, row) {
            break;
        }
    }
    let made = case.makes.get(row).map_or(0, |&made| usize::from(made));
    if case.stored.get(made) == Some(&BLANK) {
        case.stored.put(made, 0);
    }
    for table in [&mut case.kinds, &mut case.makes, &mut case.firsts, &mut case.counts] {
        remove(table, row);
    }
    remove(&mut case.params, row);
    case.order.edit(|order| {
        order.retain(|&placed| usize::from(placed) != row);
        order.iter_mut().filter(|placed| usize::from(**placed) > row).for_each(|placed| *placed -= 1);
    });
    case.m -= 1;
    true
}

/// Takes an entry away from the row that holds it.
fn remove_entry(case: &mut Case, entry: usize) -> bool {
    let holds = |row: &usize| {
        let first = usize::from(case.firsts[*row]);
        (first..first + usize::from(case.counts[*row])).contains(&entry)
    };
    let rows = case.m.min(case.firsts.len()).min(case.counts.len());
    let Some(row) = (0..rows).find(holds) else { return false };
    let (vars, coefs) = (&mut case.vars, &mut case.coefs);
    remove(vars, entry);
    remove(coefs, entry);
    lose_entry(case, row)
}

/// Takes the first entry of a row away.
fn remove_entry_of(case: &mut Case, row: usize) -> bool {
    let first = case.firsts.get(row).map_or(0, |&first| usize::from(first));
    remove(&mut case.vars, first);
    remove(&mut case.coefs, first);
    lose_entry(case, row)
}

/// Counts one entry less in a row.
fn lose_entry(case: &mut Case, row: usize) -> bool {
    if case.e == 0 || case.counts[row] == 0 {
        return false;
    }
    case.e -= 1;
    case.counts[row] -= 1;
    case.firsts.iter_mut().skip(row + 1).for_each(|first| *first = first.saturating_sub(1));
    true
}

fn remove_pair(case: &mut Case, pair: usize) -> bool {
    if pair >= case.pairs {
        return false;
    }
    remove(&mut case.move_vars, pair);
    remove(&mut case.move_values, pair);
    case.pairs -= 1;
    true
}

/// Takes a move of a batch away with its pairs.
fn remove_move(case: &mut Case, place: usize) -> bool {
    if place >= case.moves || place >= case.move_pairs.len() {
        return false;
    }
    let before: usize = case.move_pairs[..place].iter().map(|&pairs| usize::from(pairs)).sum();
    for _ in 0..case.move_pairs[place] {
        remove(&mut case.move_vars, before);
        remove(&mut case.move_values, before);
    }
    remove(&mut case.move_pairs, place);
    case.moves -= 1;
    true
}

/// Takes a window away, of a board or of a file that is written.
fn remove_window(case: &mut Case, place: usize) -> bool {
    if place >= case.windows {
        return false;
    }
    for row in [&mut case.starts, &mut case.ends, &mut case.headways] {
        remove(row, place);
    }
    if case.call == Call::WriteFrequencies {
        remove(&mut case.name_places, place);
        remove(&mut case.name_lengths, place);
        remove(&mut case.name_doubled, place);
        remove(&mut case.exacts, place);
    }
    case.windows -= 1;
    true
}

fn remove_asked(case: &mut Case, place: usize) -> bool {
    if place >= case.asked {
        return false;
    }
    remove(&mut case.asked_vars, place);
    remove(&mut case.results, place);
    remove(&mut case.why, place);
    case.asked -= 1;
    true
}

/// Takes a move out of the log; what stands behind it moves up.
fn remove_logged(case: &mut Case, place: usize) -> bool {
    let first = MOST_PAIRS * place;
    let whole = first + MOST_PAIRS <= case.log_vars.len().min(case.log_values.len());
    if place >= case.logged() || place + 1 >= case.log_sizes.len() || !whole {
        return false;
    }
    case.log_sizes[0] -= 1;
    case.log_sizes[place + 1..].rotate_left(1);
    case.log_vars[first..].rotate_left(MOST_PAIRS);
    case.log_values[first..].rotate_left(MOST_PAIRS);
    true
}

/// Puts 0 at every place of the log where no pair stands.
fn plain_beyond_log(case: &mut Case) -> bool {
    let held = case.logged_places();
    let moves = case.logged();
    let beyond = |place: &usize| held.binary_search(place).is_err();
    let places: Vec<usize> = (0..case.log_vars.len().max(case.log_values.len())).filter(beyond).collect();
    let mut any = places.iter().fold(false, |any, &place| plain(&mut case.log_vars, place, 0) | any);
    any |= places.iter().fold(false, |any, &place| plain(&mut case.log_values, place, 0) | any);
    (moves + 1..case.log_sizes.len()).fold(any, |any, place| plain(&mut case.log_sizes, place, 0) | any)
}

/// Takes away a variable that nothing names.
fn remove_variable(case: &mut Case, variable: usize) -> bool {
    let held = case.logged_places();
    let logged: Vec<&mut u16> = case
        .log_vars
        .iter_mut()
        .enumerate()
        .filter(|(place, _)| held.binary_search(place).is_ok())
        .map(|(_, variable)| variable)
        .collect();
    let rows = [&mut case.makes, &mut case.vars, &mut case.move_vars, &mut case.asked_vars];
    let mut named: Vec<&mut u16> = rows.into_iter().flat_map(|row| row.iter_mut()).chain(logged).collect();
    if variable >= case.n || named.iter().any(|named| usize::from(**named) == variable) {
        return false;
    }
    named.iter_mut().filter(|named| usize::from(***named) > variable).for_each(|named| **named -= 1);
    remove(&mut case.lows, variable);
    remove(&mut case.highs, variable);
    remove(&mut case.starts, variable);
    remove(&mut case.numbers, variable);
    remove(&mut case.stored, variable);
    remove(&mut case.reader_starts, variable);
    remove(&mut case.reasons, variable);
    remove(&mut case.trial, variable);
    remove(&mut case.flags, variable);
    case.n -= 1;
    true
}

/// Puts full bounds for a variable.
fn plain_bounds(case: &mut Case, variable: usize) -> bool {
    plain(&mut case.lows, variable, LOWEST) | plain(&mut case.highs, variable, HIGHEST)
}

/// Puts 0 for a variable's start value, stored value and reason, and what its buffers held.
fn plain_values(case: &mut Case, variable: usize) -> bool {
    plain(&mut case.stored, variable, 0)
        | plain(&mut case.starts, variable, 0)
        | plain(&mut case.trial, variable, 0)
        | plain(&mut case.flags, variable, 0)
        | plain(&mut case.reasons, variable, 0)
}

/// Puts 0 for the counters of the record, or as few moves kept as the log holds; the number of blanks stays, but for a build.
fn plain_record(case: &mut Case) -> bool {
    let blanks = if case.call == Call::Build { 0 } else { case.session.blanks };
    let plain = Session { kept: case.logged() as u32, evaluations: 0, blanks };
    std::mem::replace(&mut case.session, plain) != plain
}

/// Puts a plain element at a place where another stands.
fn plain<T: Element>(row: &mut Guarded<T>, place: usize, element: T) -> bool {
    let other = row.get(place).is_some_and(|&held| held != element);
    if other {
        row.put(place, element);
    }
    other
}

/// Puts the numbers, the order and the index of a model right, if it can be built.
fn number(case: &mut Case) {
    if let Some(Case { numbers, order, reader_starts, reader_places, .. }) = rebuilt(case) {
        *case = Case { numbers, order, reader_starts, reader_places, ..std::mem::take(case) };
    }
}

/// The model of a case built anew over full bounds and start values of 0, or else -1, if it can be: where -1 is the index
/// nothing is chosen.
pub(crate) fn rebuilt(case: &Case) -> Option<Case> {
    let mut made = vec![false; case.stored.len()];
    case.makes
        .iter()
        .take(case.m)
        .for_each(|&makes| made.iter_mut().skip(makes.into()).take(1).for_each(|made| *made = true));
    [0, -1].into_iter().find_map(|start| {
        let starts = made.iter().map(|&made| if made { 0 } else { start }).collect::<Vec<i32>>().into();
        let log_sizes = vec![0; LOG_SIZES].into();
        let mut model = Case { call: Call::Build, starts, log_sizes, ..case.clone() }.with_full_bounds();
        (Second.answer(&mut model).number == 0).then_some(model)
    })
}
