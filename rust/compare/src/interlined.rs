//! Random models with closed chains: trips that take their start from the end of another, chosen by ELEMENT.

use crate::models::junk;
use crate::{Case, Engine, Random, Row, Second, Sizes, draw_bounds, model, of_rows, value};

const LINEAR: u16 = 1;
const MIN: u16 = 2;
const MAX: u16 = 3;
const ELEMENT: u16 = 4;
const COUNT: u16 = 6;

/// How often a model that build does not accept is drawn anew.
const TRIES: usize = 30;

/// A build of a random model with closed chains that it mostly accepts; now and then one with a chain that is not
/// permitted, or whose start values lead round one.
pub fn interlined(random: &mut Random, sizes: Sizes) -> Case {
    let tries = if random.once_in(5) { 1 } else { TRIES };
    let mut drawn = draw(random, sizes);
    for _ in 1..tries {
        if has_closed_chain(&drawn) && Second.answer(&mut drawn.clone()).number == 0 {
            break;
        }
        drawn = draw(random, sizes);
    }
    drawn
}

/// Models with closed chains of every size up to the bounds, mostly small.
pub fn any_interlined(random: &mut Random) -> Case {
    let sizes = |variables, entries, inputs| Sizes { variables, entries, inputs };
    match random.below(200) {
        0 => interlined(random, sizes(4096, 16384, 16)),
        1..=10 => interlined(random, sizes(300, 1200, 64)),
        11..=60 => interlined(random, sizes(40, 160, 8)),
        _ => interlined(random, sizes(10, 40, 5)),
    }
}

fn draw(random: &mut Random, sizes: Sizes) -> Case {
    let mut case = if random.once_in(2) { trips(random, sizes) } else { redirected(random, sizes) };
    if random.once_in(12) {
        let (entry, variable) = (random.below(case.e), random.below(case.n));
        case.vars.put(entry, variable as u16);
    }
    case
}

/// A random model some of whose candidates are other variables, later ones and their own among them.
fn redirected(random: &mut Random, sizes: Sizes) -> Case {
    let mut case = model(random, sizes);
    let often = 1 + random.below(3);
    for row in (0..case.m).filter(|&row| case.kinds[row] == ELEMENT).collect::<Vec<_>>() {
        let first = usize::from(case.firsts[row]);
        for entry in first + 1..first + usize::from(case.counts[row]) {
            if random.once_in(often) {
                let made = case.makes[random.below(case.m)];
                case.vars.put(entry, made);
            }
        }
    }
    case
}

/// Trips, each with an index, a start that it chooses among ends, starts and depots, and an end made from the start.
fn trips(random: &mut Random, sizes: Sizes) -> Case {
    let most = (sizes.variables / 3).min(sizes.entries / (sizes.inputs + 4)).max(1);
    let trips = 1 + random.below(most);
    let depots = 1 + random.below(3);
    let mut variables: Vec<u16> = (0..(depots + 3 * trips) as u16).collect();
    random.shuffle(&mut variables);
    let (depots, of_trips) = variables.split_at(depots);
    let mut starts: Vec<i32> = variables.iter().map(|_| value(random)).collect();
    let mut rows = Vec::new();
    for trip in of_trips.chunks(3) {
        let &[index, start, end] = trip else { continue };
        starts[usize::from(index)] = random.between(-1, 3);
        let index = if random.once_in(4) { of_trips[3 * random.below(trips)] } else { index };
        let mut inputs = vec![index];
        for _ in 0..1 + random.below(sizes.inputs.saturating_sub(1).max(1)) {
            let other = 3 * random.below(trips);
            let depot = depots[random.below(depots.len())];
            inputs.push(random.pick(&[depot, depot, of_trips[other + 2], of_trips[other + 2], of_trips[other + 1]]));
        }
        rows.push(Row::plain(ELEMENT, start, &inputs));
        rows.push(end_of(random, end, start, depots[0]));
        if random.once_in(10) {
            rows.push(Row { kind: COUNT, makes: index, parameter: 1, entries: vec![(depots[0], 1)] });
        }
    }
    random.shuffle(&mut rows);
    let mut made = vec![false; starts.len()];
    rows.retain(|row| !std::mem::replace(&mut made[usize::from(row.makes)], true));
    rows.iter().for_each(|row| starts[usize::from(row.makes)] = 0);
    let mut case = of_rows(starts, &rows);
    draw_bounds(random, &mut case);
    junk(random, &mut case);
    case
}

/// The end of a trip: some time after its start, or not before or after a depot's time.
fn end_of(random: &mut Random, end: u16, start: u16, depot: u16) -> Row {
    match random.below(4) {
        0 => Row::plain(MAX, end, &[start, depot]),
        1 => Row::plain(MIN, end, &[start, start]),
        _ => Row { kind: LINEAR, makes: end, parameter: random.between(1, 9), entries: vec![(start, 1)] },
    }
}

/// Whether a model has a closed chain, permitted or not: whether some row is left when again and again all are taken away
/// that read nothing that a row makes which is left. Its tables are as they must be.
#[must_use]
pub fn has_closed_chain(case: &Case) -> bool {
    let mut maker = vec![None; case.n];
    case.makes.iter().take(case.m).enumerate().for_each(|(row, &made)| maker[usize::from(made)] = Some(row));
    let mut readers = vec![Vec::new(); case.m];
    let mut lacking = vec![0; case.m];
    for (row, lacking) in lacking.iter_mut().enumerate() {
        let first = usize::from(case.firsts[row]);
        for &input in &case.vars[first..first + usize::from(case.counts[row])] {
            if let Some(read) = maker[usize::from(input)] {
                readers[read].push(row);
                *lacking += 1;
            }
        }
    }
    let mut free: Vec<usize> = (0..case.m).filter(|&row| lacking[row] == 0).collect();
    let mut left = case.m;
    while let Some(row) = free.pop() {
        left -= 1;
        for &reader in &readers[row] {
            lacking[reader] -= 1;
            if lacking[reader] == 0 {
                free.push(reader);
            }
        }
    }
    left > 0
}
