//! Cases made wrong in one place, longer than needed, or one too short.

use lent::{LOG_PLACES, LOG_SIZES, NUMBERS};
use second::{BLANK, MOST_ASKED, MOST_ENTRIES, MOST_LOGGED, MOST_PAIRS, MOST_VARIABLES};

use crate::bounds::{damage_bounds, near_a_bound};
use crate::logs::is_search;
use crate::salvages::room_for;
use crate::{Call, Case, Element, Guarded, Random, value};

/// Makes one thing that the call is lent wrong, or only other than it was.
pub fn damage(random: &mut Random, case: &mut Case) {
    match case.call {
        Call::Build | Call::Trial | Call::Keep | Call::TakeBack if random.once_in(10) => damage_bounds(random, case),
        Call::Build if random.once_in(4) => damage_starts(random, case),
        Call::Keep | Call::TakeBack if random.once_in(2) => damage_log(random, case),
        Call::Trial | Call::Keep | Call::TakeBack if random.once_in(6) => damage_index(random, case),
        Call::Trial | Call::Keep | Call::TakeBack if random.once_in(2) => damage_change(random, case),
        Call::Read => damage_bytes(random, case),
        _ => damage_tables(random, case),
    }
}

/// A field of the tables or a count.
fn damage_tables(random: &mut Random, case: &mut Case) {
    let (row, entry) = (random.below(case.m), random.below(case.e));
    let variable = any_variable(random, case);
    let count = case.counts.get(row).copied().unwrap_or(0);
    let first = case.firsts.get(row).copied().unwrap_or(0);
    match random.below(11) {
        0 => case.kinds.put(row, random.pick(&[0, 1, 2, 3, 4, 5, 6, 7, 8, 9, 10, 65535])),
        1 => case.makes.put(row, variable),
        2 => case
            .params
            .put(row, random.pick(&[0, 1, -1, 1_000_000_000, -1_000_000_001, 1_000_000_001, BLANK, i32::MAX])),
        3 => case.firsts.put(row, random.pick(&[0, first.wrapping_add(1), first.wrapping_sub(1), 65535])),
        4 => case.counts.put(row, random.pick(&[0, count.wrapping_add(1), count.wrapping_sub(1), 256, 257, 65535])),
        5..=7 => case.vars.put(entry, variable),
        8 => case.coefs.put(entry, random.pick(&[0, 1, -1, 1000, 1001, -1000, -1001, i16::MIN])),
        9 => swap_rows(random, case),
        _ => damage_counts(random, case),
    }
}

/// Two rows exchange the variables that they make, and at times their kinds.
fn swap_rows(random: &mut Random, case: &mut Case) {
    let [a, b] = [0, 1].map(|_| random.below(case.m));
    if a.max(b) < case.m.min(case.makes.len()).min(case.kinds.len()) {
        case.makes.swap(a, b);
        if random.once_in(2) {
            case.kinds.swap(a, b);
        }
    }
}

/// A count: n, m, e, and in a trial or a keep also pairs and asked.
fn damage_counts(random: &mut Random, case: &mut Case) {
    let n = near(random, case.n, MOST_VARIABLES);
    match (random.below(5), case.call) {
        (0, _) => case.n = n,
        (1, _) => case.m = near(random, case.m, MOST_VARIABLES),
        (2, _) => case.e = near(random, case.e, MOST_ENTRIES),
        (3, Call::Trial | Call::Keep) => case.pairs = near(random, case.pairs, MOST_PAIRS),
        (4, Call::Trial) => case.asked = near(random, case.asked, MOST_ASKED),
        _ => case.n = n,
    }
}

/// A count next to this one, at its bound, past it, or far out.
fn near(random: &mut Random, count: usize, most: usize) -> usize {
    random.pick(&[
        0,
        count.wrapping_add(1),
        count.wrapping_sub(1),
        count.wrapping_add(2),
        most,
        most + 1,
        usize::MAX,
        1 << 62,
    ])
}

/// A variable of the model, or just outside it, or far out.
fn any_variable(random: &mut Random, case: &Case) -> u16 {
    let inside = random.below(case.n) as u16;
    let n = case.n as u16;
    random.pick(&[inside, inside, inside, inside, inside, n, n.wrapping_sub(1), 65535])
}

/// A start value that is blank or next to a bound, or a made variable's that is not 0.
fn damage_starts(random: &mut Random, case: &mut Case) {
    let variable = random.below(case.n);
    let near = near_a_bound(random, case, variable);
    case.starts.put(variable, random.pick(&[BLANK, near, near, 1, -1, 0, i32::MAX, -i32::MAX]));
}

/// A start of the index of readers, a place of it, or two places exchanged; at times beyond the last reader.
fn damage_index(random: &mut Random, case: &mut Case) {
    let (variable, place, other) = (random.below(case.n.saturating_add(1)), random.below(case.e), random.below(case.e));
    let start = case.reader_starts.get(variable).copied().unwrap_or(0);
    let row = case.reader_places.get(place).copied().unwrap_or(0);
    match random.below(5) {
        0 => case.reader_starts.put(variable, random.pick(&[start.wrapping_add(1), start.wrapping_sub(1), 0, 65535])),
        1 => case.reader_starts.iter_mut().for_each(|start| *start = start.wrapping_add(1)),
        2 => {
            let next = next_row(usize::from(row), case.m);
            case.reader_places.put(place, random.pick(&[next, row.wrapping_sub(1), case.m as u16, 65535]));
        }
        3 if place.max(other) < case.reader_places.len() => case.reader_places.swap(place, other),
        _ => list_again(case, place),
    }
}

/// Lists a row of the index a second time, where there is room.
fn list_again(case: &mut Case, place: usize) {
    let Some(&row) = case.reader_places.get(place) else { return };
    case.reader_places[place..].rotate_right(1);
    case.reader_places[place] = row;
    for start in case.reader_starts.iter_mut().filter(|start| usize::from(**start) > place) {
        *start = start.wrapping_add(1);
    }
}

/// The log's number of moves, the record's number kept, the pairs of a move, or one pair; at times where no move stands.
fn damage_log(random: &mut Random, case: &mut Case) {
    let moves = case.logged();
    let which = random.below(moves);
    let size = case.log_sizes.get(which + 1).copied().unwrap_or(0);
    let held = case.logged_places();
    let place = if held.is_empty() { random.below(LOG_PLACES) } else { held[random.below(held.len())] };
    let first = place - place % MOST_PAIRS;
    let any = any_variable(random, case);
    match random.below(11) {
        0 => case.log_sizes.put(0, random.pick(&[MOST_LOGGED as u16 + 1, 65535, moves as u16 + 1, 0])),
        1 => case.log_sizes.put(0, 0),
        2 => case.session.kept = random.pick(&[moves as u32, moves.saturating_sub(1) as u32, 0, u32::MAX]),
        3 => case.log_sizes.put(
            which + 1,
            random.pick(&[MOST_PAIRS as u16, MOST_PAIRS as u16 + 1, size.wrapping_add(1), size.wrapping_sub(1), 65535]),
        ),
        4 => {
            let made = (0..case.n as u16).find(|&variable| !is_search(case, variable));
            case.log_vars.put(place, made.unwrap_or(any));
        }
        5 => case.log_vars.put(place, random.pick(&[case.n as u16, 65535, any])),
        6 => {
            let earlier = case.log_vars.get(first).copied().unwrap_or(0);
            case.log_vars.put(place, earlier);
        }
        7 | 8 => case.log_values.put(place, BLANK),
        9 if random.once_in(2) => case.log_values.put(place, value(random)),
        9 => {
            let variable = case.log_vars.get(place).map_or(0, |&variable| usize::from(variable));
            case.log_values.put(place, near_a_bound(random, case, variable));
        }
        _ => {
            let beyond = MOST_PAIRS * which + usize::from(size);
            case.log_vars.put(beyond, random.pick(&[65535, any]));
            case.log_values.put(beyond, BLANK);
        }
    }
}

/// Numbers, order, stored values with or without their number of blanks, that number, the move, at times next to a bound, the
/// asked list or the route.
fn damage_change(random: &mut Random, case: &mut Case) {
    let (variable, row) = (random.below(case.n), random.below(case.m));
    let (pair, asked) = (random.below(case.pairs), random.below(case.asked));
    let any = any_variable(random, case);
    match random.below(16) {
        0 => {
            let number = case.numbers.get(variable).copied().unwrap_or(0);
            case.numbers.put(variable, random.pick(&[number.wrapping_add(1), number.wrapping_sub(1), 0, 65535]));
        }
        1 => case.order.put(row, random.pick(&[next_row(row, case.m), case.m as u16, 65535])),
        2 => {
            let other = random.below(case.m);
            if row.max(other) < case.order.len() {
                case.order.swap(row, other);
            }
        }
        3 => {
            let (value, near) = (value(random), near_a_bound(random, case, variable));
            let stored = random.pick(&[BLANK, BLANK, value, near]);
            case.stored.put(variable, stored);
            if !random.once_in(4) {
                case.count_blanks();
            }
        }
        4 => case.move_vars.put(pair, any),
        5 => {
            let earlier = case.move_vars.get(random.below(pair)).copied().unwrap_or(0);
            case.move_vars.put(pair, earlier);
        }
        6 => case.move_values.put(pair, BLANK),
        12 | 13 => {
            let variable = case.move_vars.get(pair).map_or(0, |&variable| usize::from(variable));
            case.move_values.put(pair, near_a_bound(random, case, variable));
        }
        7 | 14 | 15 => case.asked_vars.put(asked, any),
        8 => case.route = random.pick(&[0, 1, 2, 3, 4, u32::MAX, 1 << 16]),
        9 | 10 => {
            let blanks = case.blanks();
            let wrong = [blanks.wrapping_add(1), blanks.wrapping_sub(1), 0, case.n as u32, u32::MAX, blanks | 1 << 16];
            case.session.blanks = random.pick(&wrong);
        }
        _ => damage_counts(random, case),
    }
}

/// The row after this one, and the first after the last.
fn next_row(row: usize, m: usize) -> u16 {
    ((row + 1) % m.max(1)) as u16
}

/// A field of the header, a byte, or the length of the file.
fn damage_bytes(random: &mut Random, case: &mut Case) {
    let place = random.below(case.bytes.len());
    match random.below(6) {
        0 => {
            let bits = 1 << random.below(8);
            let byte = case.bytes.get(place).copied().unwrap_or(0);
            case.bytes.put(place, byte ^ bits);
        }
        1 | 2 => {
            let field = random.below(24);
            case.bytes.put(field, random.pick(&[0, 1, 16, 24, 64, 255]));
        }
        3 => case.bytes.edit(|bytes| bytes.truncate(place)),
        4 => case.bytes.edit(|bytes| bytes.push(0)),
        _ => case.bytes.edit(|bytes| bytes.truncate(bytes.len().saturating_sub(1))),
    }
}

/// A buffer whose length matters, whatever it holds.
trait Length {
    fn lengthen_by(&mut self, random: &mut Random, by: usize);
    fn cut(&mut self, length: usize);
    fn scribble(&mut self, random: &mut Random);
}

impl<T: Element> Length for Guarded<T> {
    fn lengthen_by(&mut self, random: &mut Random, by: usize) {
        self.lengthen(random, by);
    }

    fn cut(&mut self, length: usize) {
        self.edit(|held| held.truncate(length));
    }

    fn scribble(&mut self, random: &mut Random) {
        let place = random.below(self.len());
        self.put(place, T::of_bits(random.bits()));
    }
}

/// How long a file of these counts is in the other version, 0 without counts.
fn moved_length(bytes: &[u8], up: bool) -> usize {
    let Some(&[n0, n1, m0, m1, e0, e1]) = bytes.get(2..8) else { return 0 };
    let [n, m, e] = [[n0, n1], [m0, m1], [e0, e1]].map(|count| usize::from(u16::from_le_bytes(count)));
    let (head, bound) = if up { (28, 8) } else { (24, 0) };
    head + (4 + bound) * n + 12 * m + 4 * e
}

/// The buffers that the call is lent, each with the length that the counts, or what is saved, ask of it.
fn buffers(case: &mut Case) -> Vec<(&mut dyn Length, usize)> {
    if case.call == Call::Salvage {
        let (file, list) = room_for(&case.bytes);
        return vec![(&mut case.file, file), (&mut case.list, list)];
    }
    if matches!(case.call, Call::ToVersion2 | Call::ToVersion1) {
        let length = moved_length(&case.bytes, case.call == Call::ToVersion2);
        return vec![(&mut case.file, length)];
    }
    if case.call == Call::Merge {
        let rows = [&mut case.first_by_number, &mut case.second_by_number, &mut case.by_number];
        return rows.into_iter().map(|row| (row as &mut dyn Length, NUMBERS)).collect();
    }
    if case.call == Call::Departures {
        let (windows, list) = (case.windows, crate::boards::length_of(case));
        return vec![
            (&mut case.starts, windows),
            (&mut case.ends, windows),
            (&mut case.headways, windows),
            (&mut case.board, list),
        ];
    }
    if case.call == Call::Frequencies {
        let windows = crate::frequencies::windows_in(&case.bytes);
        return vec![
            (&mut case.name_places, windows),
            (&mut case.name_lengths, windows),
            (&mut case.name_doubled, windows),
            (&mut case.starts, windows),
            (&mut case.ends, windows),
            (&mut case.headways, windows),
            (&mut case.exacts, windows),
            (&mut case.lines, windows),
        ];
    }
    if case.call == Call::WriteFrequencies {
        let (windows, length) = (case.windows, crate::frequencies::length_of(case));
        return vec![
            (&mut case.name_places, windows),
            (&mut case.name_lengths, windows),
            (&mut case.name_doubled, windows),
            (&mut case.starts, windows),
            (&mut case.ends, windows),
            (&mut case.headways, windows),
            (&mut case.exacts, windows),
            (&mut case.file, length),
        ];
    }
    if case.call == Call::InputsOfRow {
        let (row, e) = (case.row.saturating_add(1), case.e);
        return vec![(&mut case.firsts, row), (&mut case.counts, row), (&mut case.vars, e)];
    }
    let Case { n, m, e, pairs, asked, .. } = *case;
    let total = n.saturating_mul(4).saturating_add(m.saturating_mul(12)).saturating_add(e.saturating_mul(4));
    let mut lent: Vec<(&mut dyn Length, usize)> = vec![
        (&mut case.kinds, m),
        (&mut case.makes, m),
        (&mut case.params, m),
        (&mut case.firsts, m),
        (&mut case.counts, m),
        (&mut case.vars, e),
        (&mut case.coefs, e),
    ];
    match case.call {
        Call::Read | Call::ReadBounded | Call::Build => lent.push((&mut case.starts, n)),
        Call::WriteBounded => {
            lent.push((&mut case.starts, n));
            lent.push((&mut case.bytes, total.saturating_add(n.saturating_mul(8)).saturating_add(28)));
        }
        Call::Write => {
            lent.push((&mut case.starts, n));
            lent.push((&mut case.bytes, total.saturating_add(24)));
        }
        Call::Trial | Call::Keep => {
            lent.push((&mut case.move_vars, pairs));
            lent.push((&mut case.move_values, pairs));
        }
        Call::Figures => {
            let pairs = case.move_pairs.iter().take(case.moves).map(|&pairs| usize::from(pairs)).sum();
            lent.push((&mut case.move_pairs, case.moves));
            lent.push((&mut case.move_vars, pairs));
            lent.push((&mut case.move_values, pairs));
            lent.push((&mut case.by_number, NUMBERS));
        }
        Call::Trials => {
            let pairs = case.move_pairs.iter().take(case.moves).map(|&pairs| usize::from(pairs)).sum();
            lent.push((&mut case.move_pairs, case.moves));
            lent.push((&mut case.move_vars, pairs));
            lent.push((&mut case.move_values, pairs));
            lent.push((&mut case.move_numbers, case.moves));
            lent.push((&mut case.move_places, case.moves));
            lent.push((&mut case.move_evaluations, case.moves));
        }
        _ => {}
    }
    if case.call == Call::Trial {
        lent.push((&mut case.trial, n));
    }
    if matches!(case.call, Call::Trial | Call::Trials) {
        let all = if case.call == Call::Trial { asked } else { asked.saturating_mul(case.moves) };
        lent.push((&mut case.asked_vars, asked));
        lent.push((&mut case.results, all));
        lent.push((&mut case.why, all));
    }
    if matches!(case.call, Call::Trial | Call::Keep | Call::TakeBack) {
        lent.push((&mut case.flags, n));
    }
    if matches!(case.call, Call::Build | Call::Keep | Call::TakeBack) {
        lent.push((&mut case.log_sizes, LOG_SIZES));
    }
    if matches!(case.call, Call::Keep | Call::TakeBack) {
        lent.push((&mut case.log_vars, LOG_PLACES));
        lent.push((&mut case.log_values, LOG_PLACES));
    }
    if !matches!(case.call, Call::Read | Call::Write) {
        lent.push((&mut case.lows, n));
        lent.push((&mut case.highs, n));
    }
    if matches!(case.call, Call::Build | Call::Trial | Call::Keep | Call::TakeBack | Call::Figures | Call::Trials) {
        lent.push((&mut case.numbers, n));
        lent.push((&mut case.order, m));
        lent.push((&mut case.stored, n));
        lent.push((&mut case.reader_starts, n.saturating_add(1)));
        lent.push((&mut case.reader_places, e));
    }
    if matches!(case.call, Call::Build | Call::Trial | Call::Keep | Call::TakeBack | Call::Trials) {
        lent.push((&mut case.reasons, n));
    }
    lent
}

/// Makes some of the lent buffers longer than needed.
pub fn lengthen(random: &mut Random, case: &mut Case) {
    for (buffer, _) in buffers(case) {
        if random.once_in(2) {
            let by = 1 + random.below(3);
            buffer.lengthen_by(random, by);
        }
    }
}

/// Makes several things wrong at once, and writes any bits at all into some of the lent buffers.
pub fn scramble(random: &mut Random, case: &mut Case) {
    for _ in 0..random.below(4) {
        damage(random, case);
    }
    for (buffer, _) in buffers(case) {
        if random.once_in(6) {
            buffer.scribble(random);
        }
    }
}

/// The case once for each lent buffer, that buffer one shorter than the counts ask.
#[must_use]
pub fn one_short(case: &Case) -> Vec<Case> {
    let lent = buffers(&mut case.clone()).len();
    let short = |which: usize| {
        let mut case = case.clone();
        let (buffer, asked) = buffers(&mut case).swap_remove(which);
        buffer.cut(asked.saturating_sub(1));
        case
    };
    (0..lent).map(short).collect()
}

/// Makes one of the lent buffers one shorter than the counts ask, if they ask anything of it.
pub fn shorten(random: &mut Random, case: &mut Case) {
    let mut lent = buffers(case);
    let chosen = random.below(lent.len());
    if let Some((buffer, asked)) = lent.get_mut(chosen) {
        buffer.cut(asked.saturating_sub(1));
    }
}
