//! The departure board, as tests of any engine: both sides of the edge of each of its five refusals, and random boards.

use lent::{MOST_DEPARTURES, MOST_WINDOWS};
use second::{BLANK, HIGHEST, LOWEST};

use crate::runs::{gives, with};
use crate::{
    Call, Case, Difference, Engine, Guarded, Random, Second, Side, Test, agreed, lengthen, one_short, seed, shorten,
    shrink,
};

/// How many boards are drawn at random.
const BOARDS_DRAWN: usize = 20_000;

/// The start, the end and the headway of a window.
type Window = (i32, i32, i32);

/// The departures of a window, as many as a row is given room for and a few more.
fn times(&(start, end, headway): &Window) -> impl Iterator<Item = i32> {
    let step = usize::try_from(headway).unwrap_or(0).max(1);
    (start..end).step_by(step).take(MOST_DEPARTURES + 8)
}

/// How long the list of a case's windows is, as far as they have numbers.
pub(crate) fn length_of(case: &Case) -> usize {
    let windows = case.starts.iter().zip(case.ends.iter()).zip(case.headways.iter()).take(case.windows);
    windows
        .map(|((&start, &end), &headway)| times(&(start, end, headway)).count())
        .sum::<usize>()
        .min(4 * MOST_DEPARTURES)
}

/// The board of these windows, with a row that is just as long as the list.
#[must_use]
pub fn board(windows: &[Window]) -> Case {
    let row = |number: fn(&Window) -> i32| windows.iter().map(number).collect::<Vec<i32>>().into();
    let mut case = Case {
        call: Call::Departures,
        windows: windows.len(),
        starts: row(|window| window.0),
        ends: row(|window| window.1),
        headways: row(|window| window.2),
        ..Case::default()
    };
    case.board = vec![0x0EEE; length_of(&case)].into();
    case
}

/// Asserts the list of a board that is accepted; nothing else changes.
fn lists(engine: &dyn Engine, windows: &[Window], list: &[i32]) {
    let case = board(windows);
    let Side { answer, left } = Side::of(engine, &case);
    assert_eq!((answer.number, answer.place, answer.length as usize), (0, 0, list.len()), "{windows:?}");
    assert_eq!(left.board[..], *list, "{windows:?}");
    assert_eq!(left, Case { board: left.board.clone(), ..case }, "nothing but the row changes");
}

/// A morning every twenty minutes and then every ten.
fn a_morning(engine: &dyn Engine) {
    let windows = [(25200, 28800, 600), (21600, 25200, 1200)];
    let list = [21600, 22800, 24000, 25200, 25800, 26400, 27000, 27600, 28200];
    lists(engine, &windows, &list);
    lists(engine, &[windows[1], windows[0]], &list);
    lists(engine, &[], &[]);
    lists(engine, &[(5, 5, 1), (9, 2, 7)], &[]);
    lists(engine, &[(0, 1, 1)], &[0]);
    lists(engine, &[(-7, 3, 5)], &[-7, -2]);
    let longer = with(&board(&windows), |case| case.board.edit(|row| row.extend([7; 5])));
    assert_eq!(Side::of(engine, &longer).left.board[9..], [7; 5], "beyond the list");
}

fn refusal_1(engine: &dyn Engine) {
    let windows: Vec<Window> = (0..65).map(|hour| (hour, hour + 1, 1)).collect();
    gives(engine, "64 windows", &board(&windows[..MOST_WINDOWS]), 0, 0);
    gives(engine, "65 windows", &board(&windows), 1, 0);
    for count in [65, usize::MAX, 1 << 62] {
        gives(engine, "windows far out", &with(&board(&windows[..64]), |case| case.windows = count), 1, 0);
    }
    gives(engine, "one window less", &with(&board(&windows[..64]), |case| case.windows = 63), 0, 0);
    let blank = board(&[(BLANK, BLANK, 0); 3]);
    for short in &one_short(&board(&windows[..3]))[..3] {
        gives(engine, "a row of numbers one short", short, 1, 0);
    }
    for short in &one_short(&blank)[..3] {
        gives(engine, "a row one short, and all numbers wrong", short, 1, 0);
    }
}

fn refusal_2(engine: &dyn Engine) {
    let good = [(0, 10, 5), (20, 30, 5), (40, 50, 5)];
    for place in 0..3 {
        for bad in [(BLANK, 10, 5), (0, BLANK, 5), (0, 10, BLANK), (0, 10, 0), (0, 10, -1), (10, 0, 0)] {
            let mut windows = good;
            windows[place..].fill(bad);
            gives(engine, &format!("{bad:?}"), &board(&windows), 2, place as u32);
        }
        let mut windows = good;
        windows[place] = (windows[place].0, windows[place].1, 1);
        gives(engine, "a headway of 1", &board(&windows), 0, 0);
    }
    gives(engine, "before an overlap", &board(&[(0, 10, 5), (0, 10, 5), (0, 10, 0)]), 2, 2);
    gives(engine, "no number of a window is blank", &board(&[(LOWEST, LOWEST, HIGHEST)]), 0, 0);
}

fn refusal_3(engine: &dyn Engine) {
    for (one, other, number) in [
        ((0, 10, 3), (10, 20, 3), 0),
        ((0, 11, 3), (10, 20, 3), 3),
        ((10, 20, 3), (0, 10, 3), 0),
        ((10, 20, 3), (0, 11, 3), 3),
        ((0, 20, 3), (5, 6, 3), 3),
        ((5, 6, 3), (5, 6, 3), 3),
        ((5, 5, 3), (5, 6, 3), 0),
        ((0, 20, 3), (5, 5, 3), 0),
        ((0, 20, 3), (9, 2, 3), 0),
        ((9, 2, 3), (9, 2, 3), 0),
        ((LOWEST, HIGHEST, HIGHEST), (0, 1, 1), 3),
    ] {
        gives(engine, &format!("{one:?} {other:?}"), &board(&[one, other]), number, 0);
    }
    gives(engine, "the second and the third", &board(&[(0, 10, 1), (10, 30, 1), (29, 40, 1)]), 3, 1);
    gives(engine, "the first and the last", &board(&[(0, 10, 1), (10, 30, 1), (9, 10, 1)]), 3, 0);
    gives(engine, "before too many", &board(&[(0, 9000, 1), (8999, 9001, 1)]), 3, 0);
}

fn refusal_4(engine: &dyn Engine) {
    for (windows, number) in [
        (vec![(0, 2000, 1)], 0),
        (vec![(0, 2001, 1)], 4),
        (vec![(0, 1000, 1), (5000, 6000, 1)], 0),
        (vec![(0, 1000, 1), (5000, 6001, 1)], 4),
        (vec![(0, 1999, 1), (5000, 5001, 77)], 0),
        (vec![(0, 2000, 1), (5000, 5001, 77)], 4),
        (vec![(LOWEST, HIGHEST, 1)], 4),
        (vec![(LOWEST, HIGHEST, 2)], 4),
        (vec![(LOWEST, HIGHEST, HIGHEST)], 0),
        (vec![(LOWEST, HIGHEST, 2_147_483)], 4),
        (vec![(LOWEST, HIGHEST, 2_147_484)], 0),
        (vec![(HIGHEST - 1, HIGHEST, 1), (LOWEST, LOWEST + 1, HIGHEST)], 0),
    ] {
        gives(engine, &format!("{windows:?}"), &board(&windows), number, 0);
        let no_row = with(&board(&windows), |case| case.board = Guarded::default());
        gives(engine, "without a row", &no_row, if number == 0 { 5 } else { 4 }, 0);
    }
    let many: Vec<Window> = (0..64).map(|window| (100 * window, 100 * window + 32, 1)).collect();
    gives(engine, "2,048 of 64 windows", &board(&many), 4, 0);
    gives(engine, "1,984 of 62", &board(&many[..62]), 0, 0);
}

fn refusal_5(engine: &dyn Engine) {
    for windows in [vec![(0, 2000, 1)], vec![(3, 4, 1)], vec![(25200, 28800, 600), (21600, 25200, 1200)]] {
        let exact = board(&windows);
        gives(engine, "just as long", &exact, 0, 0);
        for length in [0, exact.board.len() - 1] {
            let short = with(&exact, |case| case.board.edit(|row| row.truncate(length)));
            gives(engine, "a row too short", &short, 5, 0);
        }
    }
    gives(engine, "no departures need no row", &board(&[(4, 3, 1)]), 0, 0);
}

/// All tests by name.
pub const BOARDS: &[Test] = &[
    ("a morning", a_morning),
    ("board: 1", refusal_1),
    ("board: 2", refusal_2),
    ("board: 3", refusal_3),
    ("board: 4", refusal_4),
    ("board: 5", refusal_5),
];

/// Random boards, whole and with something wrong.
///
/// # Panics
/// If the engine differs from the second implementation, or if an answer hardly ever came back.
pub fn random_boards(engine: &dyn Engine) {
    let seed = seed();
    println!("seed {seed}");
    let mut random = Random::new(seed);
    let mut by_number = [0; 6];
    for _ in 0..BOARDS_DRAWN {
        let case = draw(&mut random);
        let differs = |found: Box<Difference>| panic!("seed {seed}\n{}", shrink(engine, &Second, found));
        let answer = agreed(engine, &Second, &case).unwrap_or_else(differs).answer;
        by_number[answer.number as usize] += 1;
    }
    println!("{by_number:?}");
    assert!(by_number.iter().all(|&boards| boards > BOARDS_DRAWN / 100), "every answer comes back: {by_number:?}");
}

/// Windows one behind the other in random order, some empty, at times with one other number, or a row of another
/// length.
fn draw(random: &mut Random) -> Case {
    let few = random.once_in(2);
    let mut at = random.pick(&[0, 25200, -5000, LOWEST, HIGHEST - 4000]);
    let mut windows: Vec<Window> = Vec::new();
    for _ in 0..random.below(if few { 5 } else { 66 }) {
        let headway = random.pick(&[1, 2, 7, 60, 600, HIGHEST]);
        let departures = random.below(if few { 900 } else { 40 }) as i32;
        let length = departures.saturating_mul(headway.min(600)).saturating_sub(random.below(3) as i32);
        let end = at.saturating_add(length);
        windows.push((at, end, headway));
        at = at.max(end).saturating_add(random.pick(&[0, 0, 1, 300]));
    }
    random.shuffle(&mut windows);
    if random.once_in(3) && !windows.is_empty() {
        let place = random.below(windows.len());
        let (start, end, headway) = windows[place];
        let other = random.pick(&[BLANK, 0, -1, start, end, end.saturating_add(1), start.saturating_sub(1), HIGHEST]);
        windows[place] = match random.below(4) {
            0 => (other, end, headway),
            1 => (start, other, headway),
            2 => (start, end, other),
            _ => (start, end.saturating_add(9000), headway),
        };
    }
    let mut case = board(&windows);
    match random.below(8) {
        0 | 1 => shorten(random, &mut case),
        2 => case.windows = random.pick(&[case.windows + 1, case.windows.saturating_sub(1), 65, usize::MAX]),
        3 | 4 => lengthen(random, &mut case),
        _ => {}
    }
    case
}
