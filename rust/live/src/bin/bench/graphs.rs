//! The graphs that are timed, each at three sizes: a day's sheet, a moved headway that touches five formulas, a depot, the
//! deepest chain, trips that are interlined in a ring, and the extreme graphs and the magic square of the paper on incremental evaluation, at sizes within the
//! bounds.

use compare::{Case, Row, chain, of_rows};

/// A graph to time: its build, a variable to ask, and two moves to make by turns.
pub struct Graph {
    pub name: &'static str,
    pub size: usize,
    pub build: Case,
    pub asked: u16,
    pub moves: [Vec<(u16, i32)>; 2],
}

/// All of them, from small to large.
pub fn graphs() -> Vec<Graph> {
    let mut graphs: Vec<Graph> = [56, 225, 900].map(day_sheet).into();
    graphs.extend([250, 1000, 4000].map(moved_headway));
    graphs.extend([64, 128, 256].map(depot));
    graphs.extend([255, 1023, 4095].map(deepest_chain));
    graphs.extend([85, 341, 1365].map(interlined_trips));
    graphs.extend([16, 64, 255].map(extreme_static));
    graphs.extend([16, 64, 126].map(extreme_dynamic));
    graphs.extend([16, 32, 59].map(magic_square));
    graphs
}

/// A day's sheet of windows: start, end and headway of each are search variables, and each has its departures. Every
/// third window has its last departure, every ten of these their latest; every fifteen windows have their crews, and
/// those of the day are summed. With 900 windows it has about 4,000 variables.
fn day_sheet(windows: u16) -> Graph {
    let mut starts = Vec::new();
    for window in 0..i32::from(windows) {
        starts.extend([18_000 + 60 * (window % 600), 36_000 + 60 * (window % 500), 300 + 60 * (window % 20)]);
    }
    let mut sheet = Sheet { starts, rows: Vec::new() };
    let inputs = |window: u16| [3 * window, 3 * window + 1, 3 * window + 2];
    let departures: Vec<u16> = (0..windows).map(|window| sheet.make(8, &inputs(window))).collect();
    let lasts: Vec<u16> = (0..windows).step_by(3).map(|window| sheet.make(9, &inputs(window))).collect();
    let latest: Vec<u16> = lasts.chunks(10).map(|lasts| sheet.make(3, lasts)).collect();
    sheet.make(5, &latest);
    let crews: Vec<u16> = departures.chunks(15).map(|departures| sheet.make(1, departures)).collect();
    let asked = sheet.make(1, &crews);
    let build = of_rows(sheet.starts, &sheet.rows);
    Graph { name: "day's sheet", size: windows.into(), build, asked, moves: [vec![(5, 420)], vec![(5, 540)]] }
}

/// A moved headway that touches five formulas: windows of 32 starts, 32 ends and 32 headways, each with its departures, its
/// last departure, its crews, the time from its last departure to its end, and whether it has no departure. The first
/// headway is the first window's alone. With 4,000 formulas it has 4,096 variables.
fn moved_headway(formulas: u16) -> Graph {
    let times = |first: i32, step: i32| (0..32).map(move |place| first + step * place);
    let starts = times(18_000, 600).chain(times(50_000, 700)).chain(times(300, 60)).collect();
    let mut sheet = Sheet { starts, rows: Vec::new() };
    let mut crews = Vec::new();
    for window in 0..formulas / 5 {
        let headway = if window == 0 { 0 } else { 1 + window % 31 };
        let [start, end, headway] = [window % 32, 32 + window / 32, 64 + headway];
        let departures = sheet.make(8, &[start, end, headway]);
        let last = sheet.make(9, &[start, end, headway]);
        crews.push(sheet.term(2, 4, departures));
        sheet.make(7, &[end, last]);
        sheet.make(6, &[departures]);
    }
    let build = of_rows(sheet.starts, &sheet.rows);
    let moves = [420, 540].map(|seconds| vec![(64, seconds)]);
    Graph { name: "moved headway", size: formulas.into(), build, asked: crews[0], moves }
}

/// Trips in a ring: each starts at the depot, behind the trip before it or behind the one after it, as its index chooses, and
/// ends some time later. All but the first follow the one before, and a move sends the middle one to the depot. With 1,365
/// trips it has 4,096 variables, 2,730 of them in one group.
fn interlined_trips(trips: u16) -> Graph {
    let (start, end) = (|trip: u16| 1 + trips + trip, |trip: u16| 1 + 2 * trips + trip);
    let mut starts = vec![1; 1 + usize::from(trips)];
    (starts[0], starts[1]) = (18_000, 0);
    let mut sheet = Sheet { starts, rows: Vec::new() };
    for trip in 0..trips {
        let (before, after) = ((trip + trips - 1) % trips, (trip + 1) % trips);
        assert_eq!(sheet.make(4, &[1 + trip, 0, end(before), end(after)]), start(trip));
    }
    (0..trips).for_each(|trip| assert_eq!(sheet.term(60, 1, start(trip)), end(trip)));
    let build = of_rows(sheet.starts, &sheet.rows);
    let moves = [0, 1].map(|choice| vec![(1 + trips / 2, choice)]);
    Graph { name: "interlined trips", size: trips.into(), build, asked: end(trips - 1), moves }
}

/// A depot: in each of four shifts every bay has a vehicle, the bays whose vehicle another bay has too are counted, and
/// the counts are summed. A move gives one bay of every shift another vehicle, by turns one that stands elsewhere too.
fn depot(bays: u16) -> Graph {
    let shifts = [0, bays, 2 * bays, 3 * bays];
    let vehicles: Vec<i32> = (0..bays).map(|bay| i32::from(37 * bay % bays)).collect();
    let mut sheet = Sheet { starts: vehicles.repeat(shifts.len()), rows: Vec::new() };
    let clashes = shifts.map(|first| sheet.make(5, &(first..first + bays).collect::<Vec<_>>()));
    let asked = sheet.make(1, &clashes);
    let build = of_rows(sheet.starts, &sheet.rows);
    let moves = [5, 900].map(|vehicle| shifts.map(|first| (first + 3, vehicle)).to_vec());
    Graph { name: "depot", size: bays.into(), build, asked, moves }
}

/// A model under construction.
struct Sheet {
    starts: Vec<i32>,
    rows: Vec<Row>,
}

impl Sheet {
    /// Adds a row, and gives the variable that it makes.
    fn make(&mut self, kind: u16, inputs: &[u16]) -> u16 {
        let makes = self.starts.len() as u16;
        self.starts.push(0);
        self.rows.push(Row::plain(kind, makes, inputs));
        makes
    }

    /// Adds a LINEAR row of one term, and gives the variable that it makes.
    fn term(&mut self, parameter: i32, coefficient: i16, variable: u16) -> u16 {
        let makes = self.make(1, &[variable]);
        if let Some(row) = self.rows.last_mut() {
            row.parameter = parameter;
            row.entries[0].1 = coefficient;
        }
        makes
    }
}

/// Rows of which each reads the one before it four times.
fn deepest_chain(rows: u16) -> Graph {
    let build = chain(2, rows, 4, 1);
    Graph { name: "deepest chain", size: rows.into(), build, asked: rows, moves: [vec![(0, 2)], vec![(0, 3)]] }
}

/// Extreme static: search variables and their sum.
fn extreme_static(size: u16) -> Graph {
    let mut sheet = Sheet { starts: (0..i32::from(size)).collect(), rows: Vec::new() };
    let asked = sheet.make(1, &(0..size).collect::<Vec<_>>());
    let build = of_rows(sheet.starts, &sheet.rows);
    Graph { name: "extreme static", size: size.into(), build, asked, moves: [vec![(3, 70)], vec![(3, 80)]] }
}

/// Extreme dynamic: ELEMENT rows over all search variables, one for each, and an ELEMENT over what they make.
fn extreme_dynamic(size: u16) -> Graph {
    let mut sheet = Sheet { starts: (0..i32::from(size)).collect(), rows: Vec::new() };
    let index = size;
    sheet.starts.push(3);
    let with_index = |candidates: Vec<u16>| [vec![index], candidates].concat();
    let makes: Vec<u16> = (0..size).map(|_| sheet.make(4, &with_index((0..size).collect()))).collect();
    let asked = sheet.make(4, &with_index(makes));
    let build = of_rows(sheet.starts, &sheet.rows);
    Graph { name: "extreme dynamic", size: size.into(), build, asked, moves: [vec![(3, 70)], vec![(3, 80)]] }
}

/// Magic square: the distance of the sum of each line to the sum wanted, and the sum of the distances. A move swaps two.
fn magic_square(size: u16) -> Graph {
    let cells = size * size;
    let mut sheet = Sheet { starts: (1..=i32::from(cells)).collect(), rows: Vec::new() };
    let wanted = i32::from(size) * (i32::from(cells) + 1) / 2;
    let line = |first: u16, step: u16| (0..size).map(|place| first + place * step).collect::<Vec<_>>();
    let mut lines: Vec<Vec<u16>> = (0..size).map(|row| line(row * size, 1)).collect();
    lines.extend((0..size).map(|column| line(column, size)));
    lines.extend([line(0, size + 1), line(size - 1, size - 1)]);
    let mut distances = Vec::new();
    for line in &lines {
        let sum = sheet.make(1, line);
        let sides = [sheet.term(-wanted, 1, sum), sheet.term(wanted, -1, sum)];
        distances.push(sheet.make(3, &sides));
    }
    let asked = sheet.make(1, &distances);
    let build = of_rows(sheet.starts, &sheet.rows);
    let moves = [vec![(1, 1), (0, 2)], vec![(1, 2), (0, 1)]];
    Graph { name: "magic square", size: size.into(), build, asked, moves }
}
