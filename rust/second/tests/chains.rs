//! All models of a few variables: closed chains found by listing every chain link by link, and the second implementation
//! beside the definitions.

mod naive;

use compare::{Case, Random, Row, Second, Side, compare, of_rows};
use naive::Naive;

/// A link: to which variable, and whether as a candidate or as the index of an ELEMENT.
type Link = (usize, bool, bool);

/// The links of each variable.
fn links(rows: &[Row], n: usize) -> Vec<Vec<Link>> {
    let mut links = vec![Vec::new(); n];
    for row in rows {
        let element = row.kind == 4;
        let link =
            |(place, &(input, _)): (usize, &(u16, i16))| (input.into(), element && place > 0, element && place == 0);
        links[usize::from(row.makes)] = row.entries.iter().enumerate().map(link).collect();
    }
    links
}

/// Whether some closed chain through a variable is not permitted: every chain from it of at most this many links is listed.
fn is_barred(links: &[Vec<Link>], variable: usize, most: usize) -> bool {
    let mut chains: Vec<Vec<Link>> = vec![Vec::new()];
    for _ in 0..most {
        let end = |chain: &Vec<Link>| chain.last().map_or(variable, |&(end, _, _)| end);
        let longer = |chain: &Vec<Link>| {
            let next = links[end(chain)].iter();
            next.map(|&link| [chain.as_slice(), &[link]].concat()).collect::<Vec<_>>()
        };
        chains = chains.iter().flat_map(longer).collect();
        let passes_index = |chain: &Vec<Link>| chain.iter().any(|&(_, _, index)| index);
        let passes_candidate = |chain: &Vec<Link>| chain.iter().any(|&(_, candidate, _)| candidate);
        let closed = chains.iter().filter(|&chain| end(chain) == variable);
        if closed.into_iter().any(|chain| passes_index(chain) || !passes_candidate(chain)) {
            return true;
        }
    }
    false
}

/// Every row of one or two inputs, or of an index and one or two candidates, that makes a variable out of n.
fn all_rows(makes: u16, n: u16) -> Vec<Row> {
    let mut rows = Vec::new();
    for a in 0..n {
        rows.push(Row::plain(1, makes, &[a]));
        for b in 0..n {
            rows.push(Row::plain(3, makes, &[a, b]));
            rows.push(Row::plain(4, makes, &[a, b]));
            rows.extend((0..n).map(|c| Row::plain(4, makes, &[a, b, c])));
        }
    }
    rows
}

/// Builds a model over every start value that chooses something or nothing; gives how often it was accepted, refused with 6
/// and with 20.
fn build_all(rows: &[Row], search: usize) -> [usize; 3] {
    let n = search + rows.len();
    let links = links(rows, n);
    let least = (0..n).find(|&variable| is_barred(&links, variable, 2 * n));
    let mut came = [0; 3];
    for start in -1..=1 {
        let mut starts = vec![start; n];
        starts[search..].fill(0);
        let build: Case = of_rows(starts, rows);
        compare(&Second, &Naive, &build).unwrap_or_else(|difference| panic!("{difference}"));
        let answer = Side::of(&Second, &build).answer;
        let refused_6 = (answer.number == 6).then_some(answer.place as usize);
        assert_eq!(refused_6, least, "{rows:?}");
        came[[0, 6, 20].iter().position(|&number| number == answer.number).expect("one of these")] += 1;
    }
    came
}

#[test]
fn all_models_of_three_variables() {
    let mut came = [0; 3];
    for first in all_rows(1, 3) {
        for second in all_rows(2, 3) {
            let built = build_all(&[first.clone(), second], 1);
            (0..3).for_each(|which| came[which] += built[which]);
        }
    }
    println!("{came:?}");
    assert!(came.iter().all(|&calls| calls > 100), "{came:?}");
}

#[test]
fn many_models_of_four_and_five_variables() {
    let mut random = Random::new(compare::seed());
    let mut came = [0; 3];
    for round in 0..6_000 {
        let made = 3 + round % 2;
        let mut rows: Vec<Row> = (1..=made)
            .map(|makes| {
                let rows = all_rows(makes, 1 + made);
                // an index that is 0, a search variable, closes no chain
                let plain: Vec<&Row> = rows.iter().filter(|row| row.kind != 4 || row.entries[0].0 == 0).collect();
                if random.once_in(6) {
                    rows[random.below(rows.len())].clone()
                } else {
                    plain[random.below(plain.len())].clone()
                }
            })
            .collect();
        random.shuffle(&mut rows);
        let built = build_all(&rows, 1);
        (0..3).for_each(|which| came[which] += built[which]);
    }
    println!("{came:?}");
    assert!(came.iter().all(|&calls| calls > 100), "{came:?}");
}
