//! The calls above the engine by their definitions: batches, their figures merged, a departure board, and the inputs of a row.

use compare::{Answer, Call, Case, Engine};
use second::BLANK;

use super::{Naive, first, fixed, places};

/// The answer of a call above the engine; what it leaves goes into the case.
pub fn answer(case: &mut Case) -> Answer {
    match case.call {
        Call::Figures => figures(case),
        Call::Trials => trials(case),
        Call::Departures => departures(case),
        Call::Merge => merge(case),
        _ => inputs_of_row(case),
    }
}

fn figures(case: &mut Case) -> Answer {
    let good = case.moves <= 1000 && case.move_pairs.len() >= case.moves && case.by_number.len() >= 22;
    let nothing = Answer { least: BLANK, greatest: BLANK, ..Answer::default() };
    if !good {
        return Answer { number: 1, ..nothing };
    }
    let came = |route| (0..case.moves).map(|which| tried(case, which, route)).collect::<Vec<(Answer, i32)>>();
    let [one, two, three] = [1, 2, 3].map(came);
    let results = || one.iter().filter(|(answer, _)| answer.number == 0).map(|&(_, result)| result);
    let values = || results().filter(|&result| result != BLANK);
    let evaluations = |came: &[(Answer, i32)]| came.iter().map(|(answer, _)| answer.evaluations).sum();
    let with = |number: u32| one.iter().filter(|(answer, _)| answer.number == number).count() as u32;
    let counts: Vec<u32> = (0..22).map(with).collect();
    let answer = Answer {
        blank: (results().count() - values().count()) as u32,
        least: values().min().unwrap_or(BLANK),
        greatest: values().max().unwrap_or(BLANK),
        sum: values().map(i64::from).sum(),
        first: evaluations(&one),
        second: evaluations(&two),
        third: evaluations(&three),
        ..nothing
    };
    case.by_number[..22].copy_from_slice(&counts);
    answer
}

fn merge(case: &mut Case) -> Answer {
    let nothing = Answer { least: BLANK, greatest: BLANK, ..Answer::default() };
    if let Some(&Answer { number, place, .. }) = case.parts.iter().find(|part| part.number != 0) {
        return Answer { number, place, ..nothing };
    }
    let [one, other] = case.parts;
    let rows = [&case.first_by_number, &case.second_by_number, &case.by_number];
    let half = |part: Answer| (1 - (1i128 << 62)..1 << 62).contains(&i128::from(part.sum));
    if rows.iter().any(|row| row.len() < 22) || !half(one) || !half(other) {
        return Answer { number: 1, ..nothing };
    }
    let own = |part: Answer| vec![part.blank, part.first, part.second, part.third];
    let counts = [[&rows[0][..22], &own(one)].concat(), [&rows[1][..22], &own(other)].concat()];
    let sums: Vec<u64> = (0..26).map(|at| u64::from(counts[0][at]) + u64::from(counts[1][at])).collect();
    if sums.iter().any(|&sum| sum >= 1 << 32) {
        return Answer { number: 1, ..nothing };
    }
    let sums: Vec<u32> = sums.iter().map(|&sum| sum as u32).collect();
    case.by_number[..22].copy_from_slice(&sums[..22]);
    let [blank, first, second, third] = [22, 23, 24, 25].map(|at| sums[at]);
    let picked = |a: i32, b: i32, low: bool| match (a, b) {
        (BLANK, b) => b,
        (a, BLANK) => a,
        (a, b) => {
            if (a < b) == low {
                a
            } else {
                b
            }
        }
    };
    let (least, greatest) = (picked(one.least, other.least, true), picked(one.greatest, other.greatest, false));
    Answer { blank, least, greatest, sum: one.sum + other.sum, first, second, third, ..nothing }
}

fn trials(case: &mut Case) -> Answer {
    let (moves, asked) = (case.moves, case.asked);
    let rows = [case.move_pairs.len(), case.move_numbers.len(), case.move_places.len(), case.move_evaluations.len()];
    let good = moves <= 1000 && asked <= 32 && rows.iter().all(|&row| row >= moves) && case.asked_vars.len() >= asked;
    if !good || case.results.len() < moves * asked || case.why.len() < moves * asked {
        return Answer { number: 1, ..Answer::default() };
    }
    let before: Vec<usize> =
        (0..moves).map(|which| case.move_pairs[..which].iter().map(|&k| usize::from(k)).sum()).collect();
    let room = case.n.min(4096);
    for which in 0..moves {
        let (pairs, own) = (usize::from(case.move_pairs[which]), which * asked..(which + 1) * asked);
        let mut alone = Case {
            call: Call::Trial,
            pairs,
            move_vars: case.move_vars.iter().copied().skip(before[which]).take(pairs).collect::<Vec<u16>>().into(),
            move_values: case.move_values.iter().copied().skip(before[which]).take(pairs).collect::<Vec<i32>>().into(),
            results: case.results[own.clone()].to_vec().into(),
            why: case.why[own.clone()].to_vec().into(),
            trial: vec![0; room].into(),
            flags: vec![0; room].into(),
            ..case.clone()
        };
        let answer = Naive.answer(&mut alone);
        case.move_numbers[which] = answer.number;
        case.move_places[which] = answer.place;
        case.move_evaluations[which] = answer.evaluations;
        case.results[own.clone()].copy_from_slice(&alone.results);
        case.why[own].copy_from_slice(&alone.why);
    }
    Answer { evaluations: case.move_evaluations[..moves].iter().sum(), ..Answer::default() }
}

/// The trial of a move of a batch by a route: its answer, and the asked value.
fn tried(case: &Case, which: usize, route: u32) -> (Answer, i32) {
    let pairs = |which: usize| usize::from(case.move_pairs[which]);
    let before: usize = (0..which).map(pairs).sum();
    let room = case.n.min(4096);
    let mut trial = Case {
        call: Call::Trial,
        pairs: pairs(which),
        move_vars: case.move_vars.iter().copied().skip(before).take(pairs(which)).collect::<Vec<u16>>().into(),
        move_values: case.move_values.iter().copied().skip(before).take(pairs(which)).collect::<Vec<i32>>().into(),
        asked: 1,
        asked_vars: vec![case.asked as u16].into(),
        route,
        reasons: vec![0; room].into(),
        results: vec![0].into(),
        trial: vec![0; room].into(),
        flags: vec![0; room].into(),
        why: vec![0].into(),
        ..case.clone()
    };
    let answer = Naive.answer(&mut trial);
    (answer, trial.results[0])
}

fn departures(case: &mut Case) -> Answer {
    let count = case.windows;
    let rows = [&case.starts, &case.ends, &case.headways];
    if let Some(refused) = first([fixed(1, count <= 64 && rows.iter().all(|row| row.len() >= count))]) {
        return Answer::refused(refused);
    }
    let window = |which: usize| rows.map(|row| row[which]);
    let bad = |which: usize| window(which).contains(&BLANK) || window(which)[2] <= 0;
    if let Some(refused) = first([places(2, count, bad)]) {
        return Answer::refused(refused);
    }
    let overlap = |one: usize, other: usize| {
        let ([s, e, _], [t, f, _]) = (window(one), window(other));
        one != other && s < e && s < f && t < f && t < e
    };
    let mut list: Vec<i64> = Vec::new();
    for [start, end, headway] in (0..count).map(|which| window(which).map(i64::from)) {
        let mut time = start;
        while time < end && list.len() <= 2000 {
            let later = list.iter().position(|&other| time <= other).unwrap_or(list.len());
            list.insert(later, time);
            time += headway;
        }
    }
    let refused = first([
        places(3, count, |one| (0..count).any(|other| overlap(one, other))),
        fixed(4, list.len() <= 2000),
        fixed(5, list.len() <= case.board.len()),
    ]);
    if let Some(refused) = refused {
        return Answer::refused(refused);
    }
    case.board.iter_mut().zip(&list).for_each(|(place, &time)| *place = time as i32);
    Answer { length: list.len() as u32, ..Answer::default() }
}

fn inputs_of_row(case: &Case) -> Answer {
    let there = case.row < case.m.min(case.firsts.len()).min(case.counts.len());
    let (first, count) = if there { (case.firsts[case.row], case.counts[case.row]) } else { (0, 0) };
    let (first, count) = (u32::from(first), u32::from(count));
    let whole = (first + count) as usize <= case.e.min(case.vars.len());
    if whole { Answer { first, count, ..Answer::default() } } else { Answer::default() }
}
