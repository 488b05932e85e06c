//! The numbers that the C header names are the binding's, and its sentences are there for each number.

use lukhandro::lent::{LOG_PLACES, LOG_SIZES, MOST_DEPARTURES, MOST_MOVES, MOST_WINDOWS, NUMBERS};
use lukhandro::{
    INTERFACE, Kind, MOST_ASKED, MOST_BYTES, MOST_BYTES_BOUNDED, MOST_COEFFICIENT, MOST_ENTRIES, MOST_INPUTS,
    MOST_LOGGED, MOST_PAIRS, MOST_PARAMETER, MOST_VARIABLES, Reason, Route,
};

const HEADER: &str = include_str!("../../../include/lukhandro.h");
const MODEL: &str = include_str!("../../../include/lukhandro_model.h");

/// The number that the header gives a name.
fn named(name: &str) -> Option<i64> {
    let rest = HEADER.lines().find_map(|line| line.strip_prefix(&format!("#define LUKHANDRO_{name} ")))?;
    rest.parse().ok()
}

#[test]
fn formulas_routes_and_reasons() {
    for code in 1..=9 {
        let kind = Kind::of(code).expect("a formula");
        assert_eq!(named(&kind.to_string()), Some(code.into()), "{kind}");
    }
    let routes = [
        ("INPUT_TO_OUTPUT", Route::InputToOutput),
        ("OUTPUT_TO_INPUT", Route::OutputToInput),
        ("MARK_GUIDED", Route::MarkGuided),
    ];
    for (name, route) in routes {
        assert_eq!(named(name), Some(route as i64), "{name}");
    }
    let reasons = [
        ("LEFT_RANGE", Reason::LeftRange),
        ("INDEX_OUTSIDE", Reason::IndexOutside),
        ("HEADWAY_NOT_POSITIVE", Reason::HeadwayNotPositive),
        ("BLANK_INPUT", Reason::BlankInput),
        ("NO_DEPARTURES", Reason::NoDepartures),
    ];
    for (name, reason) in reasons {
        assert_eq!(named(name), Some(reason as i64), "{name}");
        let sentence = format!("case {}: return \"{reason}\";", reason as u8);
        assert!(MODEL.contains(&sentence), "{sentence}");
    }
}

#[test]
fn bounds_and_lengths() {
    for (name, number) in [
        ("INTERFACE", INTERFACE as usize),
        ("MOST_VARIABLES", MOST_VARIABLES),
        ("MOST_ROWS", MOST_VARIABLES),
        ("MOST_ENTRIES", MOST_ENTRIES),
        ("MOST_INPUTS", MOST_INPUTS),
        ("MOST_COEFFICIENT", MOST_COEFFICIENT as usize),
        ("MOST_PARAMETER", MOST_PARAMETER as usize),
        ("MOST_PAIRS", MOST_PAIRS),
        ("MOST_ASKED", MOST_ASKED),
        ("MOST_LOGGED", MOST_LOGGED),
        ("MOST_MOVES", MOST_MOVES),
        ("MOST_WINDOWS", MOST_WINDOWS),
        ("MOST_DEPARTURES", MOST_DEPARTURES),
        ("LOG_SIZES", LOG_SIZES),
        ("LOG_PLACES", LOG_PLACES),
        ("BY_NUMBER", NUMBERS),
        ("SALVAGE_LIST", 2 * MOST_VARIABLES),
        ("MOST_BYTES", MOST_BYTES),
        ("MOST_BYTES_BOUNDED", MOST_BYTES_BOUNDED),
    ] {
        assert_eq!(named(name), Some(number as i64), "{name}");
    }
}

#[test]
fn every_refusal_has_a_name_and_a_sentence() {
    let names = HEADER.lines().filter_map(|line| line.strip_prefix("#define LUKHANDRO_REFUSED_"));
    let numbers: Vec<usize> = names.filter_map(|line| line.split_once(' ')?.1.parse().ok()).collect();
    assert_eq!(numbers, (1..NUMBERS).collect::<Vec<_>>());
    for number in 1..NUMBERS {
        assert!(MODEL.contains(&format!("    case {number}: return \"")), "{number}");
    }
}
