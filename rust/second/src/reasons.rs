//! Why a value is blank: 0 it is not, 1 the result left the range, 2 the index is outside, 3 the headway is 0 or less,
//! 4 a blank input stopped the formula, 5 there are no departures. Of several reasons the first of 4, 3, 2, 5, 1 counts.

use crate::BLANK;
use crate::formulas::{DEPARTURES, ELEMENT, LAST, MAX, MIN, chosen, input, inputs};
use crate::parts::{Row, counted_tables, row_of, rows_of};
use lent::Tables;

const HAS_VALUE: u8 = 0;
const LEFT_RANGE: u8 = 1;
const OUTSIDE: u8 = 2;
const NO_HEADWAY: u8 = 3;
const STOPPED: u8 = 4;
const NO_DEPARTURES: u8 = 5;

/// The reason of every variable over values that their formulas gave, 0 for a search variable. Checks 1 to 5 have
/// passed.
#[must_use]
pub fn reasons(tables: &Tables<'_>, values: &[i32]) -> Vec<u8> {
    let mut reasons = vec![HAS_VALUE; tables.n];
    fill(&counted_tables(tables), values, &mut reasons);
    reasons
}

/// What a build leaves: the reason of every variable over the values that it gave them, in n places.
pub(crate) fn fill(tables: &Tables<'_>, values: &[i32], reasons: &mut [u8]) {
    reasons.fill(HAS_VALUE);
    for row in rows_of(tables) {
        reasons[row.makes] = row_reason(&row, values, values[row.makes]);
    }
}

/// What keep and taking back leave: the reasons of the variables that were evaluated, over the new values, and 0 for search
/// variables. Those of the others stay, and what lies beyond the makers.
pub(crate) fn note(tables: &Tables<'_>, makers: &[u16], flags: &[u8], values: &[i32], reasons: &mut [u8]) {
    for (variable, (reason, &maker)) in reasons.iter_mut().zip(makers).enumerate() {
        if maker == 0 {
            *reason = HAS_VALUE;
        } else if flags[variable] == 1 {
            *reason = made_reason(tables, maker, values);
        }
    }
}

/// The reason of the variable that a maker, one more than its row, gave a value over these.
pub(crate) fn made_reason(tables: &Tables<'_>, maker: u16, values: &[i32]) -> u8 {
    let row = row_of(tables, usize::from(maker - 1));
    row_reason(&row, values, values[row.makes])
}

/// The reason of the value that a row's formula gave over these values.
fn row_reason(row: &Row<'_>, values: &[i32], value: i32) -> u8 {
    if value != BLANK {
        return HAS_VALUE;
    }
    match row.kind {
        // the chosen candidate is the value
        ELEMENT if chosen(row, values).is_some() || input(row, values, 0) == BLANK => STOPPED,
        ELEMENT => OUTSIDE,
        // blank only if every input is
        MIN | MAX => STOPPED,
        _ if inputs(row, values).any(|input| input == BLANK) => STOPPED,
        DEPARTURES | LAST if input(row, values, 2) <= 0 => NO_HEADWAY,
        // the latest departure lies in the window
        LAST => NO_DEPARTURES,
        _ => LEFT_RANGE,
    }
}

#[cfg(test)]
mod tests {
    use super::*;
    use crate::formulas::{COUNT, LINEAR, OVER, SHARED, row_value};

    const HIGH: i32 = i32::MAX;
    const LOW: i32 = -HIGH;

    /// Kind, inputs and the reason; parameter and coefficients are 1.
    const EXAMPLES: &[(u16, &[i32], u8)] = &[
        (LINEAR, &[5], 0),
        (LINEAR, &[HIGH], 1),
        (LINEAR, &[BLANK], 4),
        (MIN, &[BLANK, 5], 0),
        (MIN, &[BLANK, BLANK], 4),
        (MAX, &[5, BLANK], 0),
        (MAX, &[BLANK], 4),
        (ELEMENT, &[0, 7, BLANK], 0),
        (ELEMENT, &[1, 7, BLANK], 4),
        (ELEMENT, &[BLANK, 7], 4),
        (ELEMENT, &[2, 7, BLANK], 2),
        (ELEMENT, &[-1, 7, BLANK], 2),
        (ELEMENT, &[LOW, 7], 2),
        (SHARED, &[4, BLANK], 4),
        (SHARED, &[4, 4], 0),
        (COUNT, &[BLANK, 1], 4),
        (COUNT, &[2, 3], 0),
        (OVER, &[HIGH, -1], 1),
        (OVER, &[HIGH, 0], 0),
        (OVER, &[LOW, HIGH], 0),
        (OVER, &[5, BLANK], 4),
        (DEPARTURES, &[BLANK, 9, 0], 4),
        (DEPARTURES, &[1, 9, 0], 3),
        (DEPARTURES, &[1, 9, -5], 3),
        (DEPARTURES, &[9, 9, 2], 0),
        (DEPARTURES, &[LOW, HIGH, 1], 1),
        (DEPARTURES, &[LOW, HIGH, 2], 0),
        (LAST, &[LOW, HIGH, 1], 0),
        (LAST, &[9, 9, 2], 5),
        (LAST, &[9, 1, 2], 5),
        (LAST, &[9, 9, 0], 3),
        (LAST, &[9, BLANK, 0], 4),
        (LAST, &[1, 9, BLANK], 4),
    ];

    #[test]
    fn examples() {
        for &(kind, inputs, reason) in EXAMPLES {
            let (vars, coefs): (Vec<u16>, Vec<i16>) = (0..inputs.len() as u16).map(|variable| (variable, 1)).unzip();
            let row = Row { kind, makes: 0, parameter: 1, vars: &vars, coefs: &coefs };
            assert_eq!(row_reason(&row, inputs, row_value(&row, inputs)), reason, "kind {kind} of {inputs:?}");
        }
    }

    #[test]
    fn of_every_variable() {
        // model A with headway 0: DEPARTURES and LAST of variables 0 to 2, and LINEAR of the former
        let tables = Tables {
            n: 6,
            m: 3,
            e: 7,
            kinds: &[DEPARTURES, LAST, LINEAR],
            makes: &[3, 4, 5],
            params: &[0, 0, 2],
            firsts: &[0, 3, 6],
            counts: &[3, 3, 1],
            vars: &[0, 1, 2, 0, 1, 2, 3],
            coefs: &[1, 1, 1, 1, 1, 1, 4],
        };
        assert_eq!(reasons(&tables, &[25200, 28800, 0, BLANK, BLANK, BLANK]), [0, 0, 0, 3, 3, 4]);
        assert_eq!(reasons(&tables, &[25200, 25200, 600, 0, BLANK, 2]), [0, 0, 0, 0, 5, 0]);
    }
}
