//! The rows of a model.

use std::fmt;

use crate::MOST_INPUTS;

/// The nine formulas, by their codes.
#[derive(Clone, Copy, Debug, PartialEq, Eq)]
#[repr(u16)]
pub enum Kind {
    /// Parameter plus the sum of coefficient times input.
    Linear = 1,
    /// The least input that has a value.
    Min = 2,
    /// The greatest input that has a value.
    Max = 3,
    /// The candidate that the first input, an index from 0, chooses among the others.
    Element = 4,
    /// How many places hold a value that another place also holds.
    Shared = 5,
    /// How many inputs equal the parameter.
    Count = 6,
    /// The first input minus the second if that is positive, else 0.
    Over = 7,
    /// The number of departures from start, every headway, strictly before end.
    Departures = 8,
    /// The latest of those departures.
    Last = 9,
}

impl Kind {
    /// The formula of a code, 1 to 9.
    #[must_use]
    pub fn of(code: u16) -> Option<Kind> {
        [
            Kind::Linear,
            Kind::Min,
            Kind::Max,
            Kind::Element,
            Kind::Shared,
            Kind::Count,
            Kind::Over,
            Kind::Departures,
            Kind::Last,
        ]
        .into_iter()
        .find(|&kind| kind as u16 == code)
    }

    /// The least and the greatest number of inputs that it takes.
    #[must_use]
    pub fn inputs(self) -> (usize, usize) {
        match self {
            Kind::Element => (2, MOST_INPUTS),
            Kind::Over => (2, 2),
            Kind::Departures | Kind::Last => (3, 3),
            _ => (1, MOST_INPUTS),
        }
    }
}

impl fmt::Display for Kind {
    fn fmt(&self, f: &mut fmt::Formatter<'_>) -> fmt::Result {
        f.write_str(match self {
            Kind::Linear => "LINEAR",
            Kind::Min => "MIN",
            Kind::Max => "MAX",
            Kind::Element => "ELEMENT",
            Kind::Shared => "SHARED",
            Kind::Count => "COUNT",
            Kind::Over => "OVER",
            Kind::Departures => "DEPARTURES",
            Kind::Last => "LAST",
        })
    }
}

/// The three ways to work out the values of a trial. Over values that the calls left they agree.
#[derive(Clone, Copy, Debug, PartialEq, Eq)]
#[repr(u32)]
pub enum Route {
    /// From what was moved to all that it changes.
    InputToOutput = 1,
    /// From what is asked to all that it needs.
    OutputToInput = 2,
    /// From what is asked to what it needs and the move can have changed.
    MarkGuided = 3,
}

/// A row: one formula that makes one variable from others.
#[derive(Clone, Debug, PartialEq, Eq)]
pub struct Row {
    /// The formula.
    pub kind: Kind,
    /// The variable made.
    pub makes: u16,
    /// The parameter: 0 but in LINEAR and COUNT.
    pub parameter: i32,
    /// Variable and coefficient of each entry; the coefficient is 1 but in LINEAR.
    pub entries: Vec<(u16, i16)>,
}

impl Row {
    /// Parameter plus the sum of coefficient times input.
    #[must_use]
    pub fn linear(makes: u16, parameter: i32, terms: &[(u16, i16)]) -> Row {
        Row { kind: Kind::Linear, makes, parameter, entries: terms.to_vec() }
    }

    /// The least input that has a value.
    #[must_use]
    pub fn min(makes: u16, inputs: &[u16]) -> Row {
        Row::plain(Kind::Min, makes, inputs)
    }

    /// The greatest input that has a value.
    #[must_use]
    pub fn max(makes: u16, inputs: &[u16]) -> Row {
        Row::plain(Kind::Max, makes, inputs)
    }

    /// The candidate that an index from 0 chooses. A candidate may depend on the variable made, the index may not; a call
    /// after which the candidates that are chosen lead round is refused with 20.
    #[must_use]
    pub fn element(makes: u16, index: u16, candidates: &[u16]) -> Row {
        Row::plain(Kind::Element, makes, &[&[index], candidates].concat())
    }

    /// How many places hold a value that another place also holds: clashes.
    #[must_use]
    pub fn shared(makes: u16, inputs: &[u16]) -> Row {
        Row::plain(Kind::Shared, makes, inputs)
    }

    /// How many inputs equal a number.
    #[must_use]
    pub fn count(makes: u16, number: i32, inputs: &[u16]) -> Row {
        Row { parameter: number, ..Row::plain(Kind::Count, makes, inputs) }
    }

    /// How far a lies over b, 0 if it does not.
    #[must_use]
    pub fn over(makes: u16, a: u16, b: u16) -> Row {
        Row::plain(Kind::Over, makes, &[a, b])
    }

    /// The number of departures of a window.
    #[must_use]
    pub fn departures(makes: u16, start: u16, end: u16, headway: u16) -> Row {
        Row::plain(Kind::Departures, makes, &[start, end, headway])
    }

    /// The last departure of a window.
    #[must_use]
    pub fn last(makes: u16, start: u16, end: u16, headway: u16) -> Row {
        Row::plain(Kind::Last, makes, &[start, end, headway])
    }

    fn plain(kind: Kind, makes: u16, inputs: &[u16]) -> Row {
        Row { kind, makes, parameter: 0, entries: inputs.iter().map(|&variable| (variable, 1)).collect() }
    }
}
