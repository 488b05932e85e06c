//! Which of the alternatives of a refusal it was. The engine gives a number and a place; the data at that place decides.

use std::fmt;

use crate::words::{Bounds, Tables};
use crate::{
    BLANK, FULL, Kind, MOST_ASKED, MOST_COEFFICIENT, MOST_ENTRIES, MOST_PAIRS, MOST_PARAMETER, MOST_VARIABLES, Refused,
};

/// What exactly a refused call was refused for.
#[derive(Clone, Copy, Debug, PartialEq, Eq)]
#[non_exhaustive]
#[expect(missing_docs, reason = "the fields are what the sentences say")]
pub enum Cause {
    /// A model without a variable.
    NoVariables,
    /// More of something than there may be.
    TooMany { what: &'static str, given: usize, most: usize },
    /// More rows than variables that they could make.
    MoreRows { rows: usize, variables: usize },
    /// A row that was lent is too short.
    Short { what: &'static str, given: usize, asked: usize },
    /// A row has a kind that is none of the nine formulas.
    NoKind { row: usize, code: u16 },
    /// A row makes, or reads, a variable that is not there.
    RowNamesNone { row: usize, variable: u16, variables: usize },
    /// A row has another number of inputs than its formula takes.
    Inputs { row: usize, kind: Kind, given: usize },
    /// A row's entries do not begin where those of the row before it end.
    NotNext { row: usize, first: usize, next: usize },
    /// The rows have together another number of entries than there are.
    Total { counted: usize, entries: usize },
    /// A coefficient that is too large, or is not 1 where the formula takes none.
    Coefficient { row: usize, kind: Kind, variable: u16, coefficient: i16 },
    /// A parameter that is too large, or is not 0 where the formula takes none.
    Parameter { row: usize, kind: Kind, parameter: i32 },
    /// Bounds of which one is blank, or the lowest above the highest.
    BoundsWrong { variable: usize, low: i32, high: i32 },
    /// Bounds of a variable that a row makes.
    BoundsOfMade { variable: usize, row: usize, low: i32, high: i32 },
    /// Two rows make one variable.
    MadeTwice { row: usize, variable: u16, earlier: usize },
    /// A search variable without a value.
    NoValue { variable: usize },
    /// A value outside the bounds of its variable.
    Outside { variable: usize, value: i32, low: i32, high: i32 },
    /// A variable that a row makes starts at another value than 0.
    MadeStarts { variable: usize, row: usize, value: i32 },
    /// A pair moves a variable that a row makes.
    MovesMade { pair: usize, variable: u16, row: usize },
    /// A pair moves, or a place asks, a variable that is not there.
    NamesNone { what: &'static str, place: usize, variable: u16, variables: usize },
    /// Two pairs move one variable.
    MovedTwice { pair: usize, variable: u16, earlier: usize },
    /// A file that ends before its header does.
    CutHeader { bytes: usize, header: usize },
    /// A file of the other version, or of none.
    Version { version: u16, asked: u16 },
    /// A field of a header that is not what the counts ask.
    Field { what: &'static str, at: usize, given: usize, asked: usize },
    /// A file that is longer or shorter than its header says.
    Length { bytes: usize, total: usize },
    /// Bounds that a file of version 1 cannot hold.
    BoundsLost { variable: usize, low: i32, high: i32 },
}

impl fmt::Display for Cause {
    fn fmt(&self, f: &mut fmt::Formatter<'_>) -> fmt::Result {
        match *self {
            Cause::NoVariables => write!(f, "the model has no variable: it has at least one"),
            Cause::TooMany { what, given, most } => write!(f, "there are {given} {what}, and {most} is the most"),
            Cause::MoreRows { rows, variables } => {
                write!(f, "there are {rows} rows and {variables} variables, and each row makes one of its own")
            }
            Cause::Short { what, given, asked } => {
                write!(f, "{what} has {given} places and needs {asked}: short by {}", asked - given)
            }
            Cause::NoKind { row, code } => write!(f, "row {row} has the kind {code}, which is none of 1 to 9"),
            Cause::RowNamesNone { row, variable, variables } => {
                write!(f, "row {row} names variable {variable}, and there are only {variables}, from 0 on")
            }
            Cause::Inputs { row, kind, given } => {
                let (least, most) = kind.inputs();
                let takes = if least == most { least.to_string() } else { format!("{least} to {most}") };
                write!(f, "row {row} is a {kind}, which takes {takes} inputs, and has {given}")
            }
            Cause::NotNext { row, first, next } => {
                write!(f, "row {row} begins at entry {first}, and the rows before it end at {next}")
            }
            Cause::Total { counted, entries } => {
                write!(f, "the rows have {counted} entries together, and there are {entries}")
            }
            Cause::Coefficient { row, kind: Kind::Linear, variable, coefficient } => write!(
                f,
                "row {row} has the coefficient {coefficient} at variable {variable}, and {MOST_COEFFICIENT} is the most, either way"
            ),
            Cause::Coefficient { row, kind, variable, coefficient } => {
                write!(f, "row {row} has the coefficient {coefficient} at variable {variable}, and in {kind} it is 1")
            }
            Cause::Parameter { row, kind: Kind::Linear | Kind::Count, parameter } => {
                write!(f, "row {row} has the parameter {parameter}, and {MOST_PARAMETER} is the most, either way")
            }
            Cause::Parameter { row, kind, parameter } => {
                write!(f, "row {row} has the parameter {parameter}, and in {kind} it is 0")
            }
            Cause::BoundsWrong { variable, low, high } if low == BLANK || high == BLANK => {
                write!(f, "variable {variable} has a blank bound: the least number is {}", FULL.0)
            }
            Cause::BoundsWrong { variable, low, high } => {
                write!(f, "variable {variable} has {low} as its lowest number and {high} as its highest")
            }
            Cause::BoundsOfMade { variable, row, low, high } => write!(
                f,
                "variable {variable} has the bounds {low} to {high} though row {row} makes it: give it full ones"
            ),
            Cause::MadeTwice { row, variable, earlier } => {
                write!(f, "row {row} makes variable {variable}, which row {earlier} makes already")
            }
            Cause::NoValue { variable } => write!(f, "variable {variable} has no value, and no row makes it"),
            Cause::Outside { variable, value, low, high } => {
                write!(f, "variable {variable} may be from {low} to {high}, and {value} is outside")
            }
            Cause::MadeStarts { variable, row, value } => {
                write!(f, "variable {variable} starts at {value}, and row {row} makes it: start it at 0")
            }
            Cause::MovesMade { pair, variable, row } => write!(
                f,
                "pair {pair} of the move names variable {variable}, which row {row} makes: move what it is made from"
            ),
            Cause::NamesNone { what, place, variable, variables } => {
                write!(f, "{what} {place} names variable {variable}, and there are only {variables}, from 0 on")
            }
            Cause::MovedTwice { pair, variable, earlier } => {
                write!(f, "pair {pair} of the move names variable {variable}, which pair {earlier} names already")
            }
            Cause::CutHeader { bytes, header } => {
                write!(
                    f,
                    "the file has {bytes} bytes, and a header alone has {header}: it is cut off, or no model file"
                )
            }
            Cause::Version { version: 1, asked: 2 } => {
                write!(f, "the file is of version 1, without bounds: read it as such, or move it to version 2")
            }
            Cause::Version { version: 2, asked: 1 } => {
                write!(f, "the file is of version 2, with bounds: read it as such, or move it to version 1")
            }
            Cause::Version { version, .. } => {
                write!(f, "the file begins with the version {version}: it is no model file")
            }
            Cause::Field { what, at, given, asked } => {
                write!(f, "byte {at} of the file says {given} for {what}, and it is {asked}")
            }
            Cause::Length { bytes, total } if bytes < total => {
                write!(f, "the file has {bytes} bytes and its header says {total}: {} are missing", total - bytes)
            }
            Cause::Length { bytes, total } => {
                write!(f, "the file has {bytes} bytes and its header says {total}: {} are too many", bytes - total)
            }
            Cause::BoundsLost { variable, low, high } => write!(
                f,
                "variable {variable} has the bounds {low} to {high}, and a file of version 1 has none: keep version 2"
            ),
        }
    }
}

impl Refused {
    /// The refusal with its cause, if the data shows it.
    pub(crate) fn because(self, cause: impl FnOnce(Refused) -> Option<Cause>) -> Refused {
        Refused { cause: cause(self), ..self }
    }
}

/// Why build refuses these tables, bounds and start values.
pub(crate) fn of_build(tables: Tables<'_>, bounds: Bounds<'_>, starts: &[i32], refused: Refused) -> Option<Cause> {
    let place = refused.place as usize;
    match refused.number {
        1 => sizes(tables, bounds),
        2 => Some(Cause::NoKind { row: place, code: *tables.kinds.get(place)? }),
        3 => parts(tables, place),
        4 => numbers(tables, place).or_else(|| bounds_at(tables, bounds, place)),
        5 => {
            let variable = *tables.makes.get(place)?;
            let earlier = tables.makes[..place].iter().position(|&makes| makes == variable)?;
            Some(Cause::MadeTwice { row: place, variable, earlier })
        }
        7 => start(tables, bounds, starts, place),
        _ => None,
    }
}

/// A count that is too large, or bounds that are too few.
fn sizes(tables: Tables<'_>, bounds: Bounds<'_>) -> Option<Cause> {
    let Tables { n, m, e, .. } = tables;
    let short = |what, given, asked| (given < asked).then_some(Cause::Short { what, given, asked });
    too_large(n, m, e)
        .or_else(|| short("the list of lowest numbers", bounds.lows.len(), n))
        .or_else(|| short("the list of highest numbers", bounds.highs.len(), n))
}

/// What is wrong with the counts of a model.
pub(crate) fn too_large(n: usize, m: usize, e: usize) -> Option<Cause> {
    match (n, m, e) {
        (0, ..) => Some(Cause::NoVariables),
        (given, ..) if given > MOST_VARIABLES => {
            Some(Cause::TooMany { what: "variables", given, most: MOST_VARIABLES })
        }
        (variables, rows, _) if rows > variables => Some(Cause::MoreRows { rows, variables }),
        (.., given) if given > MOST_ENTRIES => Some(Cause::TooMany { what: "entries", given, most: MOST_ENTRIES }),
        _ => None,
    }
}

/// What is wrong with the variables, the inputs or the part of a row.
fn parts(tables: Tables<'_>, row: usize) -> Option<Cause> {
    let Tables { n, m, e, .. } = tables;
    let kind = Kind::of(*tables.kinds.get(row)?)?;
    let count = |row: usize| usize::from(tables.counts[row]);
    let (first, next) = (usize::from(tables.firsts[row]), (0..row).map(count).sum::<usize>());
    let inputs = tables.vars.get(first..first + count(row)).unwrap_or(&[]);
    let named = [tables.makes[row]].into_iter().chain(inputs.iter().copied());
    let none = named.into_iter().find(|&variable| usize::from(variable) >= n);
    let (least, most) = kind.inputs();
    if let Some(variable) = none {
        return Some(Cause::RowNamesNone { row, variable, variables: n });
    }
    if !(least..=most).contains(&count(row)) {
        return Some(Cause::Inputs { row, kind, given: count(row) });
    }
    if first != next {
        return Some(Cause::NotNext { row, first, next });
    }
    let counted = (0..m).map(count).sum();
    (counted != e).then_some(Cause::Total { counted, entries: e })
}

/// What is wrong with the coefficients or the parameter of a row.
fn numbers(tables: Tables<'_>, row: usize) -> Option<Cause> {
    let kind = Kind::of(*tables.kinds.get(row)?)?;
    let first = usize::from(tables.firsts[row]);
    let part = first..first + usize::from(tables.counts[row]);
    let entries = tables.vars.get(part.clone())?.iter().zip(tables.coefs.get(part)?);
    let wrong = |coefficient: i16| match kind {
        Kind::Linear => i32::from(coefficient).abs() > MOST_COEFFICIENT,
        _ => coefficient != 1,
    };
    for (&variable, &coefficient) in entries {
        if wrong(coefficient) {
            return Some(Cause::Coefficient { row, kind, variable, coefficient });
        }
    }
    let parameter = tables.params[row];
    let most = if matches!(kind, Kind::Linear | Kind::Count) { MOST_PARAMETER } else { 0 };
    (parameter.unsigned_abs() > most.unsigned_abs()).then_some(Cause::Parameter { row, kind, parameter })
}

/// What is wrong with the bounds of a variable.
fn bounds_at(tables: Tables<'_>, bounds: Bounds<'_>, variable: usize) -> Option<Cause> {
    let (low, high) = (*bounds.lows.get(variable)?, *bounds.highs.get(variable)?);
    match maker(tables, variable) {
        _ if low == BLANK || high == BLANK || low > high => Some(Cause::BoundsWrong { variable, low, high }),
        Some(row) if (low, high) != FULL => Some(Cause::BoundsOfMade { variable, row, low, high }),
        _ => None,
    }
}

/// What is wrong with the start value of a variable.
fn start(tables: Tables<'_>, bounds: Bounds<'_>, starts: &[i32], variable: usize) -> Option<Cause> {
    let value = *starts.get(variable)?;
    match maker(tables, variable) {
        Some(row) => Some(Cause::MadeStarts { variable, row, value }),
        None if value == BLANK => Some(Cause::NoValue { variable }),
        None => Some(Cause::Outside {
            variable,
            value,
            low: *bounds.lows.get(variable)?,
            high: *bounds.highs.get(variable)?,
        }),
    }
}

/// The row that makes a variable.
fn maker(tables: Tables<'_>, variable: usize) -> Option<usize> {
    tables.makes.iter().take(tables.m).position(|&makes| usize::from(makes) == variable)
}

/// Why a trial or a keep refuses a move, or the list of what is asked.
pub(crate) fn of_move(
    tables: Tables<'_>,
    bounds: Bounds<'_>,
    pairs: &[(u16, i32)],
    asked: &[u16],
    refused: Refused,
) -> Option<Cause> {
    let (place, n) = (refused.place as usize, tables.n);
    let pair = |place: usize| pairs.get(place).copied();
    match refused.number {
        1 if pairs.len() > MOST_PAIRS => {
            Some(Cause::TooMany { what: "pairs in a move", given: pairs.len(), most: MOST_PAIRS })
        }
        1 if asked.len() > MOST_ASKED => {
            Some(Cause::TooMany { what: "variables asked", given: asked.len(), most: MOST_ASKED })
        }
        10 => {
            let (variable, _) = pair(place)?;
            Some(match maker(tables, variable.into()) {
                Some(row) => Cause::MovesMade { pair: place, variable, row },
                None => Cause::NamesNone { what: "pair", place, variable, variables: n },
            })
        }
        11 => {
            let (variable, _) = pair(place)?;
            let earlier = pairs.iter().position(|&(earlier, _)| earlier == variable)?;
            Some(Cause::MovedTwice { pair: place, variable, earlier })
        }
        13 => Some(Cause::NamesNone { what: "asked place", place, variable: *asked.get(place)?, variables: n }),
        17 => {
            let (variable, value) = pair(place)?;
            let variable = usize::from(variable);
            Some(Cause::Outside {
                variable,
                value,
                low: *bounds.lows.get(variable)?,
                high: *bounds.highs.get(variable)?,
            })
        }
        _ => None,
    }
}

/// Why a file is refused as one of this version: its header, or bounds that would be lost.
pub(crate) fn of_file(bytes: &[u8], version: u16, refused: Refused) -> Option<Cause> {
    let header = if version == 1 { 24 } else { 28 };
    match refused.number {
        14 if bytes.len() < header && usize::try_from(refused.place) == Ok(bytes.len()) => {
            Some(Cause::CutHeader { bytes: bytes.len(), header })
        }
        14 => field(bytes, version, header, refused.place as usize),
        18 => {
            let (variable, [n, m, e]) = (refused.place as usize, counts(bytes)?);
            let at = 28 + 4 * n + 12 * m + 4 * e + 8 * variable;
            let number = |at: usize| wide(bytes, at).map(|bits| bits as i32);
            Some(Cause::BoundsLost { variable, low: number(at)?, high: number(at + 4)? })
        }
        _ => None,
    }
}

/// What is wrong at a field of a header.
fn field(bytes: &[u8], version: u16, header: usize, at: usize) -> Option<Cause> {
    let [n, m, e] = counts(bytes)?;
    let rows = header + 4 * n;
    let entries = rows + 12 * m;
    let bounds = entries + 4 * e;
    let total = if version == 1 { bounds } else { bounds + 8 * n };
    let says = |what, asked| Some(Cause::Field { what, at, given: wide(bytes, at)? as usize, asked });
    match at {
        0 => Some(Cause::Version { version: u16::from_le_bytes(*bytes.first_chunk()?), asked: version }),
        2 if n == 0 => Some(Cause::NoVariables),
        2 => Some(Cause::TooMany { what: "variables", given: n, most: MOST_VARIABLES }),
        4 => Some(Cause::MoreRows { rows: m, variables: n }),
        6 => Some(Cause::TooMany { what: "entries", given: e, most: MOST_ENTRIES }),
        8 => says("where the start values begin", header),
        12 => says("where the rows begin", rows),
        16 => says("where the entries begin", entries),
        20 if wide(bytes, at)? as usize == total => Some(Cause::Length { bytes: bytes.len(), total }),
        20 => says("its length", total),
        24 => says("where the bounds begin", bounds),
        _ => None,
    }
}

/// The three counts of a header.
fn counts(bytes: &[u8]) -> Option<[usize; 3]> {
    let count = |at: usize| Some(usize::from(u16::from_le_bytes(*bytes.get(at..)?.first_chunk()?)));
    Some([count(2)?, count(4)?, count(6)?])
}

/// The four bytes at a place.
fn wide(bytes: &[u8], at: usize) -> Option<u32> {
    Some(u32::from_le_bytes(*bytes.get(at..)?.first_chunk()?))
}
