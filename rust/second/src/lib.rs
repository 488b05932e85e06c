//! A second implementation of the timetable engine, written from its specification alone.
//!
//! It shares no code and no table with the engine. Like the engine it works over lent slices and never keeps anything
//! between calls, so that the answer, the session record and every byte of every buffer can be compared with what the
//! engine leaves. All work is linear in variables, rows and entries.
//!
//! A call that is refused changes nothing that it was lent.
#![forbid(unsafe_code)]
#![warn(missing_docs)]

mod boards;
mod bounds;
mod calls;
mod checks;
mod choices;
mod figures;
mod file;
mod formulas;
mod frequencies;
mod groups;
mod log;
mod order;
mod parts;
mod readers;
mod reasons;
mod refused;
mod routes;
mod salvage;
mod trials;
mod versions;

pub use boards::departures;
pub use calls::{build, inputs_of_row, keep, part_of_row, take_back, trial};
pub use figures::{figures, merge};
pub use file::{read, write};
pub use frequencies::{frequencies, write_frequencies};
pub use reasons::reasons;
pub use refused::Refused;
pub use salvage::salvage;
pub use trials::trials;
pub use versions::{read_bounded, to_version_1, to_version_2, write_bounded};

/// No value: the one 32-bit number that is no value of a variable.
pub const BLANK: i32 = i32::MIN;

/// The least number that a variable may have, and the lowest of full bounds.
pub const LOWEST: i32 = -i32::MAX;

/// The greatest number that a variable may have, and the highest of full bounds.
pub const HIGHEST: i32 = i32::MAX;

/// The most variables of a model.
pub const MOST_VARIABLES: usize = 4096;

/// The most input entries of a model.
pub const MOST_ENTRIES: usize = 16384;

/// The most inputs of one row.
pub const MOST_INPUTS: usize = 256;

/// The most pairs of a move.
pub const MOST_PAIRS: usize = 64;

/// The most moves that a log holds.
pub const MOST_LOGGED: usize = 64;

/// The most variables that a trial may ask.
pub const MOST_ASKED: usize = 32;
