//! The safe binding of Lukhandro, a timetable engine whose every call is proved.
//!
//! # A sheet in five steps
//!
//! Departures, last trips, crew need and clashes are variables, each made by one formula from others. What no formula makes
//! is a search variable: it has a start value, and a planner moves it. A [`Builder`] lays a model out; what is added gives
//! a handle.
//!
//! ```
//! use lukhandro::builder::{Builder, departures, last, linear, search};
//! use lukhandro::{Reason, Route};
//!
//! // 1. Lay it out. Times are seconds since midnight: a window from 7:00 to 8:00, a trip every ten minutes. Four crews a
//! //    trip, and two in reserve. A headway is from one minute to two hours.
//! let mut day = Builder::new();
//! let (start, end) = (day.add(search("start", 25200)), day.add(search("end", 28800)));
//! let headway = day.add(search("headway", 600).within(60..=7200));
//! let trips = day.add(departures(start, end, headway).named("trips"));
//! let final_trip = day.add(last(start, end, headway).named("last trip"));
//! let crews = day.add(linear(2, [(4, trips)]).named("crews"));
//!
//! // 2. Build it: every value is worked out. A window does not contain its end, so nothing departs at 8:00.
//! let mut sheet = day.build()?;
//! assert_eq!((sheet.value(trips), sheet.value(final_trip), sheet.value(crews)), (Some(6), Some(28200), Some(26)));
//!
//! // 3. Try a move: what if it ran every twelve minutes? The sheet stays as it is.
//! let tried = sheet.trial(&[(headway, 720)], &[trips, crews], Route::MarkGuided)?;
//! assert_eq!((tried.value(0), tried.value(1)), (Some(5), Some(22)));
//!
//! // 4. Keep it, and take it back on second thoughts.
//! sheet.keep(&[(headway, 720)])?;
//! assert_eq!(sheet.value(crews), Some(22));
//! sheet.take_back()?;
//! assert_eq!(sheet.value(crews), Some(26));
//!
//! // 5. See what does not work, and why. A value that cannot be worked out is blank, and has a reason; a call that cannot
//! //    be done is refused, says why, and has changed nothing.
//! let closed = sheet.trial(&[(end, 25200)], &[final_trip], Route::MarkGuided)?;
//! assert_eq!((closed.value(0), closed.reason(0)), (None, Some(Reason::NoDepartures)));
//! let refused = sheet.keep(&[(headway, 72_000)]).unwrap_err();
//! assert_eq!(refused.to_string(), "refused 17 0: variable 2 may be from 60 to 7200, and 72000 is outside");
//! # Ok::<(), lukhandro::Refused>(())
//! ```
//!
//! # What else there is
//!
//! - [`builder`] has the nine formulas; [`Model::rows`] says what a row of a model is, [`Model::readers`] who reads a
//!   variable. [`Row`]s laid out by numbers build the same models.
//! - [`Model::read`] and [`Model::write`] are of model files of version 1, [`Model::read_bounded`] and
//!   [`Model::write_bounded`] of version 2, with bounds; [`to_version_2`] and [`to_version_1`] make one of the other.
//! - [`salvage`] saves what is whole and good in a damaged model file, and so does the command of that name.
//! - [`Model::trials`] tries many moves at once, and [`Model::figures`] shows a batch of them in figures, before any is
//!   kept; [`departures`] lists the departures of one trip's windows.
//! - [`frequencies`] reads and writes frequencies.txt of a GTFS feed: from an operator's bytes to windows, and with the
//!   board to every departure.
//! - [`Refused`] has a number, a place and a sentence, and a [`Cause`]: which of the alternatives of its number it was.
//! - [`lent`] has the same calls for callers who keep the buffers themselves.
//!
//! # Linking
//!
//! The proved library is found in the folder that `LUKHANDRO_STATICLIB` names, in the repository's own `target/staticlib`,
//! or where `pkg-config lukhandro` says. It has a number of its interface, [`INTERFACE`]: one of another number does not
//! link. It allocates nothing and calls nothing of the system.
//!
//! A thread that calls should have a stack of 2 MiB, as Rust's threads do. On the deepest models, chains and rings of 4,095
//! rows, a salvage takes 704 KiB of it, a build 592, a batch 560, a trial, a keep and a taking back 544 and a
//! departure board 160, measured on an x86-64 machine; no other call takes more than 128.
#![warn(missing_docs)]

#[cfg(not(target_arch = "x86_64"))]
compile_error!("lukhandro links the archive of the proved engine, which is for x86-64: build it for that processor");

mod boards;
pub mod builder;
mod cause;
mod figures;
pub mod frequencies;
pub mod lent;
mod model;
mod reason;
mod refused;
mod room;
mod row;
mod salvage;
pub mod sys;
mod tries;
mod versions;
mod words;

pub use boards::{BoardRefused, Window, departures};
pub use builder::{Builder, Movable, Variable};
pub use cause::Cause;
pub use figures::Figures;
pub use model::{Model, Trial};
pub use reason::Reason;
pub use refused::Refused;
pub use row::{Kind, Route, Row};
pub use salvage::{Salvage, salvage};
pub use tries::{TriedMove, Tries};
pub use versions::{to_version_1, to_version_2};

/// The number of the interface that this binding is written for. The archive that it links has the same: one of another
/// number has no function with this number in its name, and does not link.
pub const INTERFACE: u32 = 1;

/// The number of the interface that the archive says it has: [`INTERFACE`].
#[must_use]
pub fn interface() -> u32 {
    // SAFETY: the call takes nothing.
    unsafe { sys::lukhandro_interface() }
}

/// No value: the one 32-bit number that is no value of a variable.
pub const BLANK: i32 = i32::MIN;

/// The least number that a variable may have.
pub const LOWEST: i32 = -i32::MAX;

/// The greatest number that a variable may have.
pub const HIGHEST: i32 = i32::MAX;

/// Bounds that allow every number: those of a variable that a row makes.
pub const FULL: (i32, i32) = (LOWEST, HIGHEST);

/// The most variables of a model, and the most rows.
pub const MOST_VARIABLES: usize = 4096;

/// The most entries of a model.
pub const MOST_ENTRIES: usize = 16384;

/// The most bytes of a model file of version 1.
pub const MOST_BYTES: usize = 24 + 16 * MOST_VARIABLES + 4 * MOST_ENTRIES;

/// The most bytes of a model file of version 2.
pub const MOST_BYTES_BOUNDED: usize = MOST_BYTES + 4 + 8 * MOST_VARIABLES;

/// No pairs: a move that moves nothing.
pub const NOTHING_MOVED: &[(u16, i32)] = &[];

/// No variables: a trial that asks nothing.
pub const NOTHING_ASKED: &[u16] = &[];

/// The most inputs of a row.
pub const MOST_INPUTS: usize = 256;

/// The greatest coefficient, and its negative the least.
pub const MOST_COEFFICIENT: i32 = 1000;

/// The greatest parameter, and its negative the least.
pub const MOST_PARAMETER: i32 = 1_000_000_000;

/// The most pairs of a move.
pub const MOST_PAIRS: usize = 64;

/// The most kept moves that can be taken back.
pub const MOST_LOGGED: usize = 64;

/// The most variables that a trial may ask.
pub const MOST_ASKED: usize = 32;

/// The program of the crate's README is run as all examples are.
#[cfg(doctest)]
#[doc = include_str!("../README.md")]
pub struct Readme;
