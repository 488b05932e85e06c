//! Random calls, answered by two implementations of the engine and compared byte by byte.
//!
//! A [`Case`] is one call with everything that is lent to it, each buffer between guard elements. An [`Engine`] answers
//! it in place. [`compare`] lets two engines answer the same case and compares the answers, the session record, every
//! element of every buffer, and the guards. [`run`] does so for as many random cases as it is told, from a seed, and
//! [`shrink`] makes a case on which two engines differ smaller. [`sessions`] keeps and takes back over long sessions,
//! [`reasons`] asks why values are blank, [`chains`] leads round closed chains, and [`salvages`] saves damaged files. [`versions`] reads and
//! writes files of version 2, and moves files from one version to the other. [`figures`] has batches of moves in
//! figures, [`trials`] many moves tried at once, [`boards`] departure boards, [`parts`] the inputs of rows, and [`frequencies`] reads and
//! writes frequencies.txt. [`guided`] makes calls of the bytes that a
//! fuzzer chooses. [`tests_of!`] is everything that an engine
//! must pass, besides the [`vectors`]: cases with the lines that must come out of them. [`merges`] has the figures of two
//! batches merged.
#![forbid(unsafe_code)]
#![warn(missing_docs)]

pub mod boards;
mod bounds;
mod case;
pub mod chains;
mod damage;
pub mod deep;
mod difference;
pub mod edges;
mod engine;
pub mod figures;
pub mod files;
pub mod frequencies;
pub mod fuzz;
mod guarded;
pub mod guided;
mod interlined;
mod logs;
pub mod merges;
mod models;
pub mod parts;
mod plan;
mod random;
pub mod reasons;
pub mod runs;
pub mod salvages;
pub mod sessions;
mod shrink;
pub mod takings;
mod tests;
pub mod trials;
pub mod vectors;
pub mod versions;

pub use bounds::{draw_bounds, move_outside, near_a_bound, within};
pub use case::{Answer, Call, Case};
pub use damage::{damage, lengthen, one_short, scramble, shorten};
pub use difference::{Difference, Side, agreed, compare};
pub use engine::{Calls, Engine, Second, Test};
pub use guarded::{Buffer, Element, Guarded};
pub use interlined::{any_interlined, has_closed_chain, interlined};
pub use logs::draw_log;
pub use models::{Row, Sizes, chain, model, model_of, of_rows, value};
pub use plan::{Tally, calls_on, draw_move, keep_of, run, seed, take_back_of, trial_of};
pub use random::Random;
pub use shrink::shrink;
pub use tests::{hold, random_calls};
