//! What a caller lends to a call, for what does without the proved engine: the file is the binding's own, which has no
//! dependency and so can be packed alone.
#![forbid(unsafe_code)]
#![warn(missing_docs)]

#[path = "../../lukhandro/src/words.rs"]
mod words;

pub use words::*;
