//! The proved engine behind a pipe, on the vectors.

use served::Served;

compare::vectors_of!(Served::start());
