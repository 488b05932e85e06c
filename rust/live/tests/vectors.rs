//! The proved engine, linked, on the vectors.

compare::vectors_of!(live::Proved);
