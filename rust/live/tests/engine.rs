//! The proved engine, linked: `LUKHANDRO_SEED` takes another seed.

compare::tests_of!(live::Proved, live::Proved);
