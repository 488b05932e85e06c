//! The proved engine behind a pipe: `LUKHANDRO_SEED` takes another seed.

use compare::deep::STACK;
use served::Served;

compare::tests_of!(Served::start(), Served::start_on(STACK));
