//! What libFuzzer calls: the proved engine beside the second implementation on the bytes that coverage chose. It is
//! compiled into a static library, which `tools/fuzz` links with libFuzzer; `LUKHANDRO_FUZZ` names the target.

use std::slice;
use std::sync::OnceLock;

use compare::guided::{TARGETS, Target};

use crate::live::Proved;

// the crate itself compiles C programs with the archive, which has counters here that they know nothing of
#[path = "../../live/src/lib.rs"]
mod live;

/// The target that the environment names.
static TARGET: OnceLock<Target> = OnceLock::new();

/// Lets both answer the bytes. A difference is a panic, which no caller in C can take: it ends the program.
///
/// # Safety
/// The pointer leads to as many bytes as it says.
#[unsafe(no_mangle)]
pub unsafe extern "C" fn LLVMFuzzerTestOneInput(bytes: *const u8, length: usize) -> i32 {
    let (_, answer) = TARGET.get_or_init(named);
    // SAFETY: libFuzzer lends so many bytes for this call; none are at no place.
    let bytes = if length == 0 { &[] } else { unsafe { slice::from_raw_parts(bytes, length) } };
    answer(&Proved, bytes);
    0
}

fn named() -> Target {
    let name = std::env::var("LUKHANDRO_FUZZ").unwrap_or_default();
    let target = TARGETS.iter().find(|(target, _)| *target == name);
    *target.unwrap_or_else(|| panic!("LUKHANDRO_FUZZ names no target: {name:?}"))
}
