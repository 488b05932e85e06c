//! How a program for x86-64 runs.

use std::path::Path;
use std::process::Command;

/// The kit's toolchain, and the folder of the C programs, as the build found and left them.
const KIT: &str = env!("SERVED_KIT");
const PROGRAMS: &str = env!("SERVED_PROGRAMS");

/// A C program of the build (`server`, `calls`, `model`, `headway` or `sheet`), ready to run: under the kit's loader, on
/// a stack of so many bytes, if it is told.
#[must_use]
pub fn program(name: &str, stack: Option<usize>) -> Command {
    command_for(&Path::new(PROGRAMS).join(name), stack)
}

/// Any program that the kit linked, ready to run in the same way.
#[must_use]
pub fn command_for(program: &Path, stack: Option<usize>) -> Command {
    let mut command = bare(Path::new(KIT), stack);
    command.arg("--library-path").arg(Path::new(KIT).join("lib")).arg(program);
    command
}

/// The loader alone, or by a shell that gives it its stack.
fn bare(kit: &Path, stack: Option<usize>) -> Command {
    let loader = kit.join("lib/ld-linux-x86-64.so.2");
    let Some(stack) = stack else {
        return Command::new(loader);
    };
    let mut command = Command::new("sh");
    command.arg("-c").arg(format!("ulimit -s {} && exec \"$0\" \"$@\"", stack / 1024)).arg(loader);
    command
}
