//! Compiles the C programs for x86-64 with the Rattle kit and links them with the archive that `tools/archive` writes:
//! in `target/staticlib` of the repository, or in the folder that `LUKHANDRO_STATICLIB` names. Nothing but the kit is
//! needed: its compiler, its linker, its C library.

use std::env;
use std::ffi::OsStr;
use std::path::{Path, PathBuf};
use std::process::{Command, exit};

/// The programs by name, from the root of the repository.
const PROGRAMS: [(&str, &str); 6] = [
    ("server", "rust/served/c/server.c"),
    ("calls", "rust/served/c/calls.c"),
    ("model", "rust/served/c/model.c"),
    ("headway", "examples/headway.c"),
    ("sheet", "examples/sheet.c"),
    ("timetable", "examples/timetable.c"),
];

fn main() {
    let repository = Path::new(env!("CARGO_MANIFEST_DIR")).join("../..");
    let folder = env::var_os("LUKHANDRO_STATICLIB").map_or(repository.join("target/staticlib"), PathBuf::from);
    let archive = folder.join("libcapi.a");
    println!("cargo::rerun-if-env-changed=LUKHANDRO_STATICLIB");
    println!("cargo::rerun-if-env-changed=PATH");
    for input in [archive.clone(), repository.join("include"), "c".into(), "build.rs".into()] {
        println!("cargo::rerun-if-changed={}", input.display());
    }
    if !archive.exists() {
        fail(&format!("{} is missing: `tools/archive` writes it", archive.display()));
    }
    let kit = kit();
    let programs = PathBuf::from(env::var_os("OUT_DIR").expect("cargo says where"));
    for (name, source) in PROGRAMS {
        let source = repository.join(source);
        println!("cargo::rerun-if-changed={}", source.display());
        let object = programs.join(name).with_extension("o");
        compile(&kit, &repository, &source, &object);
        link(&kit, &object, &archive, &programs.join(name));
    }
    println!("cargo::rustc-env=SERVED_KIT={}", kit.display());
    println!("cargo::rustc-env=SERVED_PROGRAMS={}", programs.display());
}

/// The toolchain of the kit whose `rt` is on the PATH.
fn kit() -> PathBuf {
    let Some(home) = home() else {
        fail("rt is not on the PATH: install the Rattle kit, and put its folder bin/ on the PATH");
    };
    let kit = home.join("toolchain");
    if !kit.join("bin/clang").exists() {
        fail(&format!("{} has no compiler: the rt on the PATH is to be that of a whole Rattle kit", kit.display()));
    }
    kit
}

fn home() -> Option<PathBuf> {
    let rt = env::split_paths(&env::var_os("PATH")?).map(|folder| folder.join("rt")).find(|rt| rt.is_file())?;
    Some(rt.canonicalize().ok()?.parent()?.parent()?.to_path_buf())
}

fn compile(kit: &Path, repository: &Path, source: &Path, object: &Path) {
    let mut clang = Command::new(kit.join("bin/clang"));
    clang.args(["--target=x86_64-unknown-linux-gnu", "-std=c99", "-O2", "-fPIE"]);
    clang.args(["-Wall", "-Wextra", "-Wpedantic", "-Wconversion", "-Werror"]);
    clang.args(["-nostdinc", "-Ic/libc", "-I"]).arg(repository.join("include"));
    succeed(clang.arg("-c").arg(source).arg("-o").arg(object), source.as_os_str());
}

fn link(kit: &Path, object: &Path, archive: &Path, program: &Path) {
    let library = |name: &str| kit.join("lib").join(name);
    let mut linker = Command::new(kit.join("bin/ld.lld"));
    linker.args(["-pie", "-dynamic-linker"]).arg(library("ld-linux-x86-64.so.2"));
    linker.args(["Scrt1.o", "crti.o", "crtbeginS.o"].map(library)).arg(object).arg(archive);
    linker.args(["libc.so.6", "libc_nonshared.a", "libgcc.a", "crtendS.o", "crtn.o"].map(library));
    succeed(linker.arg("-o").arg(program), archive.as_os_str());
}

/// Runs a command of the kit, and ends the build with what it says if it fails.
fn succeed(command: &mut Command, input: &OsStr) {
    match command.output() {
        Ok(output) if output.status.success() => {}
        Ok(output) => fail(&format!("{}: {}", input.display(), String::from_utf8_lossy(&output.stderr))),
        Err(error) => fail(&format!("{}: {error}", command.get_program().display())),
    }
}

/// Ends the build with a message.
fn fail(message: &str) -> ! {
    for line in message.lines() {
        println!("cargo::error={line}");
    }
    exit(1);
}
