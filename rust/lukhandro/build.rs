//! Links the archive of the proved engine: in the folder that the environment variable `LUKHANDRO_STATICLIB` names; else in
//! `target/staticlib` of the repository, where `tools/archive` writes it; else where `pkg-config` says that the library
//! is installed. An archive of another interface than the binding's is noticed by the linker, which finds no function with
//! the binding's number in its name.

use std::env;
use std::path::{Path, PathBuf};
use std::process::Command;

/// The names under which the archive is found: as the repository writes it, and as it is installed.
const NAMES: [&str; 2] = ["capi", "lukhandro"];

fn main() {
    println!("cargo::rerun-if-env-changed=LUKHANDRO_STATICLIB");
    println!("cargo::rerun-if-env-changed=PKG_CONFIG_PATH");
    let repository = Path::new(env!("CARGO_MANIFEST_DIR")).join("../..");
    let named = env::var_os("LUKHANDRO_STATICLIB").map(PathBuf::from);
    let own = repository.join("crates.txt").exists().then(|| repository.join("target/staticlib"));
    let Some(folder) = named.or(own).or_else(installed) else {
        println!(
            "cargo::error=the library is not found: install it so that `pkg-config lukhandro` finds it, or name the"
        );
        println!("cargo::error=folder of liblukhandro.a by the environment variable LUKHANDRO_STATICLIB");
        return;
    };
    let archive = |name: &str| folder.join(format!("lib{name}.a"));
    let name = NAMES.into_iter().find(|name| archive(name).exists()).unwrap_or_else(|| {
        println!("cargo::warning={} is missing: `tools/archive` writes it", archive(NAMES[0]).display());
        NAMES[0]
    });
    println!("cargo::rerun-if-changed={}", archive(name).display());
    println!("cargo::rustc-link-search=native={}", folder.display());
    println!("cargo::rustc-link-lib=static={name}");
}

/// Where the library is installed.
fn installed() -> Option<PathBuf> {
    let asked = Command::new("pkg-config").args(["--variable=libdir", "lukhandro"]).output().ok()?;
    let folder = String::from_utf8(asked.stdout).ok()?;
    Some(PathBuf::from(folder.trim())).filter(|_| asked.status.success())
}
