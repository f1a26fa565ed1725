//! Finds libhost.a. It is x86-64 code; for another machine the crate compiles without it, and its calls say so when they are made.

use std::env;
use std::path::PathBuf;

const PLACE: &str = "KNOBSPINDLE_LIB_DIR";

fn refuse(why: &str) -> ! {
    eprintln!("knobspindle: {why}");
    eprintln!("libhost.a is built by `tools/library` in the root of Knobspindle's repository (it needs the Rattle kit);");
    eprintln!("{PLACE} says in which folder it stands, if not in target/staticlib there.");
    std::process::exit(1);
}

/// A build script runs in its package's folder. Where cargo was called is known by the shell's PWD alone, which cargo hands on.
fn from_where_cargo_was_called(folder: PathBuf) -> PathBuf {
    if folder.is_absolute() {
        return folder;
    }
    println!("cargo:rerun-if-env-changed=PWD");
    match env::var_os("PWD").map(PathBuf::from) {
        Some(stand) if stand.is_absolute() => stand.join(folder),
        _ => refuse(&format!("{PLACE} is {}, but from which folder is not known (no PWD): give an absolute path.", folder.display())),
    }
}

fn main() {
    println!("cargo:rerun-if-env-changed={PLACE}");
    if env::var("CARGO_CFG_TARGET_ARCH").as_deref() != Ok("x86_64") {
        println!("cargo:warning=libhost.a is x86-64 code: this build checks and documents the crate, and can call nothing");
        return;
    }
    let beside = || PathBuf::from(env::var_os("CARGO_MANIFEST_DIR").unwrap_or_default()).join("../../target/staticlib");
    let folder = env::var_os(PLACE).map_or_else(beside, |folder| from_where_cargo_was_called(folder.into()));
    let archive = folder.join("libhost.a");
    println!("cargo:rerun-if-changed={}", archive.display());
    if !archive.is_file() {
        refuse(&format!("{} is not there.", archive.display()));
    }
    println!("cargo:rustc-link-search=native={}", folder.display());
    println!("cargo:rustc-link-lib=static=host");
}
