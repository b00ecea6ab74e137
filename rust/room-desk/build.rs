//! Finds the archive of the proved routines, or says which command makes it.

use std::env;
use std::path::{Path, PathBuf};

const ARCHIVE: &str = "libroom_desk.a";

fn main() {
    println!("cargo::rerun-if-env-changed=ROOM_DESK_LIB_DIR");
    let target = env::var("TARGET").unwrap_or_default();
    if !(target.starts_with("x86_64-") && target.contains("-linux-")) {
        println!(
            "cargo::error=the proved routines are compiled for x86-64 Linux, not for {target}"
        );
        return;
    }
    let folder = folder();
    let archive = folder.join(ARCHIVE);
    println!("cargo::rerun-if-changed={}", archive.display());
    if !archive.is_file() {
        println!(
            "cargo::error=no {}: run `rust/archive` at the repository's root (it proves the crates \
             first, which takes minutes), or set ROOM_DESK_LIB_DIR to the folder that has it",
            archive.display()
        );
        return;
    }
    println!("cargo::rustc-link-search=native={}", folder.display());
    println!("cargo::rustc-link-lib=static=room_desk");
}

fn folder() -> PathBuf {
    match env::var_os("ROOM_DESK_LIB_DIR") {
        Some(folder) => folder.into(),
        None => Path::new(env!("CARGO_MANIFEST_DIR")).join("../../target/product"),
    }
}
