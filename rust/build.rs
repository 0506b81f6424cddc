//! Asks `make` for the archive of the Rattle crate `silberlaus`, which `rt` makes from proved code only, and links a copy of it: make leaves an
//! archive alone that is newer than the crates, and a copy that nobody else writes does not make cargo run this again.

use std::env;
use std::fs;
use std::path::PathBuf;
use std::process::Command;

const ARCHIVE: &str = "target/staticlib/libsilberlaus.a";

fn main() {
    let here = PathBuf::from(env::var_os("CARGO_MANIFEST_DIR").expect("cargo names the crate's folder"));
    let room = PathBuf::from(env::var_os("OUT_DIR").expect("cargo names a folder for what is built"));
    let repository = here.parent().expect("the crate stands in the repository").to_path_buf();
    let made =
        Command::new("make").args(["-s", ARCHIVE]).current_dir(&repository).output().expect("make is on the path");
    if !made.status.success() {
        panic!(
            "make {ARCHIVE} ended with {}:\n{}{}",
            made.status,
            String::from_utf8_lossy(&made.stdout),
            String::from_utf8_lossy(&made.stderr)
        );
    }
    fs::copy(repository.join(ARCHIVE), room.join("libsilberlaus.a")).expect("the archive can be copied");
    println!("cargo::rustc-link-search=native={}", room.display());
    println!("cargo::rustc-link-lib=static=silberlaus");
    for part in ["crates.txt", "crates"] {
        println!("cargo::rerun-if-changed={}", repository.join(part).display());
    }
}
