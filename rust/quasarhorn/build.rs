//! Finds the engine's archive, libboundary.a: in the folder named by QUASARHORN_ARCHIVE, or where `tests/archive` leaves it.

use std::env;
use std::fs;
use std::path::PathBuf;

fn main() {
    println!("cargo:rerun-if-env-changed=QUASARHORN_ARCHIVE");
    let here = PathBuf::from(env::var("CARGO_MANIFEST_DIR").unwrap());
    let folder = env::var("QUASARHORN_ARCHIVE").map_or_else(|_| here.join("../../target/staticlib"), PathBuf::from);
    let archive = folder.join("libboundary.a");
    println!("cargo:rerun-if-changed={}", archive.display());
    let bytes = match fs::read(&archive) {
        Ok(bytes) => bytes,
        Err(e) => {
            eprintln!("{}: {}", archive.display(), e);
            eprintln!("The engine's archive is made by `tests/archive` in the repository; QUASARHORN_ARCHIVE names its folder.");
            std::process::exit(1);
        }
    };
    println!("cargo:rustc-env=QUASARHORN_LINKED={}", archive.display());
    println!("cargo:rustc-link-search=native={}", folder.display());
    println!("cargo:rustc-link-lib=static=boundary");
    // An archive made before the call `qh_plan_replay` was there can still be linked, and then nothing asks for it.
    println!("cargo:rustc-check-cfg=cfg(has_replay)");
    let replay = b"qh_plan_replay";
    if bytes.windows(replay.len()).any(|w| w == replay) {
        println!("cargo:rustc-cfg=has_replay");
    }
}
