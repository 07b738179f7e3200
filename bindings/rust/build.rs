//! Finds libdeclock_library.a: in the folder that DECLOCK_LIB_DIR names, else where `rt lib` leaves it.
use std::env;
use std::path::{Path, PathBuf};

const ARCHIVE: &str = "libdeclock_library.a";

/// The folder with the archive.
fn folder() -> PathBuf {
    match env::var_os("DECLOCK_LIB_DIR") {
        Some(dir) => PathBuf::from(dir),
        None => Path::new(env!("CARGO_MANIFEST_DIR")).join("../../crates/declock_library/out"),
    }
}

fn main() {
    let folder = folder();
    let archive = folder.join(ARCHIVE);
    println!("cargo:rerun-if-env-changed=DECLOCK_LIB_DIR");
    println!("cargo:rerun-if-changed={}", archive.display());
    if !archive.exists() {
        eprintln!(
            "{} is missing: run `rt lib` in crates/declock_library, or set DECLOCK_LIB_DIR",
            archive.display()
        );
        std::process::exit(1);
    }
    println!("cargo:rustc-link-search=native={}", folder.display());
    println!("cargo:rustc-link-lib=static=declock_library");
}
