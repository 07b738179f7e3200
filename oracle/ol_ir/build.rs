//! Brings in the Rust's own files from the folder of DECLOCK_RUST_SRC, unchanged. Two more copies are made at
//! build time, only for numbers that the Rust does not give out: `clocks_counted` counts the passes,
//! `declock_placed` notes the equation at work.
use std::{env, fs, path::PathBuf};

const FILES: [&str; 7] = ["types", "expr", "node", "project", "activation", "clocks", "declock"];

fn once(text: &str, old: &str, new: &str) -> String {
    assert_eq!(text.matches(old).count(), 1, "must stand exactly once: {old}");
    text.replacen(old, new, 1)
}

fn main() {
    println!("cargo:rerun-if-env-changed=DECLOCK_RUST_SRC");
    let here = PathBuf::from(env::var("CARGO_MANIFEST_DIR").unwrap());
    // A relative folder is taken from oracle/, the parent of this crate.
    let given = env::var("DECLOCK_RUST_SRC").unwrap_or_else(|_| "../../shared/docs/src".into());
    let folder = here.parent().unwrap().join(given);
    let folder = folder.canonicalize().unwrap_or_else(|e| panic!("DECLOCK_RUST_SRC: {}: {e}", folder.display()));
    let out = PathBuf::from(env::var("OUT_DIR").unwrap());

    let mut files = String::new();
    for name in FILES {
        let path = folder.join(format!("{name}.rs"));
        println!("cargo:rerun-if-changed={}", path.display());
        files += &format!("#[path = {:?}]\npub mod {name};\n", path);
    }

    let clocks = fs::read_to_string(folder.join("clocks.rs")).unwrap();
    let counted = once(&clocks, "let mut changed = false;", "crate::trace::pass(); let mut changed = false;");
    let path = out.join("clocks_counted.rs");
    fs::write(&path, counted).unwrap();
    files += &format!("#[path = {:?}]\npub mod clocks_counted;\n", path);

    let declock = fs::read_to_string(folder.join("declock.rs")).unwrap();
    let placed = once(
        &declock,
        "equations.push(cx.equation(eq, clock)?);",
        "crate::trace::equation(i); equations.push(cx.equation(eq, clock)?);",
    );
    let path = out.join("declock_placed.rs");
    fs::write(&path, placed).unwrap();
    files += &format!("#[path = {:?}]\npub mod declock_placed;\n", path);

    fs::write(out.join("files.rs"), files).unwrap();
}
