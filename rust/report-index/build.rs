//! Finds the proved library, `libindex.a`, and has it linked.
//!
//! It is looked for in the folder that REPORT_INDEX_LIB_DIR names; where that variable is not set,
//! in `target/staticlib` of the repository. The prover makes it in `crates/index_c`, and the gate copies
//! it from there (`.ci/run`); `MAKE` is the line that does both by hand.

use std::env;
use std::path::{Path, PathBuf};
use std::process::exit;

/// The variable that names another folder for the library.
const FOLDER: &str = "REPORT_INDEX_LIB_DIR";

/// The file that is linked.
const LIBRARY: &str = "libindex.a";

/// What makes it, in the repository's folder.
const MAKE: &str = "(cd crates/index_c && rt lib) && \
    install -D -m 644 crates/index_c/out/libindex_c.a target/staticlib/libindex.a";

fn main() {
    refuse_other_machines();
    let folder = folder();
    let library = folder.join(LIBRARY);
    println!("cargo:rerun-if-env-changed={FOLDER}");
    println!("cargo:rerun-if-changed={}", library.display());
    if !library.is_file() {
        eprintln!("{} is missing.", library.display());
        eprintln!("To prove and make it, run this in the repository's folder:");
        eprintln!("{MAKE}");
        eprintln!("If it stands elsewhere, set {FOLDER} to the folder that holds it.");
        exit(1);
    }
    println!("cargo:rustc-link-search=native={}", folder.display());
    println!("cargo:rustc-link-lib=static=index");
}

/// The prover makes the library for Linux on x86-64 alone.
fn refuse_other_machines() {
    let word = |name| env::var(name).unwrap_or_default();
    let (machine, system) = (word("CARGO_CFG_TARGET_ARCH"), word("CARGO_CFG_TARGET_OS"));
    if (machine.as_str(), system.as_str()) != ("x86_64", "linux") {
        eprintln!(
            "report-index is built for {system} on {machine} here, and the proved library is made"
        );
        eprintln!("for linux on x86_64 alone.");
        exit(1);
    }
}

/// The folder in which the library is looked for.
fn folder() -> PathBuf {
    if let Some(folder) = env::var_os(FOLDER) {
        return PathBuf::from(folder);
    }
    let crate_folder = env::var_os("CARGO_MANIFEST_DIR").expect("cargo names the crate's folder");
    Path::new(&crate_folder).join("../../target/staticlib")
}
