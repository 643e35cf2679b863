//! Looks for SQLite, which the benchmark compares with where it is installed. Nothing else needs it.

use std::path::Path;

/// Where Debian and others put the library for linking.
const FOLDERS: [&str; 6] = [
    "/usr/lib/x86_64-linux-gnu",
    "/usr/lib/aarch64-linux-gnu",
    "/usr/lib64",
    "/usr/lib",
    "/usr/local/lib64",
    "/usr/local/lib",
];

fn main() {
    println!("cargo:rustc-check-cfg=cfg(sqlite)");
    println!("cargo:rerun-if-changed=build.rs");
    let found = FOLDERS
        .iter()
        .find(|folder| Path::new(folder).join("libsqlite3.so").exists());
    if let Some(folder) = found {
        println!("cargo:rustc-cfg=sqlite");
        println!("cargo:rustc-link-search=native={folder}");
        println!("cargo:rustc-link-lib=dylib=sqlite3");
    }
}
