//! The proved library, plain Rust and SQLite FTS5 side by side. `docs/BENCHMARKS.md` says what is
//! measured and what was found.
//!
//! | module | what |
//! |---|---|
//! | [`workload`] | the reports and queries that are measured |
//! | [`plain`] | the four calls in plain Rust, written for speed |
//! | [`plot`] | a plot of the figures |
//! | [`memory`] | the memory of an index, lent to the proved library and to plain Rust in turns |
//! | [`links`] | the links of chains, followed alone |
//! | [`fts`] | FTS5 on the same workload, where SQLite is installed |
//! | `sqlite` | the C functions of SQLite; all `unsafe` stands there |
//! | [`rounds`] | rounds on a clock |
//!
//! The program `bench-reports` measures the program `reports` on a large file.

#![deny(unsafe_code)]
#![warn(missing_docs)]

#[cfg(sqlite)]
pub mod fts;
#[cfg(not(sqlite))]
#[path = "no_fts.rs"]
pub mod fts;
pub mod links;
pub mod memory;
pub mod plain;
pub mod plot;
pub mod rounds;
#[cfg(sqlite)]
#[allow(unsafe_code)]
mod sqlite;
pub mod workload;
