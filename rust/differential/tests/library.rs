//! The proved library against the reference and the plain ledger, over drawn calls from fixed seeds.
//!
//! The program `differential` runs as many other seeds as one likes.

use differential::calls::LIBRARY;
use differential::cases::{run, Kind};

/// The proved library and the reference: every answer and all memory, also on damaged memory. Each
/// refusal must be met for each call that can give it.
#[test]
fn library_and_reference() {
    let tally = run(LIBRARY, 1, 8_000_000, |kind| !kind.has_ledger());
    let tally = tally.unwrap_or_else(|failure| panic!("{failure}"));
    println!("{}", tally.text());
    assert_eq!(tally.never_met(), Vec::<String>::new());
}

/// Demand 3 in compiled code: the proved library and the plain ledger over lists of calls from a
/// start.
#[test]
fn library_and_ledger() {
    let tally = run(LIBRARY, 1, 3_000_000, Kind::has_ledger);
    let tally = tally.unwrap_or_else(|failure| panic!("{failure}"));
    println!("{}", tally.text());
    assert_eq!(tally.wrong_from_a_start(), Vec::<String>::new());
}
