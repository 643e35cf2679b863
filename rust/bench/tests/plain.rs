//! The yardstick meets the same rules as the proved library: it is brought the same drawn calls.

use bench::plain::PLAIN;
use differential::cases::run;

#[test]
fn plain_rust_and_reference() {
    let tally = run(PLAIN, 1, 1_000_000, |_| true).unwrap_or_else(|failure| panic!("{failure}"));
    assert_eq!(tally.never_met(), Vec::<String>::new());
}
