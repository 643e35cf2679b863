//! A second implementation of parts of document 01, written from the document alone.
//!
//! It exists to be compared with the first implementation. It therefore takes the most direct form
//! of each rule, even where another form would be faster: decoding, for one, compares the bytes
//! with those that coding would write.
//!
//! | module | section of document 01 |
//! |---|---|
//! | [`postings`] | "Coding a posting" |
//! | [`terms`] | the rules on terms in "Frames", and the hash of "Finding a term" |
//! | [`frames`] | "Frames", and the rows Frame and Terms of "Where each refusal is checked" |
//! | [`blocks`] | "Blocks": the fields, and writing a posting |
//! | [`chains`] | "Blocks": reading a chain, and its damage |
//! | [`lookup`] | "Finding a term", and its damage |
//! | [`index`] | "Memory lent to the index", "Taking a report, listing reports", and refusals 8 to 13 |
//! | [`ledger`] | "The plain ledger of demand 3" |
//! | [`desk`] | "The desk program" |
//! | [`compose`] | none: making frames for questions and tests |
//! | [`draws`] | none: drawn numbers for questions and tests |
//! | [`drawn_calls`] | none: drawn calls for tests |
//! | [`vectors`] | none: questions for both implementations, and answers |
//!
//! The program `write-vectors` stores the questions and answers in two files, `stdin` and `stdout`.
//! The program `reference-desk` is the desk program.

#![forbid(unsafe_code)]
#![warn(missing_docs)]

pub mod blocks;
pub mod chains;
pub mod compose;
pub mod desk;
pub mod drawn_calls;
pub mod draws;
pub mod frames;
pub mod index;
pub mod ledger;
pub mod lookup;
pub mod postings;
pub mod terms;
pub mod vectors;
