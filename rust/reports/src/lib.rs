//! A ledger of reports in a file, listed by the proved library: the program `reports`.
//!
//! The file, a log of accepted frames, is the ledger. The index is what a start and these frames leave
//! in the proved library: it is made anew at each run, so that nothing of it is ever stored or repaired.
//! What is not proved stands in two small places: [`words`] makes frames of text, and [`log`] keeps them.
//!
//! | module | what |
//! |---|---|
//! | [`program`] | what the program does with its arguments |
//! | [`prompt`], [`pipe`] | commands line by line, from a person or from a program |
//! | [`commands`] | the table of commands, and what each does |
//! | [`help`] | what `--help` and `--version` print |
//! | [`words`], [`lines`] | text: words, terms, counts, lines |
//! | [`refused`] | what a refusal is about |
//! | [`store`] | the reports of one file: reading on, taking, writing |
//! | [`index`] | the proved library's memory, as large as it has to be |
//! | [`frames`] | frames in memory, and the lines of one |
//! | [`log`] | the log: its bytes, its end, writing behind it |
//! | [`disk`], [`mod@file`] | where a log is kept; opening and locking a file, making a new one |
//! | [`failure`] | why a command was not done, and the exit codes |
//! | [`signals`] | one signal ignored; all `unsafe` stands there |

#![deny(unsafe_code)]
#![warn(missing_docs)]

pub mod commands;
pub mod disk;
pub mod failure;
pub mod file;
pub mod frames;
pub mod help;
pub mod index;
pub mod lines;
pub mod log;
pub mod pipe;
pub mod program;
pub mod prompt;
pub mod refused;
#[allow(unsafe_code)]
pub mod signals;
pub mod store;
pub mod words;
