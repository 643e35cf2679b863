//! The commands. [`COMMANDS`] is the one table of them: help, man page and completion follow it.
//!
//! | module | what |
//! |---|---|
//! | [`table`] | the table |
//! | [`mod@parse`] | parting a command into words and options |
//! | [`new`] | new |
//! | [`report`] | report |
//! | [`list`] | find, all |
//! | [`show`] | show, last |
//! | [`import`] | import |
//! | [`export`] | export |
//! | [`info`] | info |
//! | [`verify`] | verify |
//! | [`recover`] | recover |
//!
//! A command gives an [`Answer`] or a [`Failure`]; who asked, whether a terminal or a pipe, decides
//! how they are told.

pub mod export;
pub mod import;
pub mod info;
pub mod list;
pub mod new;
pub mod parse;
pub mod recover;
pub mod report;
pub mod show;
pub mod table;
pub mod verify;

use std::io::{Read, Write};
use std::ops::RangeInclusive;

use crate::failure::{Failure, DONE};
use crate::store::Store;
use crate::words;

pub use parse::parse;
pub use table::COMMANDS;

/// A command, as the table has it.
#[derive(Debug)]
pub struct Command {
    /// Its name.
    pub name: &'static str,
    /// The words behind its name, as the help has them.
    pub arguments: &'static str,
    /// How many words it takes.
    pub words: RangeInclusive<usize>,
    /// Its options.
    pub options: &'static [Opt],
    /// What it does, in one line.
    pub help: &'static str,
    /// What it works on.
    pub needs: Needs,
    /// Does it.
    pub run: fn(&mut Store, &Call, &mut Surroundings) -> Result<Answer, Failure>,
}

/// An option.
#[derive(Debug)]
pub struct Opt {
    /// Its name, with the two dashes.
    pub name: &'static str,
    /// What its value is called, if it takes one.
    pub value: Option<&'static str>,
    /// What it does, in one line.
    pub help: &'static str,
}

/// What a command works on.
#[derive(Debug, Clone, Copy, PartialEq, Eq)]
pub enum Needs {
    /// No file that is there.
    NoFile,
    /// The file, even a damaged one.
    File,
    /// A log without damage.
    Log,
    /// A log without damage, to write to it.
    LogToWrite,
}

/// A command with its words and options.
#[derive(Debug)]
pub struct Call {
    /// The command.
    pub command: &'static Command,
    /// The words.
    pub words: Vec<String>,
    /// The options given, and their values.
    options: Vec<(&'static str, String)>,
}

/// What a command has around it, beside the store.
pub struct Surroundings<'a> {
    /// Standard input; none where it brings the commands themselves.
    pub input: Option<&'a mut dyn Read>,
    /// Standard error.
    pub errors: &'a mut dyn Write,
    /// Whether progress is shown on standard error.
    pub progress: bool,
}

/// The answer of a command that was done.
#[derive(Debug, Clone, Default, PartialEq, Eq)]
pub struct Answer {
    /// What it prints.
    pub text: Vec<u8>,
    /// How many lines that is.
    pub lines: usize,
    /// Where a list was cut: the report from which the rest begins.
    pub more: Option<u32>,
    /// The exit code.
    pub exit: u8,
}

impl Answer {
    /// An answer without a line.
    pub fn new() -> Answer {
        Answer {
            exit: DONE,
            ..Answer::default()
        }
    }

    /// An answer of one line.
    pub fn line(line: impl AsRef<str>) -> Answer {
        let mut answer = Answer::new();
        answer.push(line);
        answer
    }

    /// Puts a line behind the others.
    pub fn push(&mut self, line: impl AsRef<str>) {
        self.text.extend(line.as_ref().as_bytes());
        self.text.push(b'\n');
        self.lines += 1;
    }
}

impl Command {
    /// The command with its arguments, as the help has them.
    pub fn form(&self) -> String {
        format!("{} {}", self.name, self.arguments)
            .trim_end()
            .to_string()
    }

    /// The command with its arguments and options, on one line.
    pub fn usage(&self) -> String {
        let mut usage = self.form();
        for option in self.options {
            usage.push_str(&format!(" [{}]", option.usage()));
        }
        usage
    }
}

impl Opt {
    /// The option with its value, as the help has them.
    pub fn usage(&self) -> String {
        match self.value {
            Some(value) => format!("{} {value}", self.name),
            None => self.name.to_string(),
        }
    }
}

impl Call {
    /// Whether this option was given.
    pub fn has(&self, name: &str) -> bool {
        self.options.iter().any(|(option, _)| *option == name)
    }

    /// The number given with this option. Given twice, the last one holds.
    pub fn number(&self, name: &str) -> Result<Option<u32>, Failure> {
        let mut options = self.options.iter().rev();
        let Some((_, value)) = options.find(|(option, _)| *option == name) else {
            return Ok(None);
        };
        let number = words::number(value);
        let wrong = || Failure::Usage(format!("{name} takes a number, and \"{value}\" is none"));
        Ok(Some(number.ok_or_else(wrong)?))
    }
}
