//! Why a command did not do what it was told, and the exit code of each reason.

use std::fmt;
use std::io;

/// Why a command did not do what it was told.
#[derive(Debug, Clone, PartialEq, Eq)]
pub enum Failure {
    /// Nothing was found.
    Nothing,
    /// The command was not understood.
    Usage(String),
    /// A rule forbids it.
    Refused {
        /// The number of the library's refusal; 0 where the rule is one of this program.
        number: u8,
        /// The word it is about, and the rule.
        text: String,
    },
    /// The log is damaged, or only a later program knows it.
    Damaged(String),
    /// The system did not do what this command needs. Others may still work.
    System(String),
    /// The system did not do what every command needs, or it is not certain what is kept.
    Fatal(String),
    /// Nobody reads the answers any more.
    Closed,
}

/// The exit code of a command that was done.
pub const DONE: u8 = 0;

/// The exit code where nothing was found.
pub const NOTHING: u8 = 1;

/// The exit code of a command that was not understood.
pub const USAGE: u8 = 2;

/// The exit code of a refusal.
pub const REFUSED: u8 = 3;

/// The exit code of a damaged file.
pub const DAMAGED: u8 = 4;

/// The exit code where the system failed.
pub const SYSTEM: u8 = 5;

impl Failure {
    /// A refusal by a rule of this program.
    pub fn rule(text: impl Into<String>) -> Failure {
        let text = text.into();
        Failure::Refused { number: 0, text }
    }

    /// The program's exit code.
    pub fn exit(&self) -> u8 {
        match self {
            Failure::Closed => DONE,
            Failure::Nothing => NOTHING,
            Failure::Usage(_) => USAGE,
            Failure::Refused { .. } => REFUSED,
            Failure::Damaged(_) => DAMAGED,
            Failure::System(_) | Failure::Fatal(_) => SYSTEM,
        }
    }

    /// The failure of writing an answer.
    pub fn of_output(error: io::Error) -> Failure {
        match error.kind() {
            io::ErrorKind::BrokenPipe => Failure::Closed,
            _ => Failure::Fatal(format!("the answer cannot be written: {error}")),
        }
    }
}

impl fmt::Display for Failure {
    fn fmt(&self, text: &mut fmt::Formatter<'_>) -> fmt::Result {
        match self {
            Failure::Nothing => write!(text, "none"),
            Failure::Refused {
                number: 0,
                text: why,
            } => write!(text, "refused: {why}"),
            Failure::Refused { number, text: why } => write!(text, "refused ({number}): {why}"),
            Failure::Usage(why)
            | Failure::Damaged(why)
            | Failure::System(why)
            | Failure::Fatal(why) => write!(text, "{why}"),
            Failure::Closed => write!(text, "nobody reads the answers"),
        }
    }
}
