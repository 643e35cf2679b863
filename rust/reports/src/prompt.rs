//! Commands at a prompt, from a person at a terminal.

use std::io::Write;

use crate::commands::{parse, Answer, Needs, Surroundings};
use crate::failure::{Failure, DONE};
use crate::help::help;
use crate::lines::{Line, Lines};
use crate::program::{begin, perform, print, tell_failure, Streams};
use crate::store::{tell, Store};
use crate::words::{in_threes, split};

/// What stands before each line.
const PROMPT: &str = "reports> ";

/// What a line asks for.
enum Asked {
    /// An answer.
    Answer(Answer),
    /// The end.
    End,
}

/// Answers commands until the input ends or is told to. A failure after which nothing can be answered
/// ends the program.
pub fn run(store: &mut Store, streams: &mut Streams) -> Result<u8, Failure> {
    begin(store, Needs::File, streams.errors)?;
    let held = in_threes(store.next() as u64 - 1);
    let state = store.check();
    store.end();
    tell(
        streams.errors,
        &format!("{held} reports; help lists the commands, quit ends"),
    );
    if let Err(failure) = state {
        tell_failure(&failure, streams.errors);
    }
    let mut lines = Lines::new(&mut *streams.input);
    loop {
        let _ = write!(streams.errors, "{PROMPT}");
        let _ = streams.errors.flush();
        let waiting = lines.waiting();
        let waiting = waiting
            .map_err(|error| Failure::Fatal(format!("standard input cannot be read: {error}")))?;
        if waiting.is_empty() {
            tell(streams.errors, "");
            return Ok(DONE);
        }
        for line in waiting {
            match answer(store, &line, streams.errors, streams.progress) {
                Ok(Asked::Answer(answer)) => {
                    print(streams.output, &answer)?;
                    tell_more(&answer, streams.errors);
                }
                Ok(Asked::End) => return Ok(DONE),
                Err(failure @ (Failure::Fatal(_) | Failure::Closed)) => return Err(failure),
                Err(failure) => tell_failure(&failure, streams.errors),
            }
        }
    }
}

/// Does what a line asks for.
fn answer(
    store: &mut Store,
    line: &Line,
    errors: &mut dyn Write,
    progress: bool,
) -> Result<Asked, Failure> {
    let Line::Text(line) = line else {
        return Err(Failure::Usage("the line is too long".to_string()));
    };
    let words = split(line)?;
    match words.first().map(String::as_str) {
        None => return Ok(Asked::Answer(Answer::new())),
        Some(word) if word.starts_with('#') => return Ok(Asked::Answer(Answer::new())),
        Some("help" | "--help") => return Ok(Asked::Answer(Answer::line(help()))),
        Some("quit" | "exit") => return Ok(Asked::End),
        Some(_) => {}
    }
    let call = parse(words)?;
    let mut around = Surroundings {
        input: None,
        errors,
        progress,
    };
    perform(store, &call, &mut around).map(Asked::Answer)
}

fn tell_more(answer: &Answer, errors: &mut dyn Write) {
    if let Some(from) = answer.more {
        tell(errors, &format!("more: --from {from}"));
    }
}
