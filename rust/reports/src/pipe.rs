//! Commands on a pipe, from another program: one a line, each with an answer of its own.
//!
//! | answer | to |
//! |---|---|
//! | `ok K` and K lines | a command that was done; `ok K+` where a list goes on |
//! | `none` | a command that found nothing |
//! | `refused N text` | a refusal, with the library's number; 0 where the rule is one of this program |
//!
//! Lines that wait are done together: the file is locked once and synced once, and they are answered
//! after that.

use std::io::Write;

use crate::commands::{parse, Answer, Call, Needs, Surroundings};
use crate::failure::{Failure, DONE, REFUSED, SYSTEM, USAGE};
use crate::help::{help, version};
use crate::lines::{Line, Lines, LONGEST_LINE};
use crate::program::{begin, print, run_call, Streams};
use crate::store::Store;
use crate::words::{in_threes, split};

/// What a line asks for.
enum Asked {
    /// A command.
    Call(Call),
    /// A text: nothing at all, for a blank line or one that begins with `#`.
    Text(Answer),
}

/// Answers commands until the input ends. The exit code is the highest of its lines' codes, where
/// nothing found is as good as done.
pub fn run(store: &mut Store, streams: &mut Streams) -> Result<u8, Failure> {
    let mut lines = Lines::new(&mut *streams.input);
    let mut exit = DONE;
    loop {
        let waiting = lines.waiting();
        let waiting = waiting
            .map_err(|error| Failure::Fatal(format!("standard input cannot be read: {error}")))?;
        if waiting.is_empty() {
            return Ok(exit);
        }
        let asked: Vec<Result<Asked, Failure>> = waiting.iter().map(ask).collect();
        let mut answers = Answers::default();
        let done = answer_all(store, asked, streams.errors, &mut answers);
        exit = exit.max(answers.exit);
        // What was answered before a failure is told all the same.
        print(streams.output, &answers.text)?;
        done?;
    }
}

/// What a line asks for.
fn ask(line: &Line) -> Result<Asked, Failure> {
    let Line::Text(line) = line else {
        let most = in_threes(LONGEST_LINE as u64);
        return Err(Failure::Usage(format!(
            "the line has more than {most} bytes"
        )));
    };
    let words = split(line)?;
    match words.first().map(String::as_str) {
        None => Ok(Asked::Text(Answer::new())),
        Some(word) if word.starts_with('#') => Ok(Asked::Text(Answer::new())),
        Some("--help") => Ok(Asked::Text(of_text(&help()))),
        Some("--version") => Ok(Asked::Text(of_text(&version()))),
        Some(_) => parse(words).map(Asked::Call),
    }
}

fn of_text(text: &str) -> Answer {
    let mut answer = Answer::new();
    text.lines().for_each(|line| answer.push(line));
    answer
}

/// Does what all of these lines ask for, with one lock and one sync.
fn answer_all(
    store: &mut Store,
    asked: Vec<Result<Asked, Failure>>,
    errors: &mut dyn Write,
    answers: &mut Answers,
) -> Result<(), Failure> {
    let needs = asked.iter().filter_map(|asked| match asked {
        Ok(Asked::Call(call)) => Some(call.command.needs),
        _ => None,
    });
    let needs: Vec<Needs> = needs.collect();
    if needs.contains(&Needs::LogToWrite) {
        begin(store, Needs::LogToWrite, errors)?;
    } else if !needs.is_empty() {
        begin(store, Needs::File, errors)?;
    }
    let done = asked
        .into_iter()
        .try_for_each(|asked| answers.push(answer(store, asked, errors)));
    let done = match done {
        Err(Failure::Fatal(_)) => done,
        _ => store.keep().and(done),
    };
    store.end();
    if matches!(done, Err(Failure::Fatal(_))) {
        // Some of what was taken may not be kept, and what is not kept is not answered.
        *answers = Answers::default();
    }
    done
}

/// Does what one line asks for.
fn answer(
    store: &mut Store,
    asked: Result<Asked, Failure>,
    errors: &mut dyn Write,
) -> Result<Answer, Failure> {
    let call = match asked? {
        Asked::Text(answer) => return Ok(answer),
        Asked::Call(call) => call,
    };
    let mut around = Surroundings {
        input: None,
        errors,
        progress: false,
    };
    run_call(store, &call, &mut around)
}

/// Answers to lines, not yet written.
#[derive(Default)]
struct Answers {
    text: Answer,
    /// The highest exit code of the lines.
    exit: u8,
}

impl Answers {
    /// Puts the answer to a line behind the others; a failure that ends the run goes on.
    fn push(&mut self, answer: Result<Answer, Failure>) -> Result<(), Failure> {
        match answer {
            Ok(answer) => {
                let more = if answer.more.is_some() { "+" } else { "" };
                self.text.push(format!("ok {}{more}", answer.lines));
                self.text.text.extend(answer.text);
                self.exit = self.exit.max(answer.exit);
            }
            Err(Failure::Nothing) => self.text.push(Failure::Nothing.to_string()),
            Err(Failure::Refused { number, text }) => self.refuse(number, &text, REFUSED),
            Err(Failure::Usage(text)) => self.refuse(0, &text, USAGE),
            Err(Failure::System(text)) => self.refuse(0, &text, SYSTEM),
            Err(failure) => return Err(failure),
        }
        Ok(())
    }

    fn refuse(&mut self, number: u8, text: &str, exit: u8) {
        let text = text.replace('\n', " ");
        self.text.push(format!("refused {number} {text}"));
        self.exit = self.exit.max(exit);
    }
}
