//! What the program does with its arguments.

use std::ffi::{OsStr, OsString};
use std::io::{Read, Write};
use std::path::Path;
use std::time::Duration;

use crate::commands::{parse, Answer, Call, Needs, Surroundings};
use crate::failure::{Failure, DONE};
use crate::file::Access;
use crate::help::{help, version, USE};
use crate::store::{tell, Settings, Store};
use crate::{pipe, prompt};

/// Where the program reads and writes.
pub struct Streams<'a> {
    /// Standard input.
    pub input: &'a mut dyn Read,
    /// Standard output.
    pub output: &'a mut dyn Write,
    /// Standard error.
    pub errors: &'a mut dyn Write,
    /// Whether standard input is a terminal.
    pub at_terminal: bool,
    /// Whether progress is shown on standard error.
    pub progress: bool,
}

/// The arguments, with the program's own options taken out.
struct Arguments {
    settings: Settings,
    /// The text that was asked for instead of a command.
    text: Option<String>,
    /// The file, the command and its words.
    rest: Vec<OsString>,
}

/// Runs the program and gives its exit code.
pub fn run(arguments: &[OsString], streams: &mut Streams) -> u8 {
    match try_run(arguments, streams) {
        Ok(exit) => exit,
        Err(failure) => {
            tell_failure(&failure, streams.errors);
            failure.exit()
        }
    }
}

fn try_run(arguments: &[OsString], streams: &mut Streams) -> Result<u8, Failure> {
    let arguments = Arguments::read(arguments)?;
    if let Some(text) = arguments.text {
        print(streams.output, &Answer::line(text))?;
        return Ok(DONE);
    }
    let Some((file, words)) = arguments.rest.split_first() else {
        return Err(Failure::Usage(format!("{USE}\n--help lists the commands")));
    };
    let mut store = Store::new(Path::new(file), arguments.settings);
    if words.is_empty() {
        return match streams.at_terminal {
            true => prompt::run(&mut store, streams),
            false => pipe::run(&mut store, streams),
        };
    }
    let words: Result<Vec<String>, Failure> = words.iter().map(|word| text_of(word)).collect();
    let call = parse(words?)?;
    let mut around = Surroundings {
        input: Some(&mut *streams.input),
        errors: &mut *streams.errors,
        progress: streams.progress,
    };
    let answer = perform(&mut store, &call, &mut around)?;
    print(streams.output, &answer)?;
    if let Some(from) = answer.more {
        tell(streams.errors, &format!("more: --from {from}"));
    }
    Ok(answer.exit)
}

impl Arguments {
    /// Takes the program's own options out, wherever they stand before a `--`.
    fn read(arguments: &[OsString]) -> Result<Arguments, Failure> {
        let mut read = Arguments {
            settings: Settings::default(),
            text: None,
            rest: Vec::new(),
        };
        let mut arguments = arguments.iter();
        while let Some(argument) = arguments.next() {
            if argument == "--" {
                // Before the file it belongs to the program, behind it to the command.
                let own = read.rest.is_empty();
                read.rest.extend((!own).then(|| argument.clone()));
                read.rest.extend(arguments.cloned());
                break;
            }
            match argument.to_str().map(part_option) {
                Some(("--help", None)) => read.text = Some(help()),
                Some(("--version", None)) => read.text = Some(version()),
                Some(("--wait", value)) => {
                    read.settings.wait = seconds(value_of("--wait", value, &mut arguments)?)?;
                }
                Some(("--memory", value)) => {
                    read.settings.memory = bytes(value_of("--memory", value, &mut arguments)?)?;
                }
                Some((option, _)) if option.starts_with('-') && read.rest.is_empty() => {
                    return Err(Failure::Usage(format!(
                        "there is no option {option}\n{USE}"
                    )));
                }
                _ => read.rest.push(argument.clone()),
            }
        }
        Ok(read)
    }
}

/// An option's name and the value behind its `=`, if there is one.
fn part_option(argument: &str) -> (&str, Option<&str>) {
    match argument.split_once('=') {
        Some((name, value)) => (name, Some(value)),
        None => (argument, None),
    }
}

/// The value of an option: the one behind its `=`, or else the next argument.
fn value_of<'a>(
    name: &str,
    value: Option<&'a str>,
    arguments: &mut impl Iterator<Item = &'a OsString>,
) -> Result<&'a str, Failure> {
    let next = || arguments.next().and_then(|value| value.to_str());
    let missing = || Failure::Usage(format!("{name} takes a value"));
    value.or_else(next).ok_or_else(missing)
}

/// A number of seconds, such as 5 or 0.5.
fn seconds(value: &str) -> Result<Duration, Failure> {
    let wrong = || Failure::Usage(format!("--wait takes seconds, and \"{value}\" is none"));
    let plain = value.bytes().all(|byte| matches!(byte, b'0'..=b'9' | b'.'));
    let seconds: f64 = plain
        .then(|| value.parse().ok())
        .flatten()
        .ok_or_else(wrong)?;
    Duration::try_from_secs_f64(seconds).map_err(|_| wrong())
}

/// A number of bytes, such as 1000000, 512M or 2G.
fn bytes(value: &str) -> Result<u64, Failure> {
    let wrong = || Failure::Usage(format!("--memory takes bytes, and \"{value}\" is none"));
    let (digits, shift) = match value.char_indices().last() {
        Some((end, 'k' | 'K')) => (&value[..end], 10),
        Some((end, 'm' | 'M')) => (&value[..end], 20),
        Some((end, 'g' | 'G')) => (&value[..end], 30),
        _ => (value, 0),
    };
    let plain = digits.bytes().all(|byte| byte.is_ascii_digit());
    let number: Option<u64> = plain.then(|| digits.parse().ok()).flatten();
    number
        .and_then(|number| number.checked_mul(1 << shift))
        .ok_or_else(wrong)
}

fn text_of(word: &OsStr) -> Result<String, Failure> {
    let text = word.to_str().map(str::to_string);
    text.ok_or_else(|| Failure::Usage(format!("{} is not UTF-8", word.display())))
}

/// Does one command: the file is locked from reading on until what was taken is kept.
pub fn perform(
    store: &mut Store,
    call: &Call,
    around: &mut Surroundings,
) -> Result<Answer, Failure> {
    begin(store, call.command.needs, around.errors)?;
    let done = run_call(store, call, around);
    let kept = match done {
        Ok(_) => store.keep(),
        Err(_) => Ok(()),
    };
    store.end();
    kept.and(done)
}

/// Opens the file, as far as a command needs it.
pub fn begin(store: &mut Store, needs: Needs, errors: &mut dyn Write) -> Result<(), Failure> {
    match needs {
        Needs::NoFile => Ok(()),
        Needs::File | Needs::Log => store.begin(Access::Read, errors),
        Needs::LogToWrite => store.begin(Access::Write, errors),
    }
}

/// Runs a command on the file that is open, if this is sound enough for it.
pub fn run_call(
    store: &mut Store,
    call: &Call,
    around: &mut Surroundings,
) -> Result<Answer, Failure> {
    if matches!(call.command.needs, Needs::Log | Needs::LogToWrite) {
        store.check()?;
    }
    (call.command.run)(store, call, around)
}

/// Prints an answer.
pub fn print(output: &mut dyn Write, answer: &Answer) -> Result<(), Failure> {
    let printed = output.write_all(&answer.text);
    let flushed = printed.and_then(|()| output.flush());
    flushed.map_err(Failure::of_output)
}

/// Tells on standard error why a command was not done. Where nobody reads the answers, nobody is told.
pub fn tell_failure(failure: &Failure, errors: &mut dyn Write) {
    if *failure != Failure::Closed {
        tell(errors, &failure.to_string());
    }
}
