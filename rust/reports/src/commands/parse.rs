//! Parting a command into its name, its words and its options.

use super::{Call, Command, COMMANDS};
use crate::failure::Failure;

/// The command that these words name, with its words and options.
pub fn parse(words: Vec<String>) -> Result<Call, Failure> {
    let mut words = words.into_iter();
    let none = || Failure::Usage("no command is named".to_string());
    let name = words.next().ok_or_else(none)?;
    let command = COMMANDS.iter().find(|command| command.name == name);
    let command = command.ok_or_else(|| {
        Failure::Usage(format!(
            "there is no command \"{}\"; --help lists them",
            name.escape_debug()
        ))
    })?;
    let call = part(command, words)?;
    if !command.words.contains(&call.words.len()) {
        return Err(Failure::Usage(format!("use: {}", command.usage())));
    }
    for option in command.options {
        if option.value.is_some() {
            call.number(option.name)?;
        }
    }
    Ok(call)
}

/// Parts options and words. Options begin with two dashes and may stand anywhere; behind `--` there
/// are none.
fn part(
    command: &'static Command,
    mut arguments: impl Iterator<Item = String>,
) -> Result<Call, Failure> {
    let mut call = Call {
        command,
        words: Vec::new(),
        options: Vec::new(),
    };
    while let Some(argument) = arguments.next() {
        if argument == "--" {
            call.words.extend(arguments);
            break;
        }
        if argument.starts_with("--") {
            let option = option(command, &argument, &mut arguments)?;
            call.options.push(option);
        } else {
            call.words.push(argument);
        }
    }
    Ok(call)
}

/// The option of this argument, and its value: the one behind its `=`, or else the next argument.
fn option(
    command: &'static Command,
    argument: &str,
    arguments: &mut impl Iterator<Item = String>,
) -> Result<(&'static str, String), Failure> {
    let (name, value) = match argument.split_once('=') {
        Some((name, value)) => (name, Some(value.to_string())),
        None => (argument, None),
    };
    let option = command.options.iter().find(|option| option.name == name);
    let option = option.ok_or_else(|| {
        let (name, usage) = (name.escape_debug(), command.usage());
        let command = command.name;
        Failure::Usage(format!("{name} is no option of {command}; use: {usage}"))
    })?;
    let value = match (option.value, value) {
        (None, None) => String::new(),
        (None, Some(_)) => return Err(Failure::Usage(format!("{name} takes no value"))),
        (Some(_), Some(value)) => value,
        (Some(_), None) => arguments
            .next()
            .ok_or_else(|| Failure::Usage(format!("{name} takes a number")))?,
    };
    Ok((option.name, value))
}
