//! The command that takes a report.

use report_index::frame;

use super::{Answer, Call, Surroundings};
use crate::failure::Failure;
use crate::refused::Brought;
use crate::store::Store;
use crate::words;

/// Takes a report and gives its number.
pub fn report(
    store: &mut Store,
    call: &Call,
    _around: &mut Surroundings,
) -> Result<Answer, Failure> {
    let number = take(store, call)?;
    Ok(Answer::line(number.to_string()))
}

/// Has the report of this call judged and taken.
pub fn take(store: &mut Store, call: &Call) -> Result<u32, Failure> {
    let lines: Result<Vec<(Vec<u8>, u32)>, Failure> = (1..)
        .zip(&call.words)
        .map(|(place, word)| words::line(place, word))
        .collect();
    let lines = lines?;
    if let Some(expected) = call.number("--expect")? {
        let next = store.next();
        if expected as usize != next {
            let text = format!("the next number is {next}, not {expected}");
            return Err(Failure::rule(text));
        }
    }
    store.take(frame::report(&lines), Brought::Report(&lines))
}
