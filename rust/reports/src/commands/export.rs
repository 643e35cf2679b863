//! The command that prints all reports.

use super::show::unreadable;
use super::{Answer, Call, Surroundings};
use crate::failure::Failure;
use crate::store::Store;
use crate::words;

/// Prints all reports, one a line, or as frames one behind the other.
pub fn export(
    store: &mut Store,
    call: &Call,
    around: &mut Surroundings,
) -> Result<Answer, Failure> {
    let mut answer = Answer::new();
    if call.has("--frames") {
        if around.input.is_none() {
            let text = "frames are no lines: reports FILE export --frames prints them";
            return Err(Failure::Usage(text.to_string()));
        }
        store.frames().for_each(|frame| answer.text.extend(frame));
        return Ok(answer);
    }
    for (number, frame) in (1..).zip(store.frames()) {
        answer.push(words::report(frame).ok_or_else(|| unreadable(number))?);
    }
    Ok(answer)
}
