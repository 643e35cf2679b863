//! The commands that print one report.

use super::{Answer, Call, Surroundings};
use crate::failure::Failure;
use crate::store::Store;
use crate::words;

/// Prints the report with this number, as the line that takes it again.
pub fn show(store: &mut Store, call: &Call, _around: &mut Surroundings) -> Result<Answer, Failure> {
    let word = &call.words[0];
    let Some(number) = words::number(word) else {
        let word = word.escape_debug();
        return Err(Failure::Usage(format!(
            "show takes a number, and \"{word}\" is none"
        )));
    };
    Ok(Answer::line(line(store, number as usize)?))
}

/// Prints the number of the last report, a tab, and the line that takes it again.
pub fn last(
    store: &mut Store,
    _call: &Call,
    _around: &mut Surroundings,
) -> Result<Answer, Failure> {
    let number = store.next() - 1;
    Ok(Answer::line(format!("{number}\t{}", line(store, number)?)))
}

/// The line that takes this report again.
fn line(store: &Store, number: usize) -> Result<String, Failure> {
    let frame = number.checked_sub(1).and_then(|place| store.frame(place));
    let frame = frame.ok_or(Failure::Nothing)?;
    words::report(frame).ok_or_else(|| unreadable(number))
}

/// The failure where a held report cannot be told as text.
pub fn unreadable(number: usize) -> Failure {
    Failure::Refused {
        number: report_index::Refusal::Fields.number(),
        text: format!("the held report {number} has a field that runs past its end"),
    }
}
