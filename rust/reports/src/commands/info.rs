//! The command that says what a file holds.

use super::{Answer, Call, Surroundings};
use crate::failure::{Failure, DAMAGED};
use crate::log::{head, Finding};
use crate::store::Store;
use crate::words::in_threes;

/// Says what the file holds and whether it is sound. The log alone is read.
pub fn info(
    store: &mut Store,
    _call: &Call,
    _around: &mut Surroundings,
) -> Result<Answer, Failure> {
    store.keep()?;
    let mut answer = Answer::new();
    answer.push(format!("file\t{}", store.path().display()));
    answer.push(format!("bytes\t{}", store.length()?));
    let log = store.log();
    if log.end() > 0 {
        answer.push(format!("begun under change request\t{}", log.rules()));
        answer.push(format!("change request of this program\t{}", head::RULES));
    }
    answer.push(format!("reports\t{}", store.next() - 1));
    answer.push(format!("state\t{}", state(log.finding())));
    if store.check().is_err() {
        answer.exit = DAMAGED;
    }
    Ok(answer)
}

/// How the log ends, in words.
fn state(finding: Finding) -> String {
    match finding {
        Finding::Sound => "sound".to_string(),
        Finding::Torn { byte, bytes } => {
            let bytes = in_threes(bytes);
            format!("torn at byte {byte}: {bytes} bytes behind it were never answered")
        }
        Finding::Damaged { byte } => format!("damaged at byte {byte}"),
        Finding::Newer { byte } => format!("written by a newer reports from byte {byte} on"),
        Finding::Changed => "changed by another program since it was read".to_string(),
    }
}
