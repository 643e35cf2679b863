//! The command that saves what is sound of a damaged file.

use std::io::ErrorKind;
use std::path::Path;

use super::{Answer, Call, Surroundings};
use crate::failure::Failure;
use crate::log::{head, Finding, Log};
use crate::store::Store;
use crate::words::in_threes;

/// Writes the sound part to a new file: the head and all whole groups before the damage. The file
/// itself stays as it is.
pub fn recover(
    store: &mut Store,
    call: &Call,
    _around: &mut Surroundings,
) -> Result<Answer, Failure> {
    store.keep()?;
    let mut bytes = store.whole_file()?;
    let reports = match store.log().finding() {
        Finding::Damaged { byte: 0 } => mend_head(&mut bytes),
        Finding::Newer { .. } | Finding::Changed => None,
        _ => Some(keep_sound(&mut bytes, store.log())),
    };
    let Some(reports) = reports else {
        store.check()?;
        return Err(Failure::Nothing);
    };
    let path = Path::new(&call.words[0]);
    store.create_alike(path, &bytes).map_err(|error| {
        let path = path.display();
        Failure::System(match error.kind() {
            ErrorKind::AlreadyExists => format!("{path} is there already, and stays as it is"),
            _ => format!("{path}: {error}"),
        })
    })?;
    let reports = in_threes(reports as u64);
    Ok(Answer::line(format!(
        "{reports} reports in {}",
        path.display()
    )))
}

/// Leaves of these bytes what is sound of the log that was read from them; gives the number of reports.
fn keep_sound(bytes: &mut Vec<u8>, log: &Log) -> usize {
    bytes.truncate(log.end() as usize);
    log.frames().len()
}

/// Puts the right head in the place of a damaged one and leaves what is sound; gives the number of
/// reports. The CRC of the first record goes on from that of the head, and so tells which one is right.
fn mend_head(bytes: &mut Vec<u8>) -> Option<usize> {
    for rules in 0..=head::RULES {
        let head = head::write_under(rules);
        bytes.get_mut(..head::BYTES)?.copy_from_slice(&head);
        let mut log = Log::default();
        log.read_on(bytes);
        let newer = matches!(log.finding(), Finding::Newer { .. });
        if !newer && !log.frames().is_empty() {
            return Some(keep_sound(bytes, &log));
        }
    }
    None
}
