//! The command that makes a file.

use std::io::ErrorKind;

use super::{Answer, Call, Surroundings};
use crate::failure::Failure;
use crate::file::create;
use crate::log::head;
use crate::store::Store;

/// Makes the file, without a report. One that is there stays as it is.
pub fn new(store: &mut Store, _call: &Call, around: &mut Surroundings) -> Result<Answer, Failure> {
    if around.input.is_none() {
        let text = "new makes the file that the program is started with: reports FILE new";
        return Err(Failure::Usage(text.to_string()));
    }
    let path = store.path();
    create(path, &head::write(), None).map_err(|error| {
        let path = path.display();
        Failure::System(match error.kind() {
            ErrorKind::AlreadyExists => format!("{path} is there already, and stays as it is"),
            _ => format!("{path}: {error}"),
        })
    })?;
    Ok(Answer::new())
}
