//! Compares the stored vectors with those that the reference writes today.

use std::fs;
use std::path::{Path, PathBuf};

use reference::vectors;

/// What to run when a stored file differs.
const COMMAND: &str = "cargo run --release --offline --bin write-vectors -- ../crates/vectors";

/// The path of a stored file.
fn stored(name: &str) -> PathBuf {
    Path::new(env!("CARGO_MANIFEST_DIR"))
        .join("../../crates/vectors")
        .join(name)
}

/// Fails unless the stored file holds exactly `today`.
fn assert_stored(name: &str, today: &[u8]) {
    let path = stored(name);
    let advice = format!("run `{COMMAND}` in the folder that holds the workspace of the reference");
    let content = match fs::read(&path) {
        Ok(content) => content,
        Err(error) => panic!("cannot read {}: {error}; {advice}", path.display()),
    };
    if let Some(place) = first_difference(&content, today) {
        let path = path.display();
        panic!(
            "{path} differs from what the reference writes today, from byte {place} on; {advice}"
        );
    }
}

/// The first place at which two byte strings differ, or nothing if they are equal.
fn first_difference(one: &[u8], other: &[u8]) -> Option<usize> {
    if one == other {
        return None;
    }
    let equal = one
        .iter()
        .zip(other)
        .take_while(|(left, right)| left == right)
        .count();
    Some(equal)
}

#[test]
fn stored_questions_are_those_of_today() {
    assert_stored("stdin", &vectors::all_questions());
}

#[test]
fn stored_answers_are_those_of_today() {
    assert_stored("stdout", &vectors::all_answers());
}

#[test]
fn places_of_differences() {
    assert_eq!(first_difference(b"abc", b"abc"), None);
    assert_eq!(first_difference(b"abc", b"abd"), Some(2));
    assert_eq!(first_difference(b"ab", b"abc"), Some(2));
    assert_eq!(first_difference(b"", b"abc"), Some(0));
}
