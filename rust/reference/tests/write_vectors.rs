//! Runs the program `write-vectors` and looks at its files, its output and its status.

use std::fs;
use std::path::{Path, PathBuf};
use std::process::{Command, Output};

use reference::vectors;

/// An empty folder for one test.
fn empty_folder(name: &str) -> PathBuf {
    let folder = Path::new(env!("CARGO_TARGET_TMPDIR")).join(name);
    if folder.exists() {
        fs::remove_dir_all(&folder).expect("the folder of an earlier run can be removed");
    }
    fs::create_dir_all(&folder).expect("a folder can be made");
    folder
}

/// Runs the program with these arguments.
fn run(arguments: &[&Path]) -> Output {
    Command::new(env!("CARGO_BIN_EXE_write-vectors"))
        .args(arguments)
        .output()
        .expect("the program can be run")
}

/// Fails unless the program ended with status 2 and a message that holds `part`.
fn assert_fails(output: &Output, part: &str) {
    assert_eq!(output.status.code(), Some(2));
    let message = String::from_utf8_lossy(&output.stderr);
    assert!(message.contains(part), "message: {message}");
    assert!(output.stdout.is_empty());
}

/// The names in a folder, in order.
fn names(folder: &Path) -> Vec<String> {
    let entries = fs::read_dir(folder).expect("the folder can be read");
    let mut names: Vec<String> = entries
        .map(|entry| {
            entry
                .expect("an entry")
                .file_name()
                .to_string_lossy()
                .into_owned()
        })
        .collect();
    names.sort();
    names
}

/// Fails unless the folder has both files, with today's questions and answers, and nothing else.
fn assert_written(folder: &Path) {
    assert_eq!(names(folder), ["stdin", "stdout"]);
    assert_eq!(
        fs::read(folder.join("stdin")).expect("stdin"),
        vectors::all_questions()
    );
    assert_eq!(
        fs::read(folder.join("stdout")).expect("stdout"),
        vectors::all_answers()
    );
}

#[test]
fn both_files_are_written_and_named() {
    let folder = empty_folder("written");
    let output = run(&[&folder]);
    assert_eq!(output.status.code(), Some(0));
    assert_written(&folder);
    let text = String::from_utf8_lossy(&output.stdout);
    assert_eq!(text.lines().count(), 2, "text: {text}");
}

#[test]
fn files_that_are_there_are_replaced() {
    let folder = empty_folder("replaced");
    fs::write(folder.join("stdin"), b"old").expect("a file can be written");
    fs::write(folder.join("stdout"), b"old").expect("a file can be written");
    assert_eq!(run(&[&folder]).status.code(), Some(0));
    assert_written(&folder);
}

#[test]
fn exactly_one_argument_is_needed() {
    let folder = empty_folder("arguments");
    assert_fails(&run(&[]), "one argument is needed");
    assert_fails(&run(&[&folder, &folder]), "one argument is needed");
    assert!(names(&folder).is_empty());
}

#[test]
fn the_folder_must_be_there() {
    let folder = empty_folder("missing");
    assert_fails(&run(&[&folder.join("none")]), "cannot be used");
    assert!(names(&folder).is_empty());
}

#[test]
fn the_folder_must_be_a_folder() {
    let folder = empty_folder("file");
    let file = folder.join("file");
    fs::write(&file, b"old").expect("a file can be written");
    assert_fails(&run(&[&file]), "is not a folder");
    assert_eq!(fs::read(&file).expect("file"), b"old");
}

#[test]
fn a_place_taken_by_a_folder_stops_both_files() {
    let folder = empty_folder("taken");
    fs::write(folder.join("stdin"), b"old").expect("a file can be written");
    fs::create_dir(folder.join("stdout")).expect("a folder can be made");
    assert_fails(&run(&[&folder]), "is not a file");
    assert_eq!(names(&folder), ["stdin", "stdout"]);
    assert_eq!(fs::read(folder.join("stdin")).expect("stdin"), b"old");
}

#[test]
fn a_file_that_cannot_be_written_leaves_the_old_ones() {
    let folder = empty_folder("unwritable");
    fs::write(folder.join("stdin"), b"old").expect("a file can be written");
    fs::create_dir(folder.join("stdout.partial")).expect("a folder can be made");
    assert_fails(&run(&[&folder]), "cannot write");
    assert_eq!(names(&folder), ["stdin", "stdout.partial"]);
    assert_eq!(fs::read(folder.join("stdin")).expect("stdin"), b"old");
}
