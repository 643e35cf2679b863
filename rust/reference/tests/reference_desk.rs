//! Runs the program `reference-desk` and looks at its output and its status.

use std::io::Write;
use std::process::{Command, Output, Stdio};

use reference::compose::{query_frame, report_frame};
use reference::frames::Call;

/// Runs the program with this input.
fn run(input: &[u8]) -> Output {
    let mut program = Command::new(env!("CARGO_BIN_EXE_reference-desk"))
        .stdin(Stdio::piped())
        .stdout(Stdio::piped())
        .stderr(Stdio::piped())
        .spawn()
        .expect("the program can be run");
    let mut stdin = program.stdin.take().expect("an input");
    stdin.write_all(input).expect("the input can be written");
    drop(stdin);
    program.wait_with_output().expect("the program ends")
}

/// Fails unless the program ends well and writes exactly `text`.
fn assert_output(input: &[u8], text: &str) {
    let output = run(input);
    assert_eq!(output.status.code(), Some(0));
    assert_eq!(String::from_utf8_lossy(&output.stdout), text);
    assert!(output.stderr.is_empty());
}

/// The input of the example in document 01.
fn example() -> Vec<u8> {
    [
        report_frame(&[(b"zn", 3), (b"P17", 1)]),
        report_frame(&[(b"zn", 4)]),
        query_frame(Call::OneTerm, 0, &[b"zn"]),
        query_frame(Call::AllTerms, 0, &[b"zn", b"p17"]),
    ]
    .concat()
}

#[test]
fn the_example() {
    assert_output(&example(), "R 1\nR 2\nQ 1:3 2:4\nQ 1\n");
}

#[test]
fn no_input() {
    assert_output(&[], "");
}

#[test]
fn a_cut_frame_at_the_end() {
    let input = example();
    assert_output(&input[..input.len() - 1], "R 1\nR 2\nQ 1:3 2:4\nE 2\n");
}

#[test]
fn frames_after_an_overlong_one_are_not_read() {
    let input = [&[0x01, 0x10, 0x01][..], &example()].concat();
    assert_output(&input, "E 2\n");
}

#[test]
fn much_input() {
    let input = report_frame(&[]).repeat(50_000);
    let text: String = (1..=50_000).map(|number| format!("R {number}\n")).collect();
    assert_output(&input, &text);
}
