//! The desk program against the reference's desk, over drawn and hostile input.
//!
//! The program is the one that `rt ci`, or `rt run` in `crates/desk`, proves and links. REPORT_INDEX_DESK
//! may name another.

use std::env;
use std::io::{ErrorKind, Write};
use std::path::{Path, PathBuf};
use std::process::{Command, Output, Stdio};
use std::thread;

use reference::drawn_calls::{DrawnCall, Source};
use reference::draws::Draws;

/// The variable that names another program.
const PROGRAM: &str = "REPORT_INDEX_DESK";

/// How many inputs are drawn.
const INPUTS: u64 = 2_000;

/// Where the program stands.
fn program() -> PathBuf {
    let path = match env::var_os(PROGRAM) {
        Some(path) => PathBuf::from(path),
        None => Path::new(env!("CARGO_MANIFEST_DIR")).join("../../crates/desk/out/desk"),
    };
    assert!(
        path.is_file(),
        "{} is missing. To prove and link it, run `rt run < /dev/null` in crates/desk; if it stands \
         elsewhere, set {PROGRAM} to it.",
        path.display()
    );
    path
}

/// Runs the program with this input, written piece by piece.
fn run(program: &Path, input: &[u8], piece: usize) -> Output {
    let mut child = Command::new(program)
        .stdin(Stdio::piped())
        .stdout(Stdio::piped())
        .stderr(Stdio::piped())
        .spawn()
        .expect("the program can be run");
    let mut stdin = child.stdin.take().expect("an input");
    thread::scope(|scope| {
        scope.spawn(move || {
            for bytes in input.chunks(piece) {
                match stdin.write_all(bytes) {
                    // The program stops at an overlong frame and reads no further.
                    Err(error) if error.kind() == ErrorKind::BrokenPipe => return,
                    written => written.expect("the input can be written"),
                }
            }
        });
        child.wait_with_output().expect("the program ends")
    })
}

/// Fails unless the program ends well and writes what the reference's desk writes.
fn compare(program: &Path, input: &[u8], piece: usize, name: &str) {
    let output = run(program, input, piece);
    let shown = &input[..input.len().min(400)];
    assert_eq!(output.status.code(), Some(0), "{name}: {shown:02X?}");
    assert!(output.stderr.is_empty(), "{name}: {shown:02X?}");
    let expected = reference::desk::run(input);
    assert_eq!(
        String::from_utf8_lossy(&output.stdout),
        String::from_utf8_lossy(&expected),
        "{name}, {} bytes: {shown:02X?}",
        input.len()
    );
}

/// Drawn frames one after another; some have faults, and some inputs are cut.
fn drawn_input(seed: u64) -> Vec<u8> {
    let mut source = Source {
        draws: Draws::new(seed.wrapping_mul(0x9E37_79B9_7F4A_7C15) | 1),
        words: Vec::new(),
        listing_in: 3,
        fault_in: 100_000,
        start_in: u64::MAX,
        lines: 6,
    };
    // Few inputs are long enough to fill the table (many words) or the arena (many postings), and a
    // fault would stop the program before.
    let (words, most) = match seed % 50 {
        0 => (400, 1_500),
        25 => (60, 2_500),
        _ => (12, 80),
    };
    source.draw_words(words);
    if words == 60 {
        source.lines = 60;
    }
    if words == 12 {
        source.fault_in = [5, 40, 100_000][seed as usize % 3];
    }
    let frames = source.draws.between(0, most);
    let mut input = Vec::new();
    for number in 0..frames {
        match source.call(number as u32) {
            DrawnCall::Start => {}
            DrawnCall::Report { frame }
            | DrawnCall::ListOne { frame, .. }
            | DrawnCall::ListAll { frame, .. } => input.extend(frame),
        }
    }
    if source.draws.below(4) == 0 && !input.is_empty() {
        let length = source.draws.between(0, input.len());
        input.truncate(length);
    }
    input
}

#[test]
fn the_example_of_document_01() {
    let input = b"\x01\x00\x10\x01\x02zn\x00\x00\x00\x03\x03P17\x00\x00\x00\x01\
        \x01\x00\x08\x01\x02zn\x00\x00\x00\x04\
        \x01\x00\x08\x02\x00\x00\x00\x00\x02zn\
        \x01\x00\x0C\x03\x00\x00\x00\x00\x02zn\x03p17";
    let output = run(&program(), input, input.len());
    assert_eq!(output.stdout, b"R 1\nR 2\nQ 1:3 2:4\nQ 1\n");
    // The input cut at each place.
    for length in 0..=input.len() {
        let name = format!("the example, cut after {length}");
        compare(&program(), &input[..length], 7, &name);
    }
}

#[test]
fn drawn_inputs() {
    let program = program();
    for seed in 1..=INPUTS {
        let input = drawn_input(seed);
        let piece = [1 << 20, 4_096, 13][seed as usize % 3];
        compare(&program, &input, piece, &format!("drawn input {seed}"));
    }
}

#[test]
fn inputs_of_any_bytes() {
    let program = program();
    let mut draws = Draws::new(0xDE5C_2026);
    for number in 1..=INPUTS / 4 {
        let length = draws.between(0, 300);
        let mut input = draws.bytes(length);
        // Short frames of the right version, so that many are cut from one input.
        for byte in &mut input {
            *byte = [*byte, 0, 1, 2, 3][draws.between(0, 4)];
        }
        compare(&program, &input, length.max(1), &format!("bytes {number}"));
    }
}
