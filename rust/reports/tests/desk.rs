//! The frames of a file, brought to the desk program: it takes the same reports under the same numbers,
//! and lists the same.
//!
//! The desk is the one that `rt ci`, or `rt run` in `crates/desk`, proves and links. REPORT_INDEX_DESK
//! may name another.

mod common;

use std::env;
use std::path::{Path, PathBuf};
use std::process::{Command, Stdio};

use common::{run, text, Folder};
use reference::compose::query_frame;
use reference::draws::Draws;
use reference::frames::Call;

/// The variable that names another program.
const PROGRAM: &str = "REPORT_INDEX_DESK";

/// How many reports are brought. The desk has 1,000 blocks and holds 256 terms.
const REPORTS: usize = 120;

/// The places of the desk's lists.
const PLACES: &str = "16";

fn desk() -> PathBuf {
    let path = match env::var_os(PROGRAM) {
        Some(path) => PathBuf::from(path),
        None => Path::new(env!("CARGO_MANIFEST_DIR")).join("../../crates/desk/out/desk"),
    };
    assert!(
        path.is_file(),
        "{} is missing. To prove and link it, run `rt run < /dev/null` in crates/desk; if it stands \
         elsewhere, set {PROGRAM} to it.",
        path.display()
    );
    path
}

/// What the desk prints for these frames.
fn desk_lines(frames: &[u8]) -> Vec<String> {
    let mut command = Command::new(desk());
    let command = command.stdin(Stdio::piped());
    let output = run(
        command.stdout(Stdio::piped()).stderr(Stdio::piped()),
        frames,
    );
    text(&output.stdout).lines().map(str::to_string).collect()
}

/// What the desk has to print where `reports` answers a listing so.
fn as_desk(listed: &str, errors: &str) -> String {
    let mut line = "Q".to_string();
    for item in listed.lines() {
        line.push_str(&format!(" {}", item.replace('\t', ":")));
    }
    if errors.starts_with("more:") {
        line.push_str(" +");
    }
    line
}

#[test]
fn the_desk_takes_the_frames_of_a_file() {
    let mut draws = Draws::new(0x0DE5_2026);
    let words = [
        "zn",
        "P17",
        "cu",
        "mn",
        "wheat",
        "nitrate-n",
        "ph=7",
        "plot/9",
    ];
    let mut lines = String::new();
    for _ in 0..REPORTS {
        lines.push_str("report");
        for word in words {
            if draws.below(3) == 0 {
                lines.push_str(&format!(" {word}={}", draws.number()));
            }
        }
        lines.push('\n');
    }
    let folder = Folder::new();
    folder.expect(0, &["season", "new"], b"");
    folder.expect(0, &["season", "import"], lines.as_bytes());

    let mut input = folder.run(&["season", "export", "--frames"], b"").stdout;
    let numbers = (1..=REPORTS).map(|number| format!("R {number}"));
    let mut expected: Vec<String> = numbers.collect();
    for (place, word) in words.iter().enumerate() {
        let other = words[(place + 3) % words.len()];
        let from = draws.between(1, REPORTS).to_string();
        for (call, name, terms) in [
            (Call::OneTerm, "find", vec![*word]),
            (Call::AllTerms, "all", vec![*word, other]),
        ] {
            let bytes: Vec<&[u8]> = terms.iter().map(|term| term.as_bytes()).collect();
            input.extend(query_frame(call, from.parse().unwrap(), &bytes));
            let options = ["--from", &from, "--limit", PLACES];
            let arguments = [&["season", name][..], &terms, &options].concat();
            let output = folder.run(&arguments, b"");
            expected.push(as_desk(&text(&output.stdout), &text(&output.stderr)));
        }
    }
    assert_eq!(desk_lines(&input), expected);
}
