//! The stored dialogues in the folder `dialogues`: runs of the program, with what they print and their
//! exit codes. All of it is written by hand.
//!
//! | line | what |
//! |---|---|
//! | `# text` | a remark |
//! | `@ NAME` | makes a file; its lines follow, each behind `\| ` |
//! | `$ ARGUMENTS` | runs the program; an argument with spaces stands in '...' |
//! | `< line` | a line of its standard input |
//! | `> line` | a line that it prints |
//! | `! line` | a line on its standard error |
//! | `= CODE` | its exit code, which ends the run |
//!
//! All runs of a dialogue are in one folder.

mod common;

use std::fs;
use std::path::Path;

use common::{text, Folder};

/// A run of the program as it is stored.
#[derive(Default)]
struct Run {
    arguments: Vec<String>,
    input: String,
    output: String,
    errors: String,
}

/// The arguments of a line, parted by spaces outside of '...'.
fn arguments(line: &str) -> Vec<String> {
    let mut arguments = Vec::new();
    for (place, part) in line.split('\'').enumerate() {
        if place % 2 == 1 {
            arguments.push(part.to_string());
        } else {
            arguments.extend(part.split_whitespace().map(str::to_string));
        }
    }
    arguments
}

/// Runs a whole dialogue and gives the number of its runs.
fn play(name: &str, dialogue: &str) -> usize {
    let folder = Folder::new();
    let (mut run, mut file, mut runs) = (Run::default(), String::new(), 0);
    for (number, line) in (1..).zip(dialogue.lines()) {
        let at = format!("{name}, line {number}: {line}");
        let (mark, rest) = line.split_at(line.len().min(1));
        let rest = rest.strip_prefix(' ').unwrap_or(rest);
        match mark {
            "" | "#" => {}
            "@" => {
                file = rest.to_string();
                folder.write(&file, b"");
            }
            "|" => {
                let before = text(&folder.read(&file));
                folder.write(&file, format!("{before}{rest}\n").as_bytes());
            }
            "$" => {
                run = Run {
                    arguments: arguments(rest),
                    ..Run::default()
                }
            }
            "<" => run.input += &format!("{rest}\n"),
            ">" => run.output += &format!("{rest}\n"),
            "!" => run.errors += &format!("{rest}\n"),
            "=" => {
                check(&folder, &run, rest.parse().expect(&at), &at);
                runs += 1;
            }
            _ => panic!("{at}: what is this?"),
        }
    }
    runs
}

/// Fails unless the program does as the dialogue says.
fn check(folder: &Folder, run: &Run, exit: i32, at: &str) {
    let arguments: Vec<&str> = run.arguments.iter().map(String::as_str).collect();
    let output = folder.run(&arguments, run.input.as_bytes());
    assert_eq!(text(&output.stdout), run.output, "{at}: {arguments:?}");
    assert_eq!(text(&output.stderr), run.errors, "{at}: {arguments:?}");
    assert_eq!(output.status.code(), Some(exit), "{at}: {arguments:?}");
}

#[test]
fn stored_dialogues() {
    let folder = Path::new(env!("CARGO_MANIFEST_DIR")).join("tests/dialogues");
    let mut runs = 0;
    for entry in fs::read_dir(folder).expect("the dialogues") {
        let path = entry.expect("a dialogue").path();
        let dialogue = fs::read_to_string(&path).expect("a dialogue");
        runs += play(&path.file_name().unwrap().to_string_lossy(), &dialogue);
    }
    assert!(runs > 100, "there are {runs} runs only");
}
