//! The prompt, as on a terminal: what stands on standard output and what beside it.

mod common;

use std::ffi::OsString;

use common::{text, Folder};
use reports::program::{run, Streams};

/// The exit code, standard output and standard error of a prompt that gets these lines.
fn prompt(folder: &Folder, lines: &str) -> (u8, String, String) {
    let arguments = [OsString::from(folder.file("season"))];
    let (mut output, mut errors) = (Vec::new(), Vec::new());
    let exit = run(
        &arguments,
        &mut Streams {
            input: &mut lines.as_bytes(),
            output: &mut output,
            errors: &mut errors,
            at_terminal: true,
            progress: true,
        },
    );
    let path = folder.path().to_str().expect("a path");
    let errors = text(&errors).replace(&format!("{path}/"), "");
    (exit, text(&output), errors)
}

const BANNER: &str = "reports; help lists the commands, quit ends\n";

#[test]
fn commands_at_the_prompt() {
    let folder = Folder::new();
    folder.expect(0, &["season", "new"], b"");
    let lines = "report zn=3 P17\nreport zn=4\nfind zn\n\n# remark\nfind cu\n\
                 report zn ZN\ntake\nfind zn --limit 1\nimport\nquit\nreport zn\n";
    let (exit, output, errors) = prompt(&folder, lines);
    assert_eq!(exit, 0);
    assert_eq!(output, "1\n2\n1\t3\n2\t4\n1\t3\n");
    let expected = format!(
        "0 {BANNER}reports> none\n\
         refused (7): word 2, \"ZN\", is the same term as word 1, \"zn\"\n\
         there is no command \"take\"; --help lists them\n\
         more: --from 2\n\
         import takes a file here: the lines of standard input are commands\n"
    );
    assert_eq!(errors, expected);
    // Without quit, the end of the input ends it on a new line.
    let (exit, output, errors) = prompt(&folder, "last\n");
    assert_eq!((exit, &output[..]), (0, "2\treport zn=4\n"));
    assert_eq!(errors, format!("2 {BANNER}reports> reports> \n"));
}

#[test]
fn the_help_at_the_prompt() {
    let folder = Folder::new();
    folder.expect(0, &["season", "new"], b"");
    let (_, output, _) = prompt(&folder, "help\n");
    assert_eq!(output, folder.expect(0, &["--help"], b""));
}

/// The progress of an import stands on one line, and goes before another text stands there.
#[test]
fn an_import_at_the_prompt_shows_its_progress() {
    let folder = Folder::new();
    folder.expect(0, &["season", "new"], b"");
    folder.write("lines", b"report zn\nreport zn=0\nreport cu\n");
    let lines = folder.file("lines");
    let (exit, output, errors) = prompt(&folder, &format!("import {}\n", lines.display()));
    let sum = "2 reports taken, numbers 1 to 2; 1 lines refused\n";
    assert_eq!((exit, &output[..]), (0, sum));
    let refused = "line 2: refused (6): word 1, \"zn\", has the count 0; a count is at least 1\n";
    let expected = format!("0 {BANNER}reports> \r\x1B[K{refused}\r3 lines\r\x1B[Kreports> \n");
    assert_eq!(errors, expected);
}

#[test]
fn a_damaged_file_at_the_prompt() {
    let folder = Folder::new();
    folder.expect(0, &["season", "new"], b"");
    folder.expect(0, &["season", "report", "zn"], b"");
    let mut bytes = folder.read("season");
    bytes[30] ^= 1;
    folder.write("season", &bytes);
    let sound = folder.file("sound");
    let sound = sound.to_str().unwrap();
    let (exit, output, errors) = prompt(&folder, &format!("find zn\nrecover {sound}\n"));
    let damaged = "season: damaged at byte 16; the last sound report is 0; \
                   recover NEW writes the sound part to a new file\n";
    assert_eq!(
        errors,
        format!("0 {BANNER}{damaged}reports> {damaged}reports> \n")
    );
    assert_eq!((exit, output), (0, format!("0 reports in {sound}\n")));
}

#[test]
fn a_prompt_without_its_file() {
    let folder = Folder::new();
    let (exit, output, errors) = prompt(&folder, "report zn\n");
    assert_eq!((exit, &output[..]), (5, ""));
    assert!(
        errors.starts_with("season: there is no such file"),
        "{errors}"
    );
    assert_eq!(folder.names(), [""; 0]);
}
