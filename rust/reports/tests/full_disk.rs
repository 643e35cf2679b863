//! A disk that is full: a limit on the size of files stands for it.

mod common;

use std::fs::File;
use std::process::{Command, Output, Stdio};

use common::{run, text, Folder};

/// Runs the program with a limit of this many kilobytes on the files that it writes.
fn limited(folder: &Folder, kilobytes: u32, arguments: &[&str], input: &[u8]) -> Output {
    let script = format!("ulimit -f {kilobytes} && exec \"$0\" \"$@\"");
    let mut command = Command::new("bash");
    command.current_dir(folder.path());
    command
        .args(["-c", &script, env!("CARGO_BIN_EXE_reports")])
        .args(arguments);
    command
        .stdin(Stdio::piped())
        .stdout(Stdio::piped())
        .stderr(Stdio::piped());
    run(&mut command, input)
}

/// A file with reports for nearly a kilobyte.
fn nearly_full() -> Folder {
    let folder = Folder::new();
    folder.expect(0, &["season", "new"], b"");
    let lines = "report zn=3 P17\n".repeat(28);
    folder.expect(0, &["season", "import"], lines.as_bytes());
    // A head of 16 bytes, and 28 records of 12 + 19 + 4.
    assert_eq!(folder.read("season").len(), 996);
    folder
}

const NOT_KEPT: &str = "not kept: File too large (os error 27)\n";

#[test]
fn a_report_that_does_not_fit_is_not_kept() {
    let folder = nearly_full();
    let before = folder.read("season");
    let output = limited(&folder, 1, &["season", "report", "zn=3", "P17"], b"");
    assert_eq!(text(&output.stderr), format!("report 29: {NOT_KEPT}"));
    assert_eq!(
        (output.status.code(), &output.stdout[..]),
        (Some(5), &b""[..])
    );
    assert_eq!(folder.read("season"), before);
    assert_eq!(folder.names(), ["season"]);
    // One that fits, and reading, go on.
    let output = limited(&folder, 1, &["season", "report", "zn"], b"");
    assert_eq!(
        (output.status.code(), &output.stdout[..]),
        (Some(0), &b"29\n"[..])
    );
    let output = limited(&folder, 1, &["season", "last"], b"");
    assert_eq!(text(&output.stdout), "29\treport zn=1\n");
    // So does everything once there is room.
    assert_eq!(
        folder.expect(0, &["season", "report", "zn=3", "P17"], b""),
        "30\n"
    );
    folder.expect(0, &["season", "verify"], b"");
}

/// The lines that wait are kept or not kept together, and none of those not kept is answered.
#[test]
fn a_pipe_ends_where_reports_are_not_kept() {
    let folder = nearly_full();
    let before = folder.read("season");
    let input = b"report zn\nreport cu\nfind zn\n";
    let output = limited(&folder, 1, &["season"], input);
    assert_eq!(
        text(&output.stderr),
        format!("reports 29 to 30: {NOT_KEPT}")
    );
    assert_eq!(
        (output.status.code(), &output.stdout[..]),
        (Some(5), &b""[..])
    );
    assert_eq!(folder.read("season"), before);
}

/// An import writes what was taken before it, and what does not fit is not answered then, either.
#[test]
fn a_pipe_ends_where_an_import_does_not_fit() {
    let folder = nearly_full();
    let before = folder.read("season");
    folder.write("lines", b"report zn\n");
    let input = b"report zn=3 P17\nimport lines\nfind zn\n";
    let output = limited(&folder, 1, &["season"], input);
    assert_eq!(text(&output.stderr), format!("report 29: {NOT_KEPT}"));
    assert_eq!(
        (output.status.code(), &output.stdout[..]),
        (Some(5), &b""[..])
    );
    assert_eq!(folder.read("season"), before);
}

#[test]
fn an_import_keeps_what_was_written_before() {
    let folder = nearly_full();
    let before = folder.read("season");
    let lines = "report zn=3 P17\n".repeat(3);
    for options in [&[][..], &["--all-or-nothing"]] {
        let arguments = [&["season", "import"], options].concat();
        let output = limited(&folder, 1, &arguments, lines.as_bytes());
        assert_eq!(
            text(&output.stderr),
            format!("reports 29 to 31: {NOT_KEPT}")
        );
        assert_eq!(output.status.code(), Some(5));
        assert_eq!(folder.read("season"), before);
    }
    // A long import is written piece by piece; whole pieces stay.
    let line = format!("report {}\n", words(100));
    let lines = line.repeat(3_000);
    let output = limited(&folder, 2_500, &["season", "import"], lines.as_bytes());
    assert_eq!(output.status.code(), Some(5), "{}", text(&output.stderr));
    assert!(text(&output.stderr).ends_with(NOT_KEPT));
    let export = folder.expect(0, &["season", "export"], b"");
    let held = export.lines().count();
    assert!(held > 1_000 && held < 3_000, "{held} reports are held");
    let told = format!("reports {} to ", held + 1);
    assert!(
        text(&output.stderr).contains(&told),
        "{}",
        text(&output.stderr)
    );
    folder.expect(0, &["season", "verify"], b"");
}

fn words(number: usize) -> String {
    let words: Vec<String> = (0..number).map(|word| format!("word-{word}=9")).collect();
    words.join(" ")
}

#[test]
fn a_torn_end_that_cannot_be_copied_is_not_cut() {
    let folder = nearly_full();
    let torn = [folder.read("season"), vec![1; 5]].concat();
    folder.write("season", &torn);
    let output = limited(&folder, 0, &["season", "report"], b"");
    let told = "season: torn at byte 996, and no copy can be kept: File too large (os error 27)\n";
    assert_eq!(text(&output.stderr), told);
    assert_eq!(output.status.code(), Some(5));
    assert_eq!(folder.read("season"), torn);
    assert_eq!(folder.names(), ["season"]);
}

#[test]
fn no_new_file_is_left_behind() {
    let folder = nearly_full();
    for arguments in [&["other", "new"][..], &["season", "recover", "other"]] {
        let output = limited(&folder, 0, arguments, b"");
        let told = "other: File too large (os error 27)\n";
        assert_eq!(text(&output.stderr), told);
        assert_eq!(output.status.code(), Some(5));
        assert_eq!(folder.names(), ["season"]);
    }
}

/// An answer that cannot be written is told, and the report is held all the same.
#[test]
fn an_output_that_is_full() {
    let folder = nearly_full();
    let full = || {
        File::options()
            .write(true)
            .open("/dev/full")
            .expect("/dev/full")
    };
    for (arguments, input) in [
        (&["season", "report", "cu"][..], &b""[..]),
        (&["season", "find", "zn"], b""),
        (&["season"], b"report cu\n"),
    ] {
        let mut command = folder.command(arguments);
        let output = run(command.stdin(Stdio::piped()).stdout(full()), input);
        let told = "the answer cannot be written: No space left on device (os error 28)\n";
        assert_eq!(text(&output.stderr), told);
        assert_eq!(output.status.code(), Some(5));
    }
    assert_eq!(
        folder.expect(0, &["season", "find", "cu"], b""),
        "29\t1\n30\t1\n"
    );
}
