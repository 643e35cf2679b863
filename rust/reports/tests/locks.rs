//! Several programs on one file: who waits, who is told, and who reads on.

mod common;

use std::fs::File;
use std::io::{BufRead, BufReader, Write};
use std::process::{Child, ChildStdin, ChildStdout, Stdio};
use std::thread;
use std::time::{Duration, Instant};

use common::{text, Folder};

/// A program on a pipe, asked line by line.
struct Pipe {
    child: Child,
    input: ChildStdin,
    output: BufReader<ChildStdout>,
}

impl Pipe {
    fn start(folder: &Folder) -> Pipe {
        let mut child = folder.start(&["season"]);
        Pipe {
            input: child.stdin.take().expect("an input"),
            output: BufReader::new(child.stdout.take().expect("an output")),
            child,
        }
    }

    fn line(&mut self) -> String {
        let mut line = String::new();
        self.output.read_line(&mut line).expect("a line");
        line.trim_end().to_string()
    }

    /// Brings a line and gives its whole answer, the lines joined by a blank.
    fn ask(&mut self, line: &str) -> String {
        writeln!(self.input, "{line}").expect("the line can be brought");
        let mut answer = self.line();
        let number = answer
            .strip_prefix("ok ")
            .and_then(|number| number.parse().ok());
        for _ in 0..number.unwrap_or(0) {
            answer = format!("{answer} {}", self.line());
        }
        answer
    }

    /// Ends the input; gives the exit code and standard error.
    fn end(self) -> (Option<i32>, String) {
        drop(self.input);
        let output = self.child.wait_with_output().expect("it ends");
        (output.status.code(), text(&output.stderr))
    }
}

fn season() -> Folder {
    let folder = Folder::new();
    folder.expect(0, &["season", "new"], b"");
    folder.expect(0, &["season", "report", "zn=3"], b"");
    folder
}

#[test]
fn a_second_writer_is_told_that_the_file_is_locked() {
    let folder = season();
    let before = folder.read("season");
    let holder = File::open(folder.file("season")).expect("the file");
    holder.lock().expect("the lock");
    let waiting = "waiting for another program that uses the file\n";
    let told =
        format!("{waiting}season: another program had it locked for 0.2 s; nothing was done\n");
    for arguments in [
        &["season", "--wait", "0.2", "report", "zn"][..],
        &["season", "--wait", "0.2", "find", "zn"],
        &["season", "--wait", "0.2", "info"],
    ] {
        let begun = Instant::now();
        assert_eq!(folder.expect_errors(5, arguments, b""), told);
        assert!(begun.elapsed() >= Duration::from_millis(200));
    }
    assert_eq!(
        folder.expect_errors(5, &["season", "--wait", "0.2"], b"last\n"),
        told
    );
    let none = folder.expect_errors(5, &["season", "--wait", "0", "last"], b"");
    let told = "season: another program had it locked for 0 s; nothing was done\n";
    assert_eq!(none, format!("{waiting}{told}"));
    assert_eq!(folder.read("season"), before);
}

#[test]
fn a_second_writer_waits_for_the_first() {
    let folder = season();
    let holder = File::open(folder.file("season")).expect("the file");
    holder.lock().expect("the lock");
    let second = folder
        .command(&["season", "report", "cu"])
        .spawn()
        .expect("it runs");
    thread::sleep(Duration::from_millis(300));
    holder.unlock().expect("the lock can be given back");
    let output = second.wait_with_output().expect("it ends");
    assert_eq!(text(&output.stdout), "2\n");
    assert_eq!(
        text(&output.stderr),
        "waiting for another program that uses the file\n"
    );
    assert_eq!(output.status.code(), Some(0));
}

#[test]
fn readers_share_the_file_and_writers_wait_for_them() {
    let folder = season();
    let reader = File::open(folder.file("season")).expect("the file");
    reader.lock_shared().expect("the lock");
    assert_eq!(folder.expect(0, &["season", "find", "zn"], b""), "1\t3\n");
    folder.expect(5, &["season", "--wait", "0", "report", "zn"], b"");
    reader.unlock().expect("the lock can be given back");
    assert_eq!(
        folder.expect(0, &["season", "--wait", "0", "report", "zn"], b""),
        "2\n"
    );
}

#[test]
fn two_pipes_read_on_what_the_other_wrote() {
    let folder = season();
    let (mut one, mut other) = (Pipe::start(&folder), Pipe::start(&folder));
    assert_eq!(one.ask("report zn=4"), "ok 1 2");
    assert_eq!(other.ask("find zn"), "ok 2 1\t3 2\t4");
    assert_eq!(other.ask("report cu zn=5"), "ok 1 3");
    assert_eq!(
        one.ask("report zn --expect 3"),
        "refused 0 the next number is 4, not 3"
    );
    assert_eq!(one.ask("report zn=6"), "ok 1 4");
    assert_eq!(other.ask("find zn"), "ok 4 1\t3 2\t4 3\t5 4\t6");
    assert_eq!(one.ask("all zn cu"), "ok 1 3");
    assert_eq!(folder.expect(0, &["season", "report", "mn"], b""), "5\n");
    assert_eq!(one.ask("last"), "ok 1 5\treport mn=1");
    assert_eq!(other.ask("find mn"), "ok 1 5\t1");
    assert_eq!(one.end(), (Some(3), String::new()));
    assert_eq!(other.end(), (Some(0), String::new()));
    folder.expect(0, &["season", "verify"], b"");
}

#[test]
fn many_writers_at_once() {
    const WRITERS: usize = 4;
    const REPORTS: usize = 15;
    let folder = season();
    let mut numbers: Vec<usize> = thread::scope(|scope| {
        let write = |writer: usize| {
            let folder = &folder;
            move || {
                let report = |place| {
                    let word = format!("w{writer}={}", place + 1);
                    let number = folder.expect(0, &["season", "report", &word], b"");
                    number.trim_end().parse::<usize>().expect("a number")
                };
                (0..REPORTS).map(report).collect::<Vec<_>>()
            }
        };
        let writers: Vec<_> = (0..WRITERS)
            .map(|writer| scope.spawn(write(writer)))
            .collect();
        let numbers = writers
            .into_iter()
            .map(|writer| writer.join().expect("a writer"));
        numbers.flatten().collect()
    });
    numbers.sort();
    let expected: Vec<usize> = (2..WRITERS * REPORTS + 2).collect();
    assert_eq!(numbers, expected);
    for writer in 0..WRITERS {
        let list = folder.expect(0, &["season", "find", &format!("w{writer}")], b"");
        let counts = list
            .lines()
            .map(|line| line.split_once('\t').unwrap().1.to_string());
        let expected: Vec<String> = (1..=REPORTS).map(|count| count.to_string()).collect();
        assert_eq!(counts.collect::<Vec<_>>(), expected);
    }
}

#[test]
fn a_file_that_is_replaced_or_changed_under_a_pipe() {
    let folder = season();
    let mut pipe = Pipe::start(&folder);
    assert_eq!(pipe.ask("report cu"), "ok 1 2");
    folder.write("season.other", &folder.read("season"));
    std::fs::rename(folder.file("season.other"), folder.file("season")).unwrap();
    assert_eq!(pipe.ask("report cu"), "");
    let told = "season: it is another file than the one read before\n";
    assert_eq!(pipe.end(), (Some(5), told.to_string()));

    // Shorter than before, or with other bytes before the place where reading stopped.
    let whole = folder.read("season");
    let mut changed = whole.clone();
    *changed.last_mut().unwrap() ^= 1;
    for bytes in [&whole[..whole.len() - 27], &whole[..10], &changed] {
        folder.write("season", &whole);
        let mut pipe = Pipe::start(&folder);
        assert_eq!(pipe.ask("last"), "ok 1 2\treport cu=1");
        folder.write("season", bytes);
        assert_eq!(pipe.ask("report cu"), "");
        let told = "season: what was read before is there no longer; another program changed it\n";
        assert_eq!(pipe.end(), (Some(4), told.to_string()));
        assert_eq!(folder.read("season"), bytes);
    }
}

/// What a writer left that was stopped: a reader leaves it out, a second writer cuts it off, and the
/// first reads on behind it.
#[test]
fn a_torn_end_under_a_pipe() {
    let folder = season();
    let whole = folder.read("season");
    let mut pipe = Pipe::start(&folder);
    assert_eq!(pipe.ask("last"), "ok 1 1\treport zn=3");
    folder.write("season", &[&whole[..], b"\x01\x00\x00"].concat());
    assert_eq!(pipe.ask("last"), "ok 1 1\treport zn=3");
    assert_eq!(folder.expect(0, &["season", "report", "cu"], b""), "2\n");
    assert_eq!(pipe.ask("last"), "ok 1 2\treport cu=1");
    let told = format!(
        "season: torn at byte {}; 3 bytes that were never answered are left out\n",
        whole.len()
    );
    assert_eq!(pipe.end(), (Some(0), told));
}

#[test]
fn a_closed_output_ends_quietly() {
    let folder = season();
    let lines: String = (0..3_000)
        .map(|line| format!("report zn={}\n", line + 1))
        .collect();
    folder.expect(0, &["season", "import"], lines.as_bytes());
    for arguments in [
        &["season", "export"][..],
        &["season", "find", "zn"],
        &["season"],
    ] {
        let mut command = folder.command(arguments);
        let mut child = command.stdin(Stdio::piped()).spawn().expect("it runs");
        drop(child.stdout.take());
        let mut stdin = child.stdin.take().expect("an input");
        // Where the program waits for lines; it may have ended.
        let _ = stdin.write_all(b"export\nexport\n");
        drop(stdin);
        let output = child.wait_with_output().expect("it ends");
        assert_eq!(text(&output.stderr), "", "{arguments:?}");
        assert_eq!(output.status.code(), Some(0), "{arguments:?}");
    }
}
