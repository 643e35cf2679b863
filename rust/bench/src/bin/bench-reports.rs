//! Measures the program `reports` on a large file and writes a table: taking all reports from text,
//! opening the file again, and one report until it is there for certain.
//!
//! Use: `bench-reports [REPORTS [FOLDER]]`, by default 200,000 reports in the system's folder for
//! temporary files. What a sync takes depends on the disk under the folder.

use std::ffi::OsString;
use std::fs;
use std::io::{self, Read};
use std::path::{Path, PathBuf};
use std::process::ExitCode;
use std::time::{Duration, Instant};

use bench::workload::Workload;
use reports::program::{run, Streams};
use reports::words;

/// How many reports are synced one by one.
const SINGLE: usize = 200;

/// How often the file is opened again; the best time counts.
const ROUNDS: usize = 5;

fn main() -> ExitCode {
    let words: Vec<String> = std::env::args().skip(1).collect();
    let reports = words.first().map_or(Ok(200_000), |word| word.parse());
    let folder = words.get(1).map_or_else(std::env::temp_dir, PathBuf::from);
    match reports {
        Ok(reports) if words.len() <= 2 => measure(reports, &folder),
        _ => {
            eprintln!("Use: bench-reports [REPORTS [FOLDER]]");
            return ExitCode::from(2);
        }
    }
    ExitCode::SUCCESS
}

/// Measures all with this many reports.
fn measure(reports: usize, folder: &Path) {
    let workload = Workload::new(reports);
    let lines = workload.frames.iter().map(|frame| words::report(frame));
    let text: String = lines.map(|line| line.expect("a report") + "\n").collect();
    let file = folder.join(format!("bench-reports-{}", std::process::id()));
    timed(&file, &["new"], &mut io::empty());
    println!(
        "### {reports} reports, {} postings, {} bytes of text\n",
        workload.postings,
        text.len()
    );
    println!("| what | time |\n|---|---|");
    print_row(
        "all taken from text and synced (import)",
        timed(&file, &["import"], &mut text.as_bytes()),
    );
    let term = &workload.terms[10_000];
    for (name, words) in [
        ("opened again: the log alone (info)", &["info"][..]),
        (
            "opened again, and a rare term listed (find)",
            &["find", term],
        ),
        ("everything read and listed back (verify)", &["verify"]),
    ] {
        print_row(name, best(&file, words));
    }
    print_row(
        "one report as a command of its own",
        timed(&file, &["report", "zn=3"], &mut io::empty()),
    );
    let mut one_by_one = OneByOne::new(&text);
    timed(&file, &[], &mut one_by_one);
    let times = &mut one_by_one.times;
    times.sort();
    let (least, middle) = (times[0], times[times.len() / 2]);
    print_row(
        &format!("one report on a pipe, until it is synced: the least of {SINGLE}"),
        least,
    );
    print_row("the middle one of them", middle);
    println!(
        "\n{} bytes in the file",
        fs::metadata(&file).map_or(0, |about| about.len())
    );
    // A file that is left behind does no harm.
    let _ = fs::remove_file(&file);
}

/// How long the program takes with these words.
fn timed(file: &Path, words: &[&str], input: &mut dyn Read) -> Duration {
    let mut arguments = vec![file.as_os_str().to_os_string()];
    arguments.extend(words.iter().map(OsString::from));
    let (mut output, mut errors) = (Vec::new(), Vec::new());
    let mut streams = Streams {
        input,
        output: &mut output,
        errors: &mut errors,
        at_terminal: false,
        progress: false,
    };
    let begun = Instant::now();
    let exit = run(&arguments, &mut streams);
    let time = begun.elapsed();
    assert_eq!(exit, 0, "{words:?}: {}", String::from_utf8_lossy(&errors));
    time
}

/// The best time of some rounds.
fn best(file: &Path, words: &[&str]) -> Duration {
    let rounds = (0..ROUNDS).map(|_| timed(file, words, &mut io::empty()));
    rounds.min().expect("a round")
}

/// An input that brings one line when the one before is answered. The time from one to the next is the
/// time of one report.
struct OneByOne {
    lines: Vec<Vec<u8>>,
    brought: Option<Instant>,
    times: Vec<Duration>,
}

impl OneByOne {
    /// The first lines of this text, and one before them, for which the file is opened.
    fn new(text: &str) -> OneByOne {
        let lines = text
            .lines()
            .take(SINGLE + 1)
            .map(|line| format!("{line}\n").into_bytes());
        let mut lines: Vec<Vec<u8>> = lines.collect();
        lines.reverse();
        OneByOne {
            lines,
            brought: None,
            times: Vec::new(),
        }
    }
}

impl Read for OneByOne {
    fn read(&mut self, bytes: &mut [u8]) -> io::Result<usize> {
        if self.lines.len() < SINGLE {
            self.times
                .extend(self.brought.map(|brought| brought.elapsed()));
        }
        let Some(line) = self.lines.pop() else {
            return Ok(0);
        };
        bytes[..line.len()].copy_from_slice(&line);
        self.brought = Some(Instant::now());
        Ok(line.len())
    }
}

fn print_row(what: &str, time: Duration) {
    let milliseconds = time.as_secs_f64() * 1e3;
    println!("| {what} | {milliseconds:.2} ms |");
}
