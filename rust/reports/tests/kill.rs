//! Rounds in which the program is killed while it takes reports: every report that was answered is
//! held afterwards, and as it was brought.

mod common;

use std::collections::BTreeMap;
use std::io::{BufRead, BufReader, Write};
use std::process::Child;
use std::thread;
use std::time::Duration;

use common::Folder;
use reference::draws::Draws;

/// How often the program is killed.
const ROUNDS: u64 = 40;

/// How many reports are brought in a round at most.
const REPORTS: usize = 4_000;

/// The longest time before the kill, in microseconds.
const LONGEST: u64 = 40_000;

/// The reports of a round; each has a term of its own, so that none is taken for another.
fn reports(round: u64) -> Vec<String> {
    let report = |place: usize| {
        let words = (0..place % 40).map(|word| format!(" w{word}={place}"));
        format!("report r{round}-{place}=1{}", words.collect::<String>())
    };
    (0..REPORTS).map(report).collect()
}

/// The numbers that were answered before the program was killed, in the order of the reports.
fn answered(child: &mut Child, reports: &[String], until: Duration) -> Vec<usize> {
    let mut stdin = child.stdin.take().expect("an input");
    let stdout = child.stdout.take().expect("an output");
    thread::scope(|scope| {
        scope.spawn(move || {
            for report in reports {
                // The program may be killed meanwhile.
                if writeln!(stdin, "{report}").is_err() {
                    return;
                }
            }
            // Its end would end the program.
            thread::sleep(until);
        });
        let reader = scope.spawn(move || {
            let mut output = BufReader::new(stdout);
            let mut numbers = Vec::new();
            while let Some(answer) = whole_line(&mut output) {
                assert_eq!(answer, "ok 1");
                match whole_line(&mut output) {
                    Some(number) => numbers.push(number.parse().expect("a number")),
                    None => break,
                }
            }
            numbers
        });
        thread::sleep(until);
        child.kill().expect("it can be killed");
        child.wait().expect("it ends");
        reader.join().expect("the answers")
    })
}

/// The next line. One that was cut by the kill is no answer.
fn whole_line(output: &mut impl BufRead) -> Option<String> {
    let mut line = String::new();
    output.read_line(&mut line).expect("text");
    line.strip_suffix('\n').map(str::to_string)
}

#[test]
fn every_answered_report_is_held() {
    let folder = Folder::new();
    folder.expect(0, &["season", "new"], b"");
    let mut draws = Draws::new(0x4B11_2026);
    let mut held: BTreeMap<usize, String> = BTreeMap::new();
    for round in 1..=ROUNDS {
        let reports = reports(round);
        let until = Duration::from_micros(draws.below(LONGEST));
        let mut child = folder.start(&["season"]);
        let numbers = answered(&mut child, &reports, until);
        for (number, report) in numbers.into_iter().zip(reports) {
            let before = held.insert(number, report);
            assert_eq!(
                before, None,
                "round {round}: number {number} was given twice"
            );
        }
        check(&folder, &held, round);
    }
    assert!(held.len() > 100, "{} reports were answered", held.len());
    folder.expect(0, &["season", "report", "end"], b"");
    folder.expect(0, &["season", "verify"], b"");
}

/// Fails unless the file holds all of these reports under their numbers.
fn check(folder: &Folder, held: &BTreeMap<usize, String>, round: u64) {
    let export = folder.expect(0, &["season", "export"], b"");
    let lines = common::lines(&export);
    for (number, report) in held {
        let line = lines.get(number - 1).copied();
        assert_eq!(line, Some(&report[..]), "round {round}, report {number}");
    }
}
