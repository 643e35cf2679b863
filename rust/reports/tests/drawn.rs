//! Drawn dialogues on a pipe, against the plain ledger of the reference; and what is exported, taken
//! again.

mod common;

use common::{run_here, text, Folder};
use reference::compose::{query_frame, report_frame};
use reference::draws::Draws;
use reference::frames::Call;
use reference::ledger::Ledger;

/// How many dialogues are drawn.
const DIALOGUES: u64 = 150;

/// The most lines of a run; a dialogue has up to four runs on one file.
const LINES: usize = 40;

/// So much memory that no report of a dialogue meets 11 or 12.
const PLENTY: usize = 1 << 30;

/// A line of a dialogue, and how its answer has to begin; of a refusal only the number is compared.
struct Exchange {
    line: String,
    answer: String,
}

/// What a dialogue is drawn from, and the ledger on the other side.
struct Dialogue {
    draws: Draws,
    words: Vec<String>,
    ledger: Ledger,
    /// The reports held, as export writes them.
    held: Vec<String>,
}

impl Dialogue {
    fn new(seed: u64) -> Dialogue {
        let mut draws = Draws::new(seed.wrapping_mul(0x9E37_79B9_7F4A_7C15) | 1);
        let number = draws.between(2, 12);
        let words = (0..number).map(|place| word(&mut draws, place)).collect();
        Dialogue {
            draws,
            words,
            ledger: Ledger::new(),
            held: Vec::new(),
        }
    }

    /// One of the words, in any of three spellings; now and then one that breaks a rule.
    fn word(&mut self) -> String {
        if self.draws.below(40) == 0 {
            let faulty = ["x".repeat(37), "y".repeat(200), "M\u{FC}ller".to_string()];
            return faulty[self.draws.between(0, 2)].clone();
        }
        let place = self.draws.between(0, self.words.len() - 1);
        let word = &self.words[place];
        match self.draws.below(4) {
            0 => word.to_ascii_uppercase(),
            1 => word.to_ascii_lowercase(),
            _ => word.clone(),
        }
    }

    fn exchange(&mut self) -> Exchange {
        match self.draws.below(10) {
            0..=4 => self.report(),
            5 | 6 => self.find(),
            7 | 8 => self.all(),
            _ => self.show(),
        }
    }

    fn report(&mut self) -> Exchange {
        let (mut line, mut lines) = ("report --".to_string(), Vec::new());
        let mut not_understood = false;
        for _ in 0..self.draws.between(0, 4) {
            let word = self.word();
            let count = match self.draws.below(30) {
                0 => 0,
                1 => u32::MAX,
                2..=9 => 1,
                _ => self.draws.number(),
            };
            line.push_str(&format!(" {word}"));
            if count != 1 || word.contains('=') || self.draws.below(2) == 0 {
                line.push_str(&format!("={count}"));
                if self.draws.below(100) == 0 {
                    line.push('x');
                    not_understood = true;
                }
            }
            lines.push((latin1(&word), count));
        }
        if not_understood {
            return refused(line, 0);
        }
        let borrowed: Vec<(&[u8], u32)> = lines.iter().map(|(term, n)| (&term[..], *n)).collect();
        let frame = report_frame(&borrowed);
        let answer = self.ledger.report(&frame, PLENTY, PLENTY);
        if answer.refusal > 0 {
            return refused(line, answer.refusal);
        }
        self.held.push(exported(&lines));
        answered(line, &[answer.number.to_string()], false)
    }

    /// The end of a listing, and the start and the number of places that it means.
    fn range(&mut self) -> (String, u32, usize) {
        let (mut options, mut start, mut places) = (String::new(), 1, self.held.len());
        if self.draws.below(2) == 0 {
            start = self.draws.below(self.held.len() as u64 + 3) as u32;
            options.push_str(&format!(" --from {start}"));
        }
        if self.draws.below(2) == 0 {
            places = self.draws.between(0, 5);
            options.push_str(&format!(" --limit {places}"));
        }
        (options, start, places)
    }

    fn find(&mut self) -> Exchange {
        let (options, start, places) = self.range();
        let word = self.word();
        let line = format!("find{options} -- {word}");
        let frame = query_frame(Call::OneTerm, start, &[&latin1(&word)]);
        let (mut numbers, mut counts) = (vec![0; places], vec![0; places]);
        let answer = self.ledger.list_one(&frame, &mut numbers, &mut counts);
        if answer.refusal > 0 {
            return refused(line, answer.refusal);
        }
        let pairs = numbers.iter().zip(&counts).take(answer.filled as usize);
        let lines: Vec<String> = pairs.map(|(n, count)| format!("{n}\t{count}")).collect();
        answered(line, &lines, answer.more)
    }

    fn all(&mut self) -> Exchange {
        let (options, start, places) = self.range();
        let number = [1, 2, 3, 9][self.draws.between(0, 3)];
        let words: Vec<String> = (0..number).map(|_| self.word()).collect();
        let line = format!("all{options} -- {}", words.join(" "));
        let terms: Vec<Vec<u8>> = words.iter().map(|word| latin1(word)).collect();
        let terms: Vec<&[u8]> = terms.iter().map(|term| &term[..]).collect();
        let frame = query_frame(Call::AllTerms, start, &terms);
        let mut numbers = vec![0; places];
        let answer = self.ledger.list_all(&frame, &mut numbers);
        if answer.refusal > 0 {
            return refused(line, answer.refusal);
        }
        let filled = numbers.iter().take(answer.filled as usize);
        let lines: Vec<String> = filled.map(u32::to_string).collect();
        answered(line, &lines, answer.more)
    }

    fn show(&mut self) -> Exchange {
        let number = self.draws.between(0, self.held.len() + 1);
        let line = format!("show {number}");
        match number.checked_sub(1).and_then(|place| self.held.get(place)) {
            Some(report) => answered(line, std::slice::from_ref(report), false),
            None => answered(line, &[], false),
        }
    }

    /// Plays one run on the file and compares all answers.
    fn play(&mut self, folder: &Folder, by_program: bool, name: &str) {
        let number = self.draws.between(0, LINES);
        let exchanges: Vec<Exchange> = (0..number).map(|_| self.exchange()).collect();
        let lines = exchanges
            .iter()
            .map(|exchange| exchange.line.clone() + "\n");
        let input: String = lines.collect();
        let (output, errors) = if by_program {
            let output = folder.run(&["season"], input.as_bytes());
            (output.stdout, output.stderr)
        } else {
            let (_, output, errors) = run_here(&folder.file("season"), &[], input.as_bytes());
            (output, errors)
        };
        assert_eq!(text(&errors), "", "{name}");
        let output = text(&output);
        let mut rest = &output[..];
        for exchange in &exchanges {
            let line = &exchange.line;
            let behind = rest.strip_prefix(&exchange.answer);
            let shown: String = rest.chars().take(200).collect();
            rest = behind.unwrap_or_else(|| {
                panic!(
                    "{name}: {line}\nanswered: {shown}\nexpected: {}",
                    exchange.answer
                )
            });
            if exchange.answer.starts_with("refused") {
                rest = rest.split_once('\n').expect("a whole line").1;
            }
        }
        assert_eq!(rest, "", "{name}: more answers than lines");
    }
}

/// A word of 1 to 8 characters, some with a sign that has a meaning elsewhere; each third one as long
/// as a term may be.
fn word(draws: &mut Draws, place: usize) -> String {
    let length = match place % 3 {
        2 => 36,
        _ => draws.between(1, 8),
    };
    let mut word = String::from_utf8(draws.term(length)).expect("visible characters");
    if draws.below(4) == 0 {
        word.replace_range(..1, ["-", "=", "#", "\""][draws.between(0, 3)]);
    }
    word
}

fn latin1(word: &str) -> Vec<u8> {
    word.chars().map(|character| character as u8).collect()
}

/// A report as export writes it.
fn exported(lines: &[(Vec<u8>, u32)]) -> String {
    let dashes = lines.iter().any(|(term, _)| term.starts_with(b"--"));
    let mut text = if dashes { "report --" } else { "report" }.to_string();
    for (term, count) in lines {
        let term = String::from_utf8(term.clone()).expect("held terms are ASCII");
        text.push_str(&format!(" {term}={count}"));
    }
    text
}

fn refused(line: String, number: u8) -> Exchange {
    let answer = format!("refused {number} ");
    Exchange { line, answer }
}

fn answered(line: String, lines: &[String], more: bool) -> Exchange {
    let mut answer = match (lines.len(), more) {
        (0, false) => "none\n".to_string(),
        (number, false) => format!("ok {number}\n"),
        (number, true) => format!("ok {number}+\n"),
    };
    lines.iter().for_each(|line| answer += &format!("{line}\n"));
    Exchange { line, answer }
}

#[test]
fn drawn_dialogues() {
    let mut reports = 0;
    for seed in 1..=DIALOGUES {
        let folder = Folder::new();
        folder.expect(0, &["season", "new"], b"");
        let mut dialogue = Dialogue::new(seed);
        for run in 1..=dialogue.draws.between(1, 4) {
            let by_program = dialogue.draws.below(4) == 0;
            dialogue.play(&folder, by_program, &format!("dialogue {seed}, run {run}"));
        }
        let name = format!("dialogue {seed}");
        let export = folder.expect(0, &["season", "export"], b"");
        assert_eq!(common::lines(&export), dialogue.held, "{name}");
        take_again(&folder, &export, &name);
        reports += dialogue.held.len();
    }
    assert!(reports > 12 * DIALOGUES as usize, "{reports} reports only");
}

/// Takes the exported reports into a new file, which then has the same frames, byte for byte; as one
/// group, too.
fn take_again(folder: &Folder, export: &str, name: &str) {
    let frames = |file: &str| {
        let (exit, out, _) = run_here(&folder.file(file), &["export", "--frames"], b"");
        assert_eq!(exit, 0, "{name}");
        out
    };
    for (file, options) in [("again", &[][..]), ("group", &["--all-or-nothing"])] {
        folder.expect(0, &[file, "new"], b"");
        let words = [&["import"], options].concat();
        let (exit, _, errors) = run_here(&folder.file(file), &words, export.as_bytes());
        assert_eq!((exit, &errors[..]), (0, &b""[..]), "{name}");
        assert_eq!(frames(file), frames("season"), "{name}: {file}");
        assert_eq!(
            run_here(&folder.file(file), &["verify"], b"").0,
            0,
            "{name}"
        );
    }
    // One by one, the whole log is the same.
    assert_eq!(folder.read("again"), folder.read("season"), "{name}");
}
