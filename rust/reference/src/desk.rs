//! The desk program, after the section "The desk program" of document 01.
//!
//! It cuts its input into frames, brings each to the call of its kind and writes one line for each
//! answer.

use crate::blocks::BLOCK_BYTES;
use crate::frames::{Call, LONGEST_BODY};
use crate::index::{self, Counters, Listing};

/// The blocks of the arena.
const BLOCKS: usize = 1_000;

/// The entries of the table.
const ENTRIES: usize = 512;

/// The places of each result list.
const PLACES: usize = 16;

/// The bytes of a frame before its body.
const BYTES_BEFORE_BODY: usize = 3;

/// The output of the program for this whole input.
pub fn run(input: &[u8]) -> Vec<u8> {
    let mut desk = Desk::new();
    let mut output = String::new();
    let mut rest = input;
    while !rest.is_empty() {
        let (line, after) = match cut(rest) {
            Some((frame, after)) => (desk.answer(frame), after),
            None => (desk.report(rest), &[][..]),
        };
        output.push_str(&line);
        output.push('\n');
        rest = after;
    }
    output.into_bytes()
}

/// The next frame and what comes after it, as its length field cuts them.
///
/// Nothing is given if the length is over the longest body or the input ends before the frame does.
/// The program then stops. What is left of the input is brought to taking a report, which refuses
/// it under 1 or 2.
fn cut(rest: &[u8]) -> Option<(&[u8], &[u8])> {
    let field = rest.get(1..BYTES_BEFORE_BODY)?;
    let length = usize::from(u16::from_be_bytes([field[0], field[1]]));
    if length > LONGEST_BODY || rest.len() < BYTES_BEFORE_BODY + length {
        return None;
    }
    Some(rest.split_at(BYTES_BEFORE_BODY + length))
}

/// The memory of the program.
struct Desk {
    arena: Vec<u8>,
    table: Vec<u32>,
    counters: Counters,
}

impl Desk {
    /// A started index.
    fn new() -> Desk {
        let mut desk = Desk {
            arena: vec![0; BLOCKS * BLOCK_BYTES],
            table: vec![0; ENTRIES],
            counters: Counters::default(),
        };
        index::start(&mut desk.table, &mut desk.counters);
        desk
    }

    /// The line for a frame that its length field has cut.
    ///
    /// A frame of no known kind, or without a body, is brought to taking a report, which refuses it
    /// under 1 or 3.
    fn answer(&mut self, frame: &[u8]) -> String {
        let kind = frame.get(BYTES_BEFORE_BODY);
        match kind.and_then(|kind| Call::of_kind(*kind)) {
            Some(Call::OneTerm) => self.list_one(frame),
            Some(Call::AllTerms) => self.list_all(frame),
            Some(Call::Report) | None => self.report(frame),
        }
    }

    fn report(&mut self, frame: &[u8]) -> String {
        let answer = index::report(&mut self.arena, &mut self.table, &mut self.counters, frame);
        match answer.refusal {
            0 => format!("R {}", answer.number),
            refusal => format!("E {refusal}"),
        }
    }

    fn list_one(&self, frame: &[u8]) -> String {
        let mut numbers = [0; PLACES];
        let mut counts = [0; PLACES];
        let answer = index::list_one(
            &self.arena,
            &self.table,
            &self.counters,
            frame,
            &mut numbers,
            &mut counts,
        );
        let places = numbers.iter().zip(counts);
        result_line(
            answer,
            places.map(|(number, count)| format!("{number}:{count}")),
        )
    }

    fn list_all(&self, frame: &[u8]) -> String {
        let mut numbers = [0; PLACES];
        let answer = index::list_all(
            &self.arena,
            &self.table,
            &self.counters,
            frame,
            &mut numbers,
        );
        result_line(answer, numbers.iter().map(|number| number.to_string()))
    }
}

/// The line for a listing, with the texts of the places of its lists.
fn result_line(answer: Listing, places: impl Iterator<Item = String>) -> String {
    if answer.refusal != 0 {
        return format!("E {}", answer.refusal);
    }
    let mut words = vec!["Q".to_string()];
    words.extend(places.take(answer.filled as usize));
    if answer.more {
        words.push("+".to_string());
    }
    words.join(" ")
}

#[cfg(test)]
mod tests {
    use super::*;
    use crate::compose::{framed, query_frame, report_frame};

    /// Fails unless the input gives these lines and nothing else.
    fn assert_lines(input: &[u8], lines: &[&str]) {
        let output: String = lines.iter().map(|line| format!("{line}\n")).collect();
        assert_eq!(String::from_utf8_lossy(&run(input)), output);
    }

    /// The input that document 01 gives.
    const EXAMPLE: [u8; 56] = [
        0x01, 0x00, 0x10, 0x01, 0x02, 0x7A, 0x6E, 0x00, 0x00, 0x00, 0x03, 0x03, 0x50, 0x31, 0x37,
        0x00, 0x00, 0x00, 0x01, 0x01, 0x00, 0x08, 0x01, 0x02, 0x7A, 0x6E, 0x00, 0x00, 0x00, 0x04,
        0x01, 0x00, 0x08, 0x02, 0x00, 0x00, 0x00, 0x00, 0x02, 0x7A, 0x6E, 0x01, 0x00, 0x0C, 0x03,
        0x00, 0x00, 0x00, 0x00, 0x02, 0x7A, 0x6E, 0x03, 0x70, 0x31, 0x37,
    ];

    /// The lines that document 01 gives for it.
    const EXAMPLE_LINES: [&str; 4] = ["R 1", "R 2", "Q 1:3 2:4", "Q 1"];

    #[test]
    fn the_example() {
        assert_eq!(run(&EXAMPLE), b"R 1\nR 2\nQ 1:3 2:4\nQ 1\n");
        assert_lines(&EXAMPLE, &EXAMPLE_LINES);
    }

    #[test]
    fn the_example_cut_at_each_place() {
        // The frames end after 19, 30, 41 and 56 bytes.
        let ends = [0, 19, 30, 41, 56];
        for length in 0..=EXAMPLE.len() {
            let whole = ends
                .iter()
                .filter(|end| **end > 0 && **end <= length)
                .count();
            let mut lines = EXAMPLE_LINES[..whole].to_vec();
            match length - ends[whole] {
                0 => {}
                1..=3 => lines.push("E 1"),
                _ => lines.push("E 2"),
            }
            assert_lines(&EXAMPLE[..length], &lines);
        }
    }

    #[test]
    fn no_input_gives_no_line() {
        assert_lines(&[], &[]);
    }

    #[test]
    fn a_cut_frame_of_another_version() {
        assert_lines(&[0x02, 0x00, 0x05, 0x01], &["E 1"]);
        assert_lines(&[0x00], &["E 1"]);
        assert_lines(&[0x01, 0x00, 0x05, 0x01], &["E 2"]);
        assert_lines(&[0x01, 0x00, 0x05], &["E 1"]);
    }

    #[test]
    fn the_program_stops_after_a_length_over_the_limit() {
        // The bytes after the length field are not looked at.
        let after = [&[0x01, 0x10, 0x01][..], &EXAMPLE].concat();
        assert_lines(&after, &["E 2"]);
        let after = [&EXAMPLE[..], &[0x01, 0xFF, 0xFF, 0x01]].concat();
        let lines = [&EXAMPLE_LINES[..], &["E 2"]].concat();
        assert_lines(&after, &lines);
        // Enough bytes for the whole body are there, and a sound frame after them.
        let mut long = vec![0x01, 0x10, 0x01];
        long.extend([0x01; 4_097]);
        long.extend(EXAMPLE);
        assert_lines(&long, &["E 2"]);
        // Another version, and an end right after the length field.
        assert_lines(&[0x02, 0x10, 0x01, 0x01, 0x01], &["E 1"]);
        assert_lines(&[0x01, 0x10, 0x01], &["E 1"]);
    }

    #[test]
    fn the_longest_body_is_taken() {
        // The kind, then 99 lines of 41 bytes and one of 36.
        let words: Vec<String> = (0..99).map(|number| format!("{number:036}")).collect();
        let mut lines: Vec<(&[u8], u32)> = words.iter().map(|word| (word.as_bytes(), 1)).collect();
        lines.push((&[b'x'; 31], 1));
        let frame = report_frame(&lines);
        assert_eq!(frame.len(), 3 + 4_096);
        let input = [&frame[..], &query_frame(Call::OneTerm, 0, &[&[b'X'; 31]])].concat();
        assert_lines(&input, &["R 1", "Q 1:1"]);
    }

    #[test]
    fn the_program_goes_on_after_other_refusals() {
        let input = [
            // Another version with a body of 5 bytes, and a length of 0.
            vec![0x02, 0x00, 0x05, 1, 2, 3, 4, 5],
            vec![0x01, 0x00, 0x00],
            vec![0x07, 0x00, 0x00],
            framed(&[0x01, 1]),
            report_frame(&[(b"a a", 1)]),
            report_frame(&[(b"a", 0)]),
            report_frame(&[(b"a", 1), (b"A", 1)]),
            report_frame(&[(b"a", 1)]),
            query_frame(Call::OneTerm, 0, &[b"a", b"b"]),
            query_frame(Call::AllTerms, 0, &[b"\x7F"]),
            query_frame(Call::AllTerms, 0, &[b"a"]),
        ];
        let lines = [
            "E 1", "E 1", "E 1", "E 4", "E 5", "E 6", "E 7", "R 1", "E 4", "E 5", "Q 1",
        ];
        assert_lines(&input.concat(), &lines);
    }

    #[test]
    fn other_kinds() {
        for kind in [0x00, 0x04, 0x05, 0x7F, 0x81, 0xFF] {
            let input = [framed(&[kind]), framed(&[kind, 1, 2, 3]), framed(&[0x01])];
            assert_lines(&input.concat(), &["E 3", "E 3", "R 1"]);
            // 1 and 2 come before 3.
            assert_lines(&[0x02, 0x00, 0x01, kind], &["E 1"]);
            assert_lines(&[0x01, 0x00, 0x02, kind], &["E 2"]);
        }
    }

    #[test]
    fn lists_of_16_places() {
        let mut input = Vec::new();
        let mut lines: Vec<String> = Vec::new();
        for number in 1..=17 {
            input.extend(report_frame(&[(b"a", 2)]));
            lines.push(format!("R {number}"));
            if number < 16 {
                continue;
            }
            input.extend(query_frame(Call::OneTerm, 0, &[b"a"]));
            input.extend(query_frame(Call::AllTerms, 0, &[b"a"]));
            let more = if number == 17 { " +" } else { "" };
            let pairs: String = (1..=16).map(|number| format!(" {number}:2")).collect();
            let numbers: String = (1..=16).map(|number| format!(" {number}")).collect();
            lines.push(format!("Q{pairs}{more}"));
            lines.push(format!("Q{numbers}{more}"));
        }
        input.extend(query_frame(Call::OneTerm, 18, &[b"a"]));
        input.extend(query_frame(Call::AllTerms, 17, &[b"a", b"a"]));
        input.extend(query_frame(Call::AllTerms, 0, &[b"a", b"b"]));
        lines.extend(["Q", "Q 17", "Q"].map(str::to_string));
        let lines: Vec<&str> = lines.iter().map(String::as_str).collect();
        assert_lines(&input, &lines);
    }

    #[test]
    fn the_table_holds_256_terms() {
        // 256 terms are held, half of 512, and the next is refused.
        let words: Vec<String> = (0..257).map(|number| format!("t{number}")).collect();
        let mut input = Vec::new();
        let mut lines: Vec<String> = (1..=256).map(|number| format!("R {number}")).collect();
        lines.push("E 11".to_string());
        for word in &words {
            input.extend(report_frame(&[(word.as_bytes(), 1)]));
        }
        let lines: Vec<&str> = lines.iter().map(String::as_str).collect();
        assert_lines(&input, &lines);
    }

    #[test]
    fn the_arena_has_1_000_blocks() {
        // A term of 36 bytes with 10 bytes of postings in its head: report 1 takes 6 bytes. All
        // later postings take 6 bytes too, so that 10 stand in a block: 1 + 10 x 999 reports.
        let frame = report_frame(&[(&[b'w'; 36], 268_435_459)]);
        let output = run(&frame.repeat(9_993));
        let text = String::from_utf8(output).expect("text");
        let lines: Vec<&str> = text.lines().collect();
        assert_eq!(lines.len(), 9_993);
        assert_eq!(lines[9_989..], ["R 9990", "R 9991", "E 12", "E 12"]);
    }
}
