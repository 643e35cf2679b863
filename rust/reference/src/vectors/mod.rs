//! The questions put to both implementations, and the answers that this one gives.
//!
//! A question has a sort and a payload. In the file of questions it stands as one byte for the
//! sort, two bytes, big-endian, for the length of the payload, and the payload. Each question is
//! answered with one line of text.
//!
//! All questions are the same each time they are made. Where they are drawn, each sort starts its
//! own generator from its own fixed seed, so that leaving out or changing one sort leaves the
//! others as they are.

use crate::draws::Draws;

mod calls;
mod chains;
mod frames;
mod hashes;
mod postings;
mod terms;

pub use calls::{call_answer, call_questions};
pub use chains::{block_answer, block_questions};
pub use frames::{frame_answer, frame_questions};
pub use hashes::{fnv_answer, fnv_questions};
pub use postings::{code_answer, code_questions, decode_answer, decode_questions};
pub use terms::{term_answer, term_questions};

/// A sort of question.
pub struct Sort {
    /// The number of the sort.
    pub number: u8,
    /// Makes the payloads of all questions of this sort.
    pub questions: fn() -> Vec<Vec<u8>>,
    /// Gives the line, without its end, that answers the question with this payload.
    pub answer: fn(&[u8]) -> String,
}

impl Sort {
    const fn new(number: u8, questions: fn() -> Vec<Vec<u8>>, answer: fn(&[u8]) -> String) -> Sort {
        Sort {
            number,
            questions,
            answer,
        }
    }
}

/// The sorts that are included, in the order in which they are written. Deleting a line leaves its
/// sort out.
pub const SORTS: &[Sort] = &[
    Sort::new(1, fnv_questions, fnv_answer),
    Sort::new(2, code_questions, code_answer),
    Sort::new(3, decode_questions, decode_answer),
    Sort::new(4, term_questions, term_answer),
    Sort::new(5, frame_questions, frame_answer),
    Sort::new(6, block_questions, block_answer),
    Sort::new(7, call_questions, call_answer),
];

/// The content of the file of questions.
pub fn all_questions() -> Vec<u8> {
    let mut bytes = Vec::new();
    for sort in SORTS {
        for payload in (sort.questions)() {
            bytes.extend(written_question(sort.number, &payload));
        }
    }
    bytes
}

/// The content of the file of answers.
pub fn all_answers() -> Vec<u8> {
    let mut text = String::new();
    for sort in SORTS {
        for payload in (sort.questions)() {
            text.push_str(&(sort.answer)(&payload));
            text.push('\n');
        }
    }
    text.into_bytes()
}

/// A question as it stands in the file of questions.
fn written_question(sort: u8, payload: &[u8]) -> Vec<u8> {
    let length = u16::try_from(payload.len()).expect("a payload has at most 65,535 bytes");
    let mut bytes = vec![sort];
    bytes.extend(length.to_be_bytes());
    bytes.extend(payload);
    bytes
}

/// Two hexadecimal digits for each byte, or `-` if there is none.
fn hex(bytes: &[u8]) -> String {
    if bytes.is_empty() {
        return "-".to_string();
    }
    bytes.iter().map(|byte| format!("{byte:02x}")).collect()
}

/// The payloads in order, each only once.
fn without_repeats(payloads: Vec<Vec<u8>>) -> Vec<Vec<u8>> {
    let mut kept: Vec<Vec<u8>> = Vec::new();
    for payload in payloads {
        if !kept.contains(&payload) {
            kept.push(payload);
        }
    }
    kept
}

/// The parts one after another.
fn joined(parts: &[&[u8]]) -> Vec<u8> {
    parts.concat()
}

/// The four bytes at `place`, big-endian.
fn number_at(bytes: &[u8], place: usize) -> u32 {
    u32::from_be_bytes([
        bytes[place],
        bytes[place + 1],
        bytes[place + 2],
        bytes[place + 3],
    ])
}

/// Nine different terms, one more than a query may name.
const NINE_TERMS: [&[u8]; 9] = [b"a", b"b", b"c", b"d", b"e", b"f", b"g", b"h", b"i"];

/// A count that takes 5 bytes beside the gap.
const LONG_COUNT: u32 = 268_435_459;

/// Changes a byte, takes one out or puts one in, at a drawn place that is not the first.
fn change(draws: &mut Draws, bytes: &mut Vec<u8>) {
    let place = draws.between(1, bytes.len() - 1);
    match draws.below(3) {
        0 => bytes[place] = draws.byte(),
        1 => {
            bytes.remove(place);
        }
        _ => bytes.insert(place, draws.byte()),
    }
}

#[cfg(test)]
mod tests {
    use super::*;

    /// How many of the answers to these payloads say that something is refused.
    pub(super) fn refused(payloads: &[Vec<u8>], answer: fn(&[u8]) -> String) -> usize {
        payloads
            .iter()
            .filter(|payload| answer(payload).contains(" refused"))
            .count()
    }

    #[test]
    fn a_question_as_written() {
        assert_eq!(
            written_question(1, b"foo"),
            [0x01, 0x00, 0x03, 0x66, 0x6F, 0x6F]
        );
        assert_eq!(written_question(4, b""), [0x04, 0x00, 0x00]);
        assert_eq!(
            written_question(3, &[0x80; 258])[..4],
            [0x03, 0x01, 0x02, 0x80]
        );
    }

    #[test]
    fn hexadecimal_digits() {
        assert_eq!(hex(&[]), "-");
        assert_eq!(hex(&[0x00, 0x0A, 0xFF]), "000aff");
    }

    #[test]
    fn questions_are_the_same_each_time() {
        assert_eq!(all_questions(), all_questions());
        assert_eq!(all_answers(), all_answers());
    }

    #[test]
    fn the_file_of_questions_stays_small() {
        assert!(all_questions().len() < 120_000);
    }

    #[test]
    fn no_question_is_asked_twice() {
        for sort in SORTS {
            let payloads = (sort.questions)();
            assert_eq!(
                without_repeats(payloads.clone()).len(),
                payloads.len(),
                "sort {}",
                sort.number
            );
        }
    }

    #[test]
    fn every_question_has_one_line() {
        let questions: usize = SORTS.iter().map(|sort| (sort.questions)().len()).sum();
        let lines = all_answers().iter().filter(|byte| **byte == b'\n').count();
        assert_eq!(lines, questions);
    }
}
