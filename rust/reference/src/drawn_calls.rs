//! Drawn calls for tests: reports and queries, sound and faulty, with the lists lent to them.
//!
//! Nothing here stands for a rule of document 01. What is drawn depends on the seed of the draws
//! alone.

use std::collections::BTreeSet;

use crate::compose::{query_frame, report_frame};
use crate::draws::Draws;
use crate::frames::{Call, LONGEST_BODY};
use crate::terms::LONGEST_TERM;

/// A call, with all that is lent to it but arena, table and counters.
#[derive(Debug, Clone, PartialEq, Eq)]
pub enum DrawnCall {
    /// A start.
    Start,
    /// A frame brought to taking a report.
    Report {
        /// The frame.
        frame: Vec<u8>,
    },
    /// A frame brought to the one-term listing.
    ListOne {
        /// The frame.
        frame: Vec<u8>,
        /// The list of numbers, with any contents.
        numbers: Vec<u32>,
        /// The list of counts, with any contents.
        counts: Vec<u32>,
    },
    /// A frame brought to the all-terms listing.
    ListAll {
        /// The frame.
        frame: Vec<u8>,
        /// The list of numbers, with any contents.
        numbers: Vec<u32>,
    },
}

/// Counts at which the length of a code changes, and the largest.
const COUNTS_AT_BOUNDS: [u32; 6] = [3, 4, 130, 131, u32::MAX - 1, u32::MAX];

/// Bytes at the bounds of what a term may hold, of folding and of a term's length.
const BYTES_AT_BOUNDS: [u8; 14] = [
    0x00, 0x20, 0x21, 35, 36, 37, 0x40, b'A', b'Z', 0x5B, 0x7E, 0x7F, 0x80, 0xFF,
];

/// What calls are drawn from.
#[derive(Debug, Clone)]
pub struct Source {
    /// The draws.
    pub draws: Draws,
    /// The terms of all calls, in any spelling.
    pub words: Vec<Vec<u8>>,
    /// Of how many calls one is a listing.
    pub listing_in: u64,
    /// Of how many frames one has a fault.
    pub fault_in: u64,
    /// Of how many calls one is a start.
    pub start_in: u64,
    /// The most lines of a report.
    pub lines: usize,
}

impl Source {
    /// Draws this many terms; every third one has 36 bytes, and the others have up to 12.
    pub fn draw_words(&mut self, number: usize) {
        self.words.clear();
        for place in 0..number {
            let length = if place % 3 == 2 {
                LONGEST_TERM
            } else {
                self.draws.between(1, 12)
            };
            self.words.push(self.draws.term(length));
        }
    }

    /// One call, for an index that holds this many reports.
    pub fn call(&mut self, reports: u32) -> DrawnCall {
        if self.draws.below(self.start_in) == 0 {
            DrawnCall::Start
        } else if self.draws.below(self.listing_in) == 0 {
            self.listing(reports)
        } else {
            let frame = self.report();
            DrawnCall::Report {
                frame: self.perhaps_faulty(frame),
            }
        }
    }

    /// One listing.
    fn listing(&mut self, reports: u32) -> DrawnCall {
        let call = [Call::OneTerm, Call::AllTerms][self.draws.between(0, 1)];
        let frame = self.query(call, reports);
        let frame = self.perhaps_faulty(frame);
        let numbers = self.list();
        if call == Call::AllTerms {
            return DrawnCall::ListAll { frame, numbers };
        }
        DrawnCall::ListOne {
            frame,
            numbers,
            counts: self.list(),
        }
    }

    /// A result list with any contents. Lengths of 0 and 1 are common.
    fn list(&mut self) -> Vec<u32> {
        let most = [1, 3, 20][self.draws.between(0, 2)];
        let length = self.draws.between(0, most);
        (0..length).map(|_| self.draws.number()).collect()
    }

    /// The frame of a report. In some a term stands twice, and in some a count is 0.
    fn report(&mut self) -> Vec<u8> {
        let mut words = self.some_words(self.lines);
        if self.draws.below(2 * self.fault_in) > 0 {
            without_repeats(&mut words);
        }
        let lines: Vec<(&[u8], u32)> = words.iter().map(|word| (&word[..], self.count())).collect();
        report_frame(&lines)
    }

    /// A count, now and then one at a bound or 0.
    fn count(&mut self) -> u32 {
        if self.draws.below(10 * self.fault_in) == 0 {
            return 0;
        }
        if self.draws.below(20) == 0 {
            return COUNTS_AT_BOUNDS[self.draws.between(0, COUNTS_AT_BOUNDS.len() - 1)];
        }
        self.draws.posting().count()
    }

    /// The frame of a query from a drawn start.
    fn query(&mut self, call: Call, reports: u32) -> Vec<u8> {
        let most = [1, 3, 8][self.draws.between(0, 2)];
        let words = match call {
            Call::OneTerm => vec![self.word()],
            _ => self.some_words(most),
        };
        let words: Vec<&[u8]> = words.iter().map(|word| &word[..]).collect();
        let start = match self.draws.below(30) {
            0..=9 => 0,
            10 => u32::MAX,
            _ => self.draws.below(u64::from(reports) + 3) as u32,
        };
        query_frame(call, start, &words)
    }

    /// One of the terms, in half of all cases in capitals or in small letters alone. Now and then it
    /// has no byte, or one too many.
    fn word(&mut self) -> Vec<u8> {
        if self.draws.below(20 * self.fault_in) == 0 {
            let length = [0, LONGEST_TERM + 1][self.draws.between(0, 1)];
            return self.draws.term(length);
        }
        let place = self.draws.between(0, self.words.len() - 1);
        let word = &self.words[place];
        match self.draws.below(4) {
            0 => word.to_ascii_uppercase(),
            1 => word.to_ascii_lowercase(),
            _ => word.clone(),
        }
    }

    /// Up to `most` of the terms.
    fn some_words(&mut self, most: usize) -> Vec<Vec<u8>> {
        let number = self.draws.between(0, most);
        (0..number).map(|_| self.word()).collect()
    }

    /// Changes the frame, if it is its turn to have a fault.
    fn perhaps_faulty(&mut self, mut frame: Vec<u8>) -> Vec<u8> {
        if self.draws.below(self.fault_in) == 0 {
            change(&mut self.draws, &mut frame);
        }
        frame
    }
}

/// Leaves out each term that stands there before in some spelling.
fn without_repeats(words: &mut Vec<Vec<u8>>) {
    let mut met = BTreeSet::new();
    words.retain(|word| met.insert(word.to_ascii_lowercase()));
}

/// Changes a frame: one byte or bit, a byte more or less, a cut, a wrong length field, bytes behind
/// its end, or another frame altogether.
fn change(draws: &mut Draws, frame: &mut Vec<u8>) {
    let place = draws.between(0, frame.len() - 1);
    match draws.below(16) {
        0 | 1 => frame[place] = draws.byte(),
        2 | 3 => frame[place] = BYTES_AT_BOUNDS[draws.between(0, BYTES_AT_BOUNDS.len() - 1)],
        4..=6 => frame[place] ^= 1 << draws.below(8),
        7 => {
            frame.remove(place);
        }
        8 => frame.insert(place, draws.byte()),
        9 => frame.truncate(place),
        10 => write_length(frame, draws.number() as usize),
        11 => {
            // The length field is right again, so that the fields are judged.
            frame.truncate(place.max(3) + 1);
            set_length(frame);
        }
        12 => {
            frame.remove(place);
            set_length(frame);
        }
        13 => {
            frame.insert(place, draws.byte());
            set_length(frame);
        }
        14 => {
            let length = draws.between(0, 40);
            *frame = draws.bytes(length);
        }
        _ => {
            let body = [frame.len(), LONGEST_BODY, LONGEST_BODY + 1][draws.between(0, 2)];
            let missing = (body + 3).saturating_sub(frame.len());
            frame.extend(draws.bytes(missing));
            set_length(frame);
        }
    }
}

/// Writes the number of bytes after the length field into it, if there is one.
fn set_length(frame: &mut [u8]) {
    write_length(frame, frame.len().saturating_sub(3));
}

/// Writes the lowest two bytes of a number into the length field, if there is one.
fn write_length(frame: &mut [u8], length: usize) {
    if let Some(field) = frame.get_mut(1..3) {
        field.copy_from_slice(&(length as u16).to_be_bytes());
    }
}
