//! Questions of sort 6, on chains of blocks, and their answers.

use super::postings::code_payload;
use super::{hex, number_at, without_repeats, LONG_COUNT};
use crate::blocks::{self, End, BLOCK_BYTES};
use crate::compose::term_field;
use crate::draws::Draws;

/// Sort 6: chains around each join. In a head and in a later block, a posting of each length ends at
/// byte 63 or would end one byte later. Then come b-gaps that take more bytes than the d-gap would
/// have, many joins in a row, chains of one posting, and drawn chains.
pub fn block_questions() -> Vec<Vec<u8>> {
    let mut payloads = vec![marked_chain()];
    for term_length in [1, 2, 18, 35, 36] {
        for code_length in 1..=10 {
            payloads.push(chain_with_joins(term_length, code_length, true));
            payloads.push(chain_with_joins(term_length, code_length, false));
        }
    }
    payloads.extend(long_b_gap_chains());
    payloads.extend(chains_of_many_blocks());
    payloads.extend(chains_of_one_posting());
    payloads.extend(drawn_chains());
    without_repeats(payloads)
}

/// A chain while its question is made.
struct Chain {
    term: Vec<u8>,
    /// The numbers and counts so far.
    postings: Vec<(u32, u32)>,
    /// The blocks that they take.
    arena: Vec<u8>,
}

impl Chain {
    /// A chain without postings for a term of this length.
    fn new(term_length: usize) -> Chain {
        let letters = b"abcdefghijklmnopqrstuvwxyz".iter().cycle();
        let term = letters.skip(term_length % 26).take(term_length).copied();
        Chain {
            term: term.collect(),
            postings: Vec::new(),
            arena: Vec::new(),
        }
    }

    /// Adds the report that lies `gap` past the last one.
    fn add(&mut self, gap: u32, count: u32) {
        let last = self.postings.last().map_or(0, |(number, _)| *number);
        let number = last.checked_add(gap).expect("a report number");
        self.postings.push((number, count));
        extend_chain(&mut self.arena, &self.term, number, count);
    }

    /// How many bytes are left for postings in the tail.
    fn room(&self) -> usize {
        match End::of(&self.arena, 0) {
            Some(end) => BLOCK_BYTES - usize::from(end.head.offset),
            None => BLOCK_BYTES - 18 - self.term.len(),
        }
    }

    /// Adds reports with gaps of 1 until `left` bytes are left in the tail.
    fn fill(&mut self, left: usize) {
        let mut too_many = self.room().saturating_sub(left);
        while too_many > 0 {
            let length = too_many.min(6);
            self.add(1, SHORT_GAP_COUNTS[length - 1]);
            too_many -= length;
        }
    }

    /// The payload of the question.
    fn payload(&self) -> Vec<u8> {
        let mut payload = term_field(&self.term);
        for (number, count) in &self.postings {
            payload.extend(code_payload(*number, *count));
        }
        payload
    }
}

/// The least counts with which a gap of 1 takes 1 to 6 bytes.
const SHORT_GAP_COUNTS: [u32; 6] = [1, 4, 131, 16_387, 2_097_155, 268_435_459];

/// The least gaps that take 1 to 5 bytes when the count has a value of its own.
const GAPS_BEFORE_COUNTS: [u32; 5] = [1, 32, 4_096, 524_288, 67_108_864];

/// A gap and a count whose code takes this many bytes, 1 to 10. The gap takes as few of them as it
/// can.
fn posting_with_short_gap(code_length: usize) -> (u32, u32) {
    match code_length {
        1..=6 => (1, SHORT_GAP_COUNTS[code_length - 1]),
        _ => (GAPS_BEFORE_COUNTS[code_length - 6], LONG_COUNT),
    }
}

/// A gap and a count whose code takes this many bytes, 1 to 10. The gap takes as many of them as it
/// can.
fn posting_with_long_gap(code_length: usize) -> (u32, u32) {
    match code_length {
        1..=5 => (GAPS_BEFORE_COUNTS[code_length - 1] + 1, 1),
        _ => (67_108_864, SHORT_GAP_COUNTS[code_length - 5]),
    }
}

/// Puts a report at the end of the chain that begins in block 0. A block that is needed is put at
/// the end of the arena.
fn extend_chain(arena: &mut Vec<u8>, term: &[u8], number: u32, count: u32) {
    let end = End::of(arena, 0);
    let fits = end.is_some_and(|end| end.fits(number, count));
    let next = blocks::capacity(arena.len());
    if !fits {
        arena.resize(arena.len() + BLOCK_BYTES, 0);
    }
    let written = match end {
        None => blocks::open_head(arena, next, term, number, count),
        Some(_) if fits => blocks::add_posting(arena, 0, number, count),
        Some(_) => blocks::open_next(arena, 0, next, number, count),
    };
    written.expect("a question of sort 6 has a term, ascending numbers and no count of 0");
}

/// The chain that document 01 marks: a term of 36 bytes in reports 1 to 11, each with a count of 1.
fn marked_chain() -> Vec<u8> {
    let mut chain = Chain::new(36);
    for _ in 0..11 {
        chain.add(1, 1);
    }
    chain.payload()
}

/// A chain in which a posting of this length just fits into the head and another just does not fit
/// into the block after it, or the other way round.
fn chain_with_joins(term_length: usize, code_length: usize, fits_in_head: bool) -> Vec<u8> {
    let mut chain = Chain::new(term_length);
    let missing = usize::from(!fits_in_head);
    chain.fill(code_length - missing);
    let (gap, count) = posting_with_short_gap(code_length);
    chain.add(gap, count);
    if fits_in_head {
        chain.add(2, 3);
    }
    chain.fill(code_length - (1 - missing));
    let (gap, count) = posting_with_long_gap(code_length);
    chain.add(gap, count);
    chain.add(3, 2);
    chain.payload()
}

/// Chains with a gap of each length inside a block, so that the b-gap that opens the next block
/// takes at least as many bytes, though its d-gap is 1. The count takes no byte, 1 byte or 5 bytes
/// of its own.
fn long_b_gap_chains() -> Vec<Vec<u8>> {
    let mut payloads = Vec::new();
    for gap_before in GAPS_BEFORE_COUNTS {
        for count in [3, 4, LONG_COUNT] {
            let mut chain = Chain::new(31);
            for _ in 0..2 {
                chain.add(1, 2);
                chain.add(gap_before, 1);
                chain.fill(0);
                chain.add(1, count);
            }
            payloads.push(chain.payload());
        }
    }
    payloads
}

/// Chains of 4 to 24 blocks.
fn chains_of_many_blocks() -> Vec<Vec<u8>> {
    let mut payloads = Vec::new();
    for (term_length, code_length, blocks) in [
        (36, 10, 8),
        (1, 9, 24),
        (35, 8, 10),
        (20, 7, 9),
        (9, 6, 6),
        (36, 1, 4),
    ] {
        let mut chain = Chain::new(term_length);
        let (gap, count) = posting_with_short_gap(code_length);
        while chain.arena.len() < blocks * BLOCK_BYTES {
            chain.add(gap, count);
        }
        payloads.push(chain.payload());
    }
    payloads
}

/// Chains of one posting, and of two with the second in a block of its own.
fn chains_of_one_posting() -> Vec<Vec<u8>> {
    let mut payloads = Vec::new();
    for (term_length, gap, count) in [
        (1, 1, 1),
        (3, 33, 1),
        (7, 1, 131),
        (34, u32::MAX, 1),
        (36, u32::MAX, u32::MAX),
    ] {
        let mut chain = Chain::new(term_length);
        chain.add(gap, count);
        payloads.push(chain.payload());
    }
    let mut chain = Chain::new(36);
    chain.add(u32::MAX - 1, u32::MAX);
    chain.add(1, u32::MAX);
    payloads.push(chain.payload());
    payloads
}

/// Chains with drawn terms, gaps of up to 25 bits and drawn counts.
fn drawn_chains() -> Vec<Vec<u8>> {
    let mut draws = Draws::new(0x0606_2026);
    let mut payloads = Vec::new();
    for _ in 0..12 {
        let term_length = draws.between(1, 36);
        let mut chain = Chain::new(term_length);
        chain.term = draws.term(term_length).to_ascii_lowercase();
        for _ in 0..draws.between(8, 40) {
            let posting = draws.posting();
            chain.add(1 + (posting.gap() >> 7), posting.count());
        }
        payloads.push(chain.payload());
    }
    payloads
}

/// The term and the postings of a question of sort 6.
fn read_chain(payload: &[u8]) -> (&[u8], Vec<(u32, u32)>) {
    let (term, postings) = payload[1..].split_at(usize::from(payload[0]));
    let postings = postings
        .chunks_exact(8)
        .map(|fields| (number_at(fields, 0), number_at(fields, 4)));
    (term, postings.collect())
}

/// The answer to a question of sort 6.
pub fn block_answer(payload: &[u8]) -> String {
    let (term, postings) = read_chain(payload);
    let mut arena = Vec::new();
    let mut text = format!("blocks {}", hex(term));
    for (number, count) in postings {
        extend_chain(&mut arena, term, number, count);
        text.push_str(&format!(" {number}:{count}"));
    }
    text.push(' ');
    text.push_str(&hex(&arena));
    text
}

#[cfg(test)]
mod tests {
    use super::*;
    use crate::chains;
    use crate::postings::{self, Posting};
    use crate::terms;

    #[test]
    fn answers_of_sort_6() {
        let payload = [2, b'z', b'n', 0, 0, 0, 33, 0, 0, 0, 1];
        let answer = format!(
            "blocks 7a6e 33:1 {}{}",
            "0000002100000000000000210000000116027a6e8101",
            "00".repeat(42)
        );
        assert_eq!(block_answer(&payload), answer);
        let term = "6b6c6d6e6f707172737475767778797a6162636465666768696a6b6c6d6e6f7071727374";
        let answer = format!(
            "blocks {term} 1:1 2:1 3:1 4:1 5:1 6:1 7:1 8:1 9:1 10:1 11:1 {}{term}{}{}{}",
            "00000001000000010000000b0000000b0524",
            "01".repeat(10),
            "0000000b25",
            "00".repeat(59)
        );
        assert_eq!(block_answer(&marked_chain()), answer);
    }

    #[test]
    fn postings_of_each_length() {
        for length in 1..=10 {
            for (gap, count) in [
                posting_with_short_gap(length),
                posting_with_long_gap(length),
            ] {
                let posting = Posting::new(gap, count).expect("no 0");
                assert_eq!(postings::code(posting).len(), length);
            }
        }
    }

    /// A place at which a posting was put or would have been put: the length of the term if the
    /// block is a head, else nothing; the length of the code; and where the code would end.
    type Place = (Option<usize>, usize, usize);

    /// The places that the postings of a chain met, worked out from the lengths of codes alone.
    fn places_met(payload: &[u8]) -> Vec<Place> {
        let (term, postings) = read_chain(payload);
        let length = |base: u32, number: u32, count: u32| {
            postings::code(Posting::new(number - base, count).expect("no 0")).len()
        };
        let mut places = Vec::new();
        let mut block = Some(term.len());
        let (mut first, mut last, mut offset) = (postings[0].0, 0, 18 + term.len());
        for (number, count) in postings {
            let code = length(last, number, count);
            places.push((block, code, offset + code));
            if offset + code <= 64 {
                offset += code;
            } else {
                offset = 4 + length(first, number, count);
                first = number;
                block = None;
            }
            last = number;
        }
        places
    }

    #[test]
    fn sort_6_asks_for_every_length_at_the_end_of_a_block() {
        let places: Vec<Place> = block_questions()
            .iter()
            .flat_map(|payload| places_met(payload))
            .collect();
        let blocks = [None, Some(1), Some(2), Some(18), Some(35), Some(36)];
        for block in blocks {
            for length in 1..=10 {
                // The code ends at byte 63, or would end at byte 64.
                assert!(places.contains(&(block, length, 64)), "{block:?}, {length}");
                assert!(places.contains(&(block, length, 65)), "{block:?}, {length}");
            }
        }
    }

    /// By how many bytes the b-gap of each posting that opens a later block is longer than its d-gap
    /// would have been.
    fn lengthenings(payload: &[u8]) -> Vec<usize> {
        let (term, postings) = read_chain(payload);
        let mut arena = Vec::new();
        let mut lengthenings = Vec::new();
        for (number, count) in postings {
            let end = End::of(&arena, 0);
            extend_chain(&mut arena, term, number, count);
            let Some(end) = end.filter(|end| !end.fits(number, count)) else {
                continue;
            };
            let length =
                |base| postings::code(Posting::new(number - base, count).expect("no 0")).len();
            lengthenings.push(length(end.first) - length(end.head.last));
        }
        lengthenings
    }

    #[test]
    fn sort_6_asks_for_b_gaps_longer_than_d_gaps() {
        let lengthenings: Vec<usize> = block_questions()
            .iter()
            .flat_map(|payload| lengthenings(payload))
            .collect();
        for bytes in 0..=4 {
            let joins = lengthenings.iter().filter(|more| **more == bytes).count();
            assert!(joins >= 6, "{joins} joins with {bytes} bytes more");
        }
    }

    #[test]
    fn sort_6_asks_for_at_most_24_blocks_and_ascending_numbers() {
        let mut most = 0;
        for payload in block_questions() {
            let (term, postings) = read_chain(&payload);
            assert!((1..=36).contains(&term.len()));
            assert_eq!(terms::fold_term(term).as_deref(), Some(term));
            assert!(postings.windows(2).all(|two| two[0].0 < two[1].0));
            let mut arena = Vec::new();
            for (number, count) in postings {
                extend_chain(&mut arena, term, number, count);
            }
            most = most.max(blocks::capacity(arena.len()));
        }
        assert_eq!(most, 24);
    }

    #[test]
    fn chains_of_sort_6_are_sound() {
        for payload in block_questions() {
            let (term, postings) = read_chain(&payload);
            let mut arena = Vec::new();
            for (number, count) in &postings {
                extend_chain(&mut arena, term, *number, *count);
            }
            let used = blocks::capacity(arena.len());
            let entries = chains::read(&arena, used, u32::MAX, 0).expect("a sound chain");
            let read: Vec<(u32, u32)> = entries
                .iter()
                .map(|entry| (entry.number, entry.count))
                .collect();
            assert_eq!(read, postings);
        }
    }
}
