//! Tests of the four calls: what the tests share, and the first reports.

use super::*;
use crate::blocks::BLOCK_BYTES;
use crate::compose::{query_frame, report_frame};

mod drawn;
mod listings;
mod refusals;

/// A term of 36 bytes.
const LONG: &[u8; 36] = b"abcdefghijklmnopqrstuvwxyz0123456789";

/// Bytes after the last whole block of every arena here.
const BYTES_AFTER: usize = 5;

/// The lent memory of an index.
#[derive(Debug, Clone, PartialEq, Eq)]
struct Memory {
    arena: Vec<u8>,
    table: Vec<u32>,
    counters: Counters,
}

impl Memory {
    /// The memory of a started index. Every byte of the arena is EE.
    fn started(blocks: usize, slots: usize) -> Memory {
        let mut memory = Memory {
            arena: vec![0xEE; blocks * BLOCK_BYTES + BYTES_AFTER],
            table: vec![7; slots],
            counters: counters(9, 9, 9),
        };
        start(&mut memory.table, &mut memory.counters);
        memory
    }

    /// Memory with these used blocks, then `free` blocks in which every byte is EE, and a table
    /// in which only these slots are filled.
    fn made(
        used: &[Vec<u8>],
        free: usize,
        slots: usize,
        filled: &[(usize, u32)],
        counters: Counters,
    ) -> Memory {
        let mut arena = used.concat();
        arena.resize(arena.len() + free * BLOCK_BYTES + BYTES_AFTER, 0xEE);
        let mut table = vec![0; slots];
        for (slot, entry) in filled {
            table[*slot] = *entry;
        }
        Memory {
            arena,
            table,
            counters,
        }
    }

    fn report(&mut self, lines: &[(&[u8], u32)]) -> (u8, u32) {
        self.report_frame(&report_frame(lines))
    }

    fn report_frame(&mut self, frame: &[u8]) -> (u8, u32) {
        let answer = report(&mut self.arena, &mut self.table, &mut self.counters, frame);
        (answer.refusal, answer.number)
    }

    /// Fails unless the report is refused under this number and changes nothing.
    fn assert_refused(&mut self, lines: &[(&[u8], u32)], refusal: u8) {
        let before = self.clone();
        assert_eq!(self.report(lines), (refusal, 0));
        assert_eq!(*self, before);
    }

    /// The answer of a one-term listing and the numbers and counts that it filled.
    fn one(&self, start: u32, term: &[u8], places: usize) -> (Listing, Vec<(u32, u32)>) {
        let frame = query_frame(Call::OneTerm, start, &[term]);
        let mut numbers = vec![0; places];
        let mut counts = vec![0; places];
        let answer = list_one(
            &self.arena,
            &self.table,
            &self.counters,
            &frame,
            &mut numbers,
            &mut counts,
        );
        let pairs = numbers.into_iter().zip(counts);
        (answer, pairs.take(answer.filled as usize).collect())
    }

    /// The answer of an all-terms listing and the numbers that it filled.
    fn all(&self, start: u32, terms: &[&[u8]], places: usize) -> (Listing, Vec<u32>) {
        let frame = query_frame(Call::AllTerms, start, terms);
        let mut numbers = vec![0; places];
        let answer = list_all(
            &self.arena,
            &self.table,
            &self.counters,
            &frame,
            &mut numbers,
        );
        numbers.truncate(answer.filled as usize);
        (answer, numbers)
    }

    /// Fails unless both listings of this term are refused under this number.
    fn assert_listings_refused(&self, term: &[u8], refusal: u8) {
        assert_eq!(self.one(0, term, 4).0, Listing::refused(refusal));
        assert_eq!(self.all(0, &[term], 4).0, Listing::refused(refusal));
    }
}

fn counters(used: u32, terms: u32, reports: u32) -> Counters {
    Counters {
        used,
        terms,
        reports,
    }
}

/// The parts one after another, filled up to 64 bytes with null bytes.
fn block_of(parts: &[&[u8]]) -> Vec<u8> {
    let mut bytes = parts.concat();
    assert!(bytes.len() <= BLOCK_BYTES);
    bytes.resize(BLOCK_BYTES, 0);
    bytes
}

/// A head with these fields. All numbers are below 256, and the postings part is null.
fn head(first: u8, tail: u8, last: u8, postings: u8, offset: u8, term: &[u8]) -> Vec<u8> {
    block_of(&[
        &[0, 0, 0, first],
        &[0, 0, 0, tail],
        &[0, 0, 0, last],
        &[0, 0, 0, postings],
        &[offset, term.len() as u8],
        term,
    ])
}

/// An index with the term of 36 bytes in reports 1 to 12: ten postings in block 0, then 25 and
/// 01 in block 1. Blocks 2 and 3 are free. By 8 the hash of the term leaves a slot that is not
/// needed here.
fn two_blocks() -> Memory {
    let mut memory = Memory::started(4, 8);
    for number in 1..=12 {
        assert_eq!(memory.report(&[(LONG, 1)]), (0, number));
    }
    memory
}

#[test]
fn a_start_clears_table_and_counters_alone() {
    let memory = Memory::started(2, 5);
    assert_eq!(memory.arena, [0xEE; 2 * 64 + BYTES_AFTER]);
    assert_eq!(memory.table, [0; 5]);
    assert_eq!(memory.counters, counters(0, 0, 0));
}

/// By 8 the hash of `a` (E40C292C) leaves 4 and that of `foo` (A9F37ED7) leaves 7.
#[test]
fn the_first_reports_byte_by_byte() {
    let mut memory = Memory::started(3, 8);
    assert_eq!(memory.report(&[(b"A", 3), (b"foo", 1)]), (0, 1));
    assert_eq!(memory.table, [0, 0, 0, 0, 1, 0, 0, 2]);
    assert_eq!(memory.counters, counters(2, 2, 1));
    let mut expected = head(1, 0, 1, 1, 20, b"a");
    expected[19] = 3;
    assert_eq!(memory.arena[..64], expected);
    let mut expected = head(1, 1, 1, 1, 22, b"foo");
    expected[21] = 1;
    assert_eq!(memory.arena[64..128], expected);
    assert!(memory.arena[128..].iter().all(|byte| *byte == 0xEE));
    // The second report has a gap of 1 and a count of 4: 04 01.
    assert_eq!(memory.report(&[(b"a", 4)]), (0, 2));
    let mut expected = head(1, 0, 2, 2, 22, b"a");
    expected[19..22].copy_from_slice(&[3, 4, 1]);
    assert_eq!(memory.arena[..64], expected);
    assert_eq!(memory.table, [0, 0, 0, 0, 1, 0, 0, 2]);
    assert_eq!(memory.counters, counters(2, 2, 2));
}

#[test]
fn the_marked_chain_through_calls() {
    let mut memory = Memory::started(2, 2);
    for number in 1..=11 {
        assert_eq!(memory.report(&[(LONG, 1)]), (0, number));
        assert_eq!(memory.counters.used, if number <= 10 { 1 } else { 2 });
    }
    let first = block_of(&[
        &[0, 0, 0, 1],
        &[0, 0, 0, 1],
        &[0, 0, 0, 11],
        &[0, 0, 0, 11],
        &[5, 36],
        LONG,
        &[0x01; 10],
    ]);
    let second = block_of(&[&[0, 0, 0, 11], &[0x25]]);
    let arena = [&first[..], &second, &[0xEE; BYTES_AFTER]].concat();
    assert_eq!(memory.arena, arena);
    assert_eq!(memory.counters, counters(2, 1, 11));
}

#[test]
fn the_example_of_the_desk_program() {
    let mut memory = Memory::started(1_000, 512);
    assert_eq!(memory.report(&[(b"zn", 3), (b"P17", 1)]), (0, 1));
    assert_eq!(memory.report(&[(b"zn", 4)]), (0, 2));
    let (answer, pairs) = memory.one(0, b"zn", 16);
    assert_eq!(answer, Listing::of(2, 16));
    assert_eq!(pairs, [(1, 3), (2, 4)]);
    let (answer, numbers) = memory.all(0, &[b"zn", b"p17"], 16);
    assert_eq!(answer, Listing::of(1, 16));
    assert_eq!(numbers, [1]);
}

#[test]
fn a_report_without_lines_takes_a_number() {
    let mut memory = Memory::started(0, 0);
    assert_eq!(memory.report(&[]), (0, 1));
    assert_eq!(memory.report(&[]), (0, 2));
    assert_eq!(memory.counters, counters(0, 0, 2));
}

/// By 8 the hashes of `foo` and `foob` leave 7.
#[test]
fn the_search_goes_from_the_last_slot_to_the_first() {
    let mut memory = Memory::started(3, 8);
    assert_eq!(memory.report(&[(b"foo", 1), (b"foob", 2)]), (0, 1));
    assert_eq!(memory.table, [2, 0, 0, 0, 0, 0, 0, 1]);
    assert_eq!(memory.report(&[(b"foob", 5)]), (0, 2));
    assert_eq!(memory.one(0, b"foob", 4).1, [(1, 2), (2, 5)]);
}

#[test]
fn blocks_are_cleared_again_after_a_second_start() {
    let mut memory = two_blocks();
    start(&mut memory.table, &mut memory.counters);
    let old = memory.arena.clone();
    assert_eq!(memory.report(&[(b"a", 1)]), (0, 1));
    let mut expected = head(1, 0, 1, 1, 20, b"a");
    expected[19] = 1;
    assert_eq!(memory.arena[..64], expected);
    assert_eq!(memory.arena[64..], old[64..]);
}
