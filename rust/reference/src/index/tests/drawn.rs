//! Tests on drawn memory, and on a grown index of which each byte is edited.

use super::*;
use crate::draws::Draws;

/// Memory with drawn contents. All blocks pass for heads of the terms `a` to `f`, with drawn
/// tails and write offsets, and most slots lead to the term that belongs there.
fn drawn_memory(draws: &mut Draws) -> Memory {
    let blocks = draws.between(0, 6);
    let slots = draws.between(0, 20);
    let reports = draws.below(40) as u32;
    let mut arena = draws.bytes(blocks * BLOCK_BYTES + BYTES_AFTER);
    for block in arena.chunks_exact_mut(BLOCK_BYTES) {
        for field in [0, 4, 8, 12] {
            let most = if field == 4 {
                blocks - 1
            } else {
                reports as usize
            };
            block[field..field + 3].fill(0);
            block[field + 3] = draws.between(0, most) as u8;
        }
        let last_offset = [18, 64][draws.between(0, 1)];
        block[16] = draws.between(5, last_offset) as u8;
        block[17] = 1;
        block[18] = b'a' + draws.below(6) as u8;
    }
    let used = draws.between(blocks / 2, blocks) as u64;
    let terms = draws.below(used.min(slots as u64 / 2) + 1);
    let mut table = vec![0; slots];
    for number in 0..used as u32 {
        let term = [arena[number as usize * BLOCK_BYTES + 18]];
        let found = lookup::find(&arena, &table, used as u32, &term);
        if let Ok(Found::Unknown { slot: Some(slot) }) = found {
            table[slot] = number + 1;
        }
    }
    if slots > 0 && draws.below(4) == 0 {
        table[draws.between(0, slots - 1)] = draws.below(used + 2) as u32;
    }
    Memory {
        arena,
        table,
        counters: counters(used as u32, terms as u32, reports),
    }
}

/// Lines with different terms of one letter.
fn drawn_lines(draws: &mut Draws) -> Vec<(Vec<u8>, u32)> {
    let first = draws.below(6);
    let lines = draws.below(5);
    let letters = (first..first + lines).map(|place| b'a' + (place % 6) as u8);
    letters
        .map(|letter| (vec![letter], draws.posting().count()))
        .collect()
}

/// Fails if a report changed anything that its answer does not allow.
fn assert_allowed(before: &Memory, after: &Memory, refusal: u8, number: u32) {
    if !matches!(refusal, 0 | WRITING) {
        assert_eq!((after, number), (before, 0));
        return;
    }
    let reports = before.counters.reports + u32::from(refusal == 0);
    assert_eq!(after.counters.reports, reports);
    assert_eq!(number, if refusal == 0 { reports } else { 0 });
    let used = after.counters.used as usize;
    assert!(used >= before.counters.used as usize);
    assert_eq!(
        after.arena[used * BLOCK_BYTES..],
        before.arena[used * BLOCK_BYTES..]
    );
    let new_terms = after.counters.terms - before.counters.terms;
    let slots = before.table.iter().zip(&after.table);
    let changed: Vec<_> = slots.filter(|(old, new)| old != new).collect();
    assert_eq!(changed.len(), new_terms as usize);
    assert!(changed.iter().all(|(old, _)| **old == 0));
}

#[test]
fn reports_on_drawn_memory() {
    let mut draws = Draws::new(0x1D01_2026);
    let mut answers = [0; 14];
    for _ in 0..60_000 {
        let mut memory = drawn_memory(&mut draws);
        let before = memory.clone();
        let lines = drawn_lines(&mut draws);
        let lines: Vec<(&[u8], u32)> = lines
            .iter()
            .map(|(term, count)| (&term[..], *count))
            .collect();
        let (refusal, number) = memory.report(&lines);
        assert_allowed(&before, &memory, refusal, number);
        answers[usize::from(refusal)] += 1;
    }
    for refusal in [0, 10, 11, 12, 13] {
        assert!(answers[refusal] > 100, "answers {answers:?}");
    }
}

#[test]
fn listings_on_drawn_memory() {
    let mut draws = Draws::new(0x1D02_2026);
    for _ in 0..30_000 {
        let memory = drawn_memory(&mut draws);
        let lines = drawn_lines(&mut draws);
        let terms: Vec<&[u8]> = lines.iter().map(|(term, _)| &term[..]).collect();
        let start = draws.below(40) as u32;
        let places = draws.between(0, 9);
        let (_, numbers) = memory.all(start, &terms, places);
        assert!(numbers.windows(2).all(|two| two[0] < two[1]));
        for number in numbers {
            assert!(start <= number && number <= memory.counters.reports);
        }
        memory.one(start, b"a", places);
    }
}

#[test]
fn every_edited_byte_of_a_grown_index() {
    let grown = two_blocks();
    for place in 0..2 * BLOCK_BYTES {
        for byte in 0..=255 {
            let mut memory = grown.clone();
            memory.arena[place] = byte;
            let before = memory.clone();
            let (answer, _) = memory.one(0, LONG, 20);
            assert!(matches!(answer.refusal, 0 | DAMAGE), "byte {place}, {byte}");
            let (refusal, number) = memory.report(&[(LONG, 1)]);
            assert!(matches!(refusal, 0 | DAMAGE), "byte {place}, {byte}");
            assert_allowed(&before, &memory, refusal, number);
        }
    }
}
