//! Tests of the refusals of reports and listings, and of memory that a line of the same report
//! changes.

use super::*;
use crate::compose::framed;

#[test]
fn refusals_of_frames_come_first() {
    let mut memory = Memory::started(1, 2);
    memory.counters = counters(9, 9, u32::MAX);
    let before = memory.clone();
    assert_eq!(memory.report_frame(&[]), (1, 0));
    assert_eq!(memory.report_frame(&[1, 0, 2, 1]), (2, 0));
    assert_eq!(memory.report_frame(&framed(&[2])), (3, 0));
    assert_eq!(memory.report_frame(&framed(&[1, 1])), (4, 0));
    assert_eq!(memory.report(&[(b" ", 1)]), (5, 0));
    assert_eq!(memory.report(&[(b"a", 0)]), (6, 0));
    assert_eq!(memory.report(&[(b"a", 1), (b"A", 1)]), (7, 0));
    assert_eq!(memory.report(&[(b"a", 1)]), (8, 0));
    memory.assert_listings_refused(b" ", 5);
    memory.assert_listings_refused(b"a", 8);
    assert_eq!(memory.all(0, &[], 4).0, Listing::refused(4));
    assert_eq!(memory, before);
}

#[test]
fn refusal_8_for_each_counter() {
    for (used, terms, sound) in [
        (4, 2, true),
        (5, 2, false),
        (u32::MAX, 0, false),
        (4, 3, false),
        (1, 2, false),
        (2, 2, true),
        (0, 0, true),
    ] {
        // 4 blocks, and 5 slots for 2 terms. The term `b` is unknown, and block 0 sound.
        let blocks = vec![head(1, 0, 1, 1, 20, b"a"); 4];
        let mut memory = Memory::made(&blocks, 0, 5, &[], counters(used, terms, 1));
        if sound {
            assert_eq!(memory.one(0, b"b", 4).0.refusal, 0);
            assert_eq!(memory.all(0, &[b"b"], 4).0.refusal, 0);
            assert_eq!(memory.report(&[]), (0, 2));
        } else {
            memory.assert_listings_refused(b"b", 8);
            memory.assert_refused(&[], 8);
        }
    }
}

#[test]
fn refusal_9_when_no_number_is_left() {
    let mut memory = Memory::started(1, 2);
    memory.counters.reports = u32::MAX;
    memory.assert_refused(&[], 9);
    memory.assert_refused(&[(b"a", 1)], 9);
    // Listings go on, and 8 comes first.
    assert_eq!(memory.one(0, b"a", 4).0.refusal, 0);
    memory.counters.used = 2;
    memory.assert_refused(&[], 8);
    // The last number is given out.
    memory.counters = counters(0, 0, u32::MAX - 1);
    assert_eq!(memory.report(&[(b"a", 1)]), (0, u32::MAX));
    assert_eq!(memory.one(0, b"a", 4).1, [(u32::MAX, 1)]);
    memory.assert_refused(&[(b"a", 1)], 9);
}

/// Memory with a chain for `a` in block 0 and one for `b` in block 1, 7 reports, a free block,
/// and 8 slots. By 8 the hash of `a` leaves 4 and that of `b` leaves 5.
///
/// `a` has gaps of 2, 1 and 4 (bytes 05, 01, 0D), so it stands in reports 2, 3 and 7; `b` has
/// gaps of 2 and 4 (05, 0D).
fn two_heads() -> Memory {
    let mut first = head(2, 0, 7, 3, 22, b"a");
    first[19..22].copy_from_slice(&[0x05, 0x01, 0x0D]);
    let mut second = head(2, 1, 6, 2, 21, b"b");
    second[19..21].copy_from_slice(&[0x05, 0x0D]);
    let filled = [(4, 1), (5, 2)];
    Memory::made(&[first, second], 1, 8, &filled, counters(2, 2, 7))
}

#[test]
fn memory_of_two_heads_is_sound() {
    let mut memory = two_heads();
    assert_eq!(memory.one(0, b"a", 4).1, [(2, 1), (3, 1), (7, 1)]);
    assert_eq!(memory.one(0, b"b", 4).1, [(2, 1), (6, 1)]);
    assert_eq!(memory.report(&[(b"a", 1), (b"b", 1)]), (0, 8));
    assert_eq!(memory.one(8, b"a", 4).1, [(8, 1)]);
    assert_eq!(memory.one(8, b"b", 4).1, [(8, 1)]);
}

#[test]
fn refusal_10_for_one_edited_byte_in_taking_a_report() {
    // In block 1: the tail, the last report, the number of postings, the write offset (not past
    // byte 19, or over 64), and the first report.
    for (place, byte) in [(7, 2), (11, 8), (15, 8), (16, 19), (16, 65), (3, 8)] {
        let mut memory = two_heads();
        memory.arena[64 + place] = byte;
        memory.assert_refused(&[(b"a", 1), (b"b", 1)], 10);
        memory.assert_refused(&[(b"b", 1), (b"a", 1)], 10);
        memory.assert_refused(&[(b"c", 1), (b"b", 1)], 10);
        assert_eq!(memory.report(&[(b"a", 1)]), (0, 8));
    }
    // The largest values that are in place.
    for (place, byte) in [(11, 7), (15, 7), (16, 64), (3, 7)] {
        let mut memory = two_heads();
        memory.arena[64 + place] = byte;
        assert_eq!(memory.report(&[(b"a", 1), (b"b", 1)]), (0, 8));
    }
}

#[test]
fn refusal_10_for_one_edited_slot() {
    // The slot of `b` leads to block 2, which is not used.
    let mut memory = two_heads();
    memory.table[5] = 3;
    memory.assert_refused(&[(b"a", 1), (b"b", 1)], 10);
    memory.assert_listings_refused(b"b", 10);
    assert_eq!(memory.one(0, b"a", 4).0.refusal, 0);
    // All slots but one are filled, then all.
    let mut memory = two_heads();
    memory.table.fill(1);
    memory.table[1] = 0;
    assert_eq!(memory.one(0, b"b", 4).0, Listing::of(0, 4));
    memory.table[1] = 1;
    memory.assert_refused(&[(b"b", 1)], 10);
    memory.assert_listings_refused(b"b", 10);
    assert_eq!(memory.one(0, b"a", 4).0, Listing::of(3, 4));
}

#[test]
fn refusal_10_for_one_edited_byte_in_listing() {
    let edits = [
        // The link and the tail are not used; the link leads back.
        (3, 2),
        (7, 2),
        (3, 0),
        // The head and the tail have no posting.
        (54, 0x00),
        (64 + 4, 0x00),
        // The write offset.
        (16, 4),
        (16, 65),
        // A code goes on past the block's end, and past the write offset.
        (63, 0x81),
        (64 + 5, 0x81),
        // Report 12 comes out as 13; report 11 comes out as 10.
        (64 + 4, 0x29),
        (64 + 4, 0x21),
        // The number of postings and the last report.
        (15, 11),
        (11, 11),
    ];
    let sound = two_blocks();
    assert_eq!(sound.one(0, LONG, 20).0, Listing::of(12, 20));
    for (place, byte) in edits {
        let mut memory = sound.clone();
        assert_ne!(memory.arena[place], byte);
        memory.arena[place] = byte;
        memory.assert_listings_refused(LONG, 10);
    }
}

#[test]
fn refusal_10_in_listing_comes_before_an_empty_result() {
    // The chain of `b` counts one posting too many.
    let mut memory = two_heads();
    memory.arena[64 + 15] += 1;
    for terms in [[b"b", b"x"], [b"x", b"b"], [b"a", b"b"]] {
        let terms: Vec<&[u8]> = terms.iter().map(|term| &term[..]).collect();
        assert_eq!(memory.all(0, &terms, 4).0, Listing::refused(10));
    }
    // Also where the start lies past all reports, and where the lists have no places.
    assert_eq!(memory.one(100, b"b", 4).0, Listing::refused(10));
    assert_eq!(memory.one(0, b"b", 0).0, Listing::refused(10));
    // A chain that is not named is not read.
    assert_eq!(memory.all(0, &[b"a", b"x"], 4).0, Listing::of(0, 4));
}

#[test]
fn refusal_11_for_more_terms_than_half_the_slots() {
    for (slots, terms) in [(0, 0), (1, 0), (2, 1), (3, 1), (4, 2), (5, 2)] {
        let mut memory = Memory::started(8, slots);
        let lines: [(&[u8], u32); 3] = [(b"a", 1), (b"b", 1), (b"c", 1)];
        memory.assert_refused(&lines[..terms + 1], 11);
        assert_eq!(memory.report(&lines[..terms]), (0, 1));
        assert_eq!(memory.counters, counters(terms as u32, terms as u32, 1));
        memory.assert_refused(&[(b"x", 1)], 11);
        // Known terms alone are no reason to refuse.
        assert_eq!(memory.report(&lines[..terms]), (0, 2));
    }
}

#[test]
fn refusal_12_for_more_blocks_than_are_left() {
    let mut memory = Memory::started(2, 8);
    memory.assert_refused(&[(b"a", 1), (b"b", 1), (b"c", 1)], 12);
    assert_eq!(memory.report(&[(b"a", 1)]), (0, 1));
    memory.assert_refused(&[(b"a", 1), (b"b", 1), (b"c", 1)], 12);
    assert_eq!(memory.report(&[(b"b", 1)]), (0, 2));
    memory.assert_refused(&[(b"c", 1)], 12);
    memory.assert_refused(&[(b"a", 1), (b"c", 1)], 12);
    assert_eq!(memory.report(&[(b"a", 1), (b"b", 1)]), (0, 3));
}

#[test]
fn refusal_12_for_a_join_without_a_block() {
    // Ten reports fill the head; the only block is used.
    let mut memory = Memory::started(1, 2);
    for number in 1..=10 {
        assert_eq!(memory.report(&[(LONG, 1)]), (0, number));
    }
    assert_eq!(memory.arena[16], 64);
    memory.assert_refused(&[(LONG, 1)], 12);
    assert_eq!(memory.report(&[]), (0, 11));
    assert_eq!(memory.one(10, LONG, 2).1, [(10, 1)]);
}

#[test]
fn refusals_10_to_12_in_order() {
    // With one term held, two new ones are too many for 4 slots. With none held they are not,
    // but there is only one free block.
    let mut memory = two_heads();
    memory.table = vec![1, 2, 0, 0];
    memory.counters.terms = 1;
    // By 4 the hash of `a` leaves 0, that of `b` 1 and that of `c` 2.
    memory.assert_refused(&[(b"c", 1), (b"d", 1)], 11);
    memory.counters.terms = 0;
    memory.assert_refused(&[(b"c", 1), (b"d", 1)], 12);
    memory.arena[16] = 0;
    memory.assert_refused(&[(b"c", 1), (b"d", 1), (b"a", 1)], 10);
    memory.counters.terms = 2;
    memory.assert_refused(&[(b"c", 1), (b"d", 1), (b"a", 1)], 10);
}

/// The chain of `a` has the head of `b` as its tail, and its write offset is at the last report
/// of `b`.
#[test]
fn refusal_13_for_a_head_damaged_by_the_line_before() {
    let blocks = [head(1, 1, 10, 5, 8, b"a"), head(1, 1, 10, 10, 30, b"b")];
    let filled = [(4, 1), (5, 2)];
    let mut memory = Memory::made(&blocks, 1, 8, &filled, counters(2, 2, 10));
    let mut turned = memory.clone();
    let mut expected = memory.clone();
    // `a` writes 01 at byte 8 of block 1, so that `b` has the last report 01 00 00 0A.
    assert_eq!(memory.report(&[(b"a", 1), (b"b", 1)]), (13, 0));
    expected.arena[..64].copy_from_slice(&head(1, 1, 11, 6, 9, b"a"));
    expected.arena[64 + 8] = 0x01;
    assert_eq!(memory, expected);
    // The other way round both lines are written, and the second damages the first.
    assert_eq!(turned.report(&[(b"b", 1), (b"a", 1)]), (0, 11));
    let mut second = head(1, 1, 11, 11, 31, b"b");
    second[30] = 0x01;
    second[8] = 0x01;
    expected.arena[64..128].copy_from_slice(&second);
    expected.counters.reports = 11;
    assert_eq!(turned, expected);
}

/// Two full chains with the same tail, in memory with this many reports.
fn shared_tail(reports: u8) -> Memory {
    let blocks = [
        head(0, 2, reports, 2, 64, b"a"),
        head(0, 2, reports, 2, 64, b"b"),
        block_of(&[&[0, 0, 0, 1], &[0x01; 60]]),
    ];
    let filled = [(4, 1), (5, 2)];
    let counters = counters(3, 2, u32::from(reports));
    Memory::made(&blocks, 2, 8, &filled, counters)
}

#[test]
fn refusal_13_for_a_tail_that_the_line_before_has_linked() {
    // With 2 reports the link to block 3 passes for a first report that is not there yet.
    let mut memory = shared_tail(2);
    let mut expected = memory.clone();
    assert_eq!(memory.report(&[(b"a", 1), (b"b", 1)]), (13, 0));
    expected.arena[..64].copy_from_slice(&head(0, 3, 3, 3, 5, b"a"));
    expected.arena[128 + 3] = 3;
    // The b-gap is 3 - 1 = 2: (2 - 1) x 4 + 1 = 5.
    let next = block_of(&[&[0, 0, 0, 3], &[5]]);
    expected.arena[192..256].copy_from_slice(&next);
    expected.counters = counters(4, 2, 2);
    assert_eq!(memory, expected);
}

#[test]
fn a_tail_that_the_line_before_has_linked_may_pass() {
    // With 3 reports the link to block 3 passes for a first report, from which `b` counts.
    let mut memory = shared_tail(3);
    let mut expected = memory.clone();
    assert_eq!(memory.report(&[(b"a", 1), (b"b", 1)]), (0, 4));
    expected.arena[..64].copy_from_slice(&head(0, 3, 4, 3, 5, b"a"));
    expected.arena[64..128].copy_from_slice(&head(0, 4, 4, 3, 5, b"b"));
    expected.arena[128 + 3] = 4;
    // 4 - 1 = 3 gives 9; 4 - 3 = 1 gives 1.
    let of_a = block_of(&[&[0, 0, 0, 4], &[9]]);
    let of_b = block_of(&[&[0, 0, 0, 4], &[1]]);
    expected.arena[192..256].copy_from_slice(&of_a);
    expected.arena[256..320].copy_from_slice(&of_b);
    expected.counters = counters(5, 2, 4);
    assert_eq!(memory, expected);
}

/// The chain of `a` has the head of `b` as its tail, and its write offset is at the term of
/// `b`. There are `free` blocks and 4 or 8 slots, in which `a` and `b` have the first slots of
/// their hashes.
fn overwritten_term(free: usize, slots: usize) -> Memory {
    let blocks = [head(1, 1, 10, 5, 18, b"a"), head(1, 1, 10, 10, 30, b"b")];
    let filled = if slots == 8 {
        [(4, 1), (5, 2)]
    } else {
        [(0, 1), (1, 2)]
    };
    Memory::made(&blocks, free, slots, &filled, counters(2, 2, 10))
}

#[test]
fn a_term_lost_to_the_line_before_is_new_at_its_turn() {
    let mut memory = overwritten_term(1, 8);
    let mut expected = memory.clone();
    assert_eq!(memory.report(&[(b"a", 1), (b"b", 1)]), (0, 11));
    expected.arena[..64].copy_from_slice(&head(1, 1, 11, 6, 19, b"a"));
    expected.arena[64 + 18] = 0x01;
    // Slot 5 leads to block 1, which has another term now, and slot 6 is empty. The gap of 11
    // gives (11 - 1) x 4 + 1 = 41.
    let mut new = head(11, 2, 11, 1, 20, b"b");
    new[19] = 41;
    expected.arena[128..192].copy_from_slice(&new);
    expected.table[6] = 3;
    expected.counters = counters(3, 3, 11);
    assert_eq!(memory, expected);
}

#[test]
fn refusal_13_for_a_term_lost_to_the_line_before() {
    // Either half of 4 slots are taken, or no block is left for the term that became unknown.
    for (free, slots) in [(1, 4), (0, 8)] {
        let mut memory = overwritten_term(free, slots);
        let mut expected = memory.clone();
        assert_eq!(memory.report(&[(b"a", 1), (b"b", 1)]), (13, 0));
        expected.arena[..64].copy_from_slice(&head(1, 1, 11, 6, 19, b"a"));
        expected.arena[64 + 18] = 0x01;
        assert_eq!(memory, expected);
    }
}

/// The chain of `a` has the head of `b` as its tail, and its write offset is at that of `b`. The
/// gap of 16 and a count of 3 give 3F, which becomes the write offset of `b`.
fn overwritten_offset(free: usize) -> Memory {
    let blocks = [head(1, 1, 5, 5, 16, b"a"), head(1, 1, 10, 10, 30, b"b")];
    let filled = [(4, 1), (5, 2)];
    Memory::made(&blocks, free, 8, &filled, counters(2, 2, 20))
}

#[test]
fn refusal_13_for_a_posting_that_no_longer_fits() {
    let mut memory = overwritten_offset(0);
    let mut expected = memory.clone();
    assert_eq!(memory.report(&[(b"a", 3), (b"b", 4)]), (13, 0));
    expected.arena[..64].copy_from_slice(&head(1, 1, 21, 6, 17, b"a"));
    expected.arena[64 + 16] = 63;
    assert_eq!(memory, expected);
    // One byte still fits: the gap of 11 gives 41.
    let mut memory = overwritten_offset(0);
    assert_eq!(memory.report(&[(b"a", 3), (b"b", 1)]), (0, 21));
    assert_eq!(memory.arena[64 + 63], 41);
    assert_eq!(memory.arena[64 + 16], 64);
    // With a free block the posting opens it.
    let mut memory = overwritten_offset(1);
    assert_eq!(memory.report(&[(b"a", 3), (b"b", 4)]), (0, 21));
    assert_eq!(memory.counters, counters(3, 2, 21));
    // The block was not asked for before, so that another line may now lack it.
    let mut memory = overwritten_offset(1);
    let lines: [(&[u8], u32); 3] = [(b"a", 3), (b"b", 4), (b"c", 1)];
    assert_eq!(memory.report(&lines), (13, 0));
    assert_eq!(memory.counters, counters(3, 2, 20));
}

#[test]
fn refusal_13_for_a_table_that_the_line_before_has_filled() {
    // Three of four slots lead to a block with another term. `a` takes the last one, and `b`
    // then meets no empty slot.
    let blocks = [head(1, 0, 1, 1, 20, b"x")];
    let filled = [(0, 1), (1, 1), (2, 1)];
    let mut memory = Memory::made(&blocks, 2, 4, &filled, counters(1, 0, 3));
    let mut expected = memory.clone();
    assert_eq!(memory.report(&[(b"a", 1), (b"b", 1)]), (13, 0));
    let mut new = head(4, 1, 4, 1, 20, b"a");
    new[19] = 13;
    expected.arena[64..128].copy_from_slice(&new);
    expected.table[3] = 2;
    expected.counters = counters(2, 1, 3);
    assert_eq!(memory, expected);
}

#[test]
fn a_term_made_by_the_line_before_is_known_at_its_turn() {
    // The slot of `a` leads to block 1, which has the term `c`. The chain of `b` writes at byte
    // 18 of that block: the gap of 25 and a count of 1 give 61, which is `a`.
    let blocks = [head(1, 1, 5, 5, 18, b"b"), head(1, 1, 20, 10, 30, b"c")];
    let filled = [(5, 1), (4, 2)];
    let mut memory = Memory::made(&blocks, 1, 8, &filled, counters(2, 2, 29));
    let mut expected = memory.clone();
    assert_eq!(memory.report(&[(b"b", 1), (b"a", 1)]), (0, 30));
    expected.arena[..64].copy_from_slice(&head(1, 1, 30, 6, 19, b"b"));
    // From 20 to 30 is 10: (10 - 1) x 4 + 1 = 37.
    let mut second = head(1, 1, 30, 11, 31, b"a");
    second[30] = 37;
    expected.arena[64..128].copy_from_slice(&second);
    expected.counters.reports = 30;
    assert_eq!(memory, expected);
    // Before writing it is unknown, so that it asks for a block.
    let mut memory = Memory::made(&blocks, 0, 8, &filled, counters(2, 2, 29));
    memory.assert_refused(&[(b"b", 1), (b"a", 1)], 12);
}
