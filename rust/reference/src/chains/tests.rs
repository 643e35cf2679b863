//! Tests of reading chains and of each sort of damage.

use super::*;
use crate::draws::Draws;

/// The used blocks of [`sound_arena`], which has one block more.
const USED: u32 = 3;

/// The reports that the tests of [`sound_arena`] count.
const REPORTS: u32 = 50;

/// Where block 1 of an arena begins.
const BLOCK_1: usize = BLOCK_BYTES;

/// Where block 2 of an arena begins.
const BLOCK_2: usize = 2 * BLOCK_BYTES;

/// A chain worked out by hand. Its head is block 0, with the term `ab`, then comes block 2,
/// then block 1 as the tail. Block 3 is full of the byte 01 and is not used.
///
/// | block | postings (gap, count) | bytes | reports |
/// |---|---|---|---|
/// | 0 | (1, 1), (2, 1) | 01, 05 | 1, 3 |
/// | 2 | (4, 2), (1, 4) | 0E, 04 01 | 1 + 4 = 5, 6 |
/// | 1 | (3, 3), (33, 1) | 0B, 81 01 | 5 + 3 = 8, 41 |
fn sound_arena() -> Vec<u8> {
    let mut arena = vec![0; 4 * BLOCK_BYTES];
    let head = [
        0, 0, 0, 2, 0, 0, 0, 1, 0, 0, 0, 41, 0, 0, 0, 6, 7, 2, b'a', b'b', 0x01, 0x05,
    ];
    let second = [0, 0, 0, 1, 0x0E, 0x04, 0x01];
    let tail = [0, 0, 0, 8, 0x0B, 0x81, 0x01];
    arena[..head.len()].copy_from_slice(&head);
    arena[BLOCK_2..BLOCK_2 + second.len()].copy_from_slice(&second);
    arena[BLOCK_1..BLOCK_1 + tail.len()].copy_from_slice(&tail);
    arena[3 * BLOCK_BYTES..].fill(0x01);
    arena
}

/// The reports and counts of [`sound_arena`].
const SOUND: [(u32, u32); 6] = [(1, 1), (3, 1), (5, 2), (6, 4), (8, 3), (41, 1)];

/// A chain of one block: the term `ab` in reports 1 and 3, with a count of 1 each.
fn one_block() -> Vec<u8> {
    let mut arena = vec![0; BLOCK_BYTES];
    let head = [
        0, 0, 0, 1, 0, 0, 0, 0, 0, 0, 0, 3, 0, 0, 0, 2, 22, 2, b'a', b'b', 0x01, 0x05,
    ];
    arena[..head.len()].copy_from_slice(&head);
    arena
}

fn pairs(entries: Result<Vec<Entry>, Damage>) -> Result<Vec<(u32, u32)>, Damage> {
    let entries = entries?;
    Ok(entries
        .iter()
        .map(|entry| (entry.number, entry.count))
        .collect())
}

/// Reads the chain of [`sound_arena`] with one byte changed.
fn read_with(place: usize, byte: u8) -> Result<Vec<(u32, u32)>, Damage> {
    let mut arena = sound_arena();
    assert_ne!(arena[place], byte, "byte {place} is to change");
    arena[place] = byte;
    pairs(read(&arena, USED, REPORTS, 0))
}

/// Judges the end of the chain of [`sound_arena`] with one byte changed.
fn end_with(place: usize, byte: u8) -> Result<End, Damage> {
    let mut arena = sound_arena();
    assert_ne!(arena[place], byte, "byte {place} is to change");
    arena[place] = byte;
    judged_end(&arena, USED, REPORTS, 0)
}

#[test]
fn sound_chains() {
    let arena = sound_arena();
    assert_eq!(pairs(read(&arena, USED, REPORTS, 0)), Ok(SOUND.to_vec()));
    assert_eq!(pairs(read(&arena, USED, 41, 0)), Ok(SOUND.to_vec()));
    assert_eq!(pairs(read(&one_block(), 1, 3, 0)), Ok(vec![(1, 1), (3, 1)]));
}

#[test]
fn bytes_that_do_not_matter_to_listing() {
    // The first four bytes of the tail; bytes after the null byte of a block that is not the
    // tail; the bytes from the write offset on; the head's term.
    for place in [
        BLOCK_1,
        BLOCK_1 + 3,
        23,
        63,
        BLOCK_2 + 8,
        BLOCK_2 + 63,
        BLOCK_1 + 7,
        18,
    ] {
        assert_eq!(read_with(place, 0xFF), Ok(SOUND.to_vec()), "byte {place}");
    }
}

#[test]
fn damage_by_a_block_that_is_not_used() {
    // The link of the head and that of block 2 lead to block 3.
    assert_eq!(read_with(3, 3), Err(Damage::NotUsed));
    assert_eq!(read_with(BLOCK_2 + 3, 3), Err(Damage::NotUsed));
    // The link leads far past the arena.
    assert_eq!(read_with(0, 0xFF), Err(Damage::NotUsed));
    // The tail is block 3. Block 1 is not the tail then, and a fourth block would follow it.
    assert_eq!(read_with(7, 3), Err(Damage::TooManyBlocks));
    // The head itself.
    assert_eq!(read(&sound_arena(), 0, REPORTS, 0), Err(Damage::NotUsed));
    assert_eq!(read(&sound_arena(), 3, REPORTS, 3), Err(Damage::NotUsed));
    // One block fewer is used.
    assert_eq!(read(&sound_arena(), 2, REPORTS, 0), Err(Damage::NotUsed));
}

#[test]
fn used_blocks_that_the_arena_lacks() {
    let arena = sound_arena();
    assert_eq!(
        read(&arena[..BLOCK_2], USED, REPORTS, 0),
        Err(Damage::NotUsed)
    );
    assert_eq!(read(&[], USED, REPORTS, 0), Err(Damage::NotUsed));
    assert_eq!(read(&arena, u32::MAX, REPORTS, 4), Err(Damage::NotUsed));
}

#[test]
fn damage_by_a_block_without_a_posting() {
    assert_eq!(read_with(20, 0), Err(Damage::NoPosting));
    assert_eq!(read_with(BLOCK_2 + 4, 0), Err(Damage::NoPosting));
    // A term of 46 or 255 bytes leaves no part in the head.
    assert_eq!(read_with(17, 46), Err(Damage::NoPosting));
    assert_eq!(read_with(17, 255), Err(Damage::NoPosting));
}

#[test]
fn damage_by_a_write_offset_out_of_place() {
    for offset in [0, 3, 4, 65, 128, 255] {
        assert_eq!(
            read_with(16, offset),
            Err(Damage::Offset),
            "offset {offset}"
        );
    }
    for offset in [0, 5, 20, 65, 255] {
        let mut arena = one_block();
        arena[16] = offset;
        assert_eq!(
            read(&arena, 1, 3, 0),
            Err(Damage::Offset),
            "offset {offset}"
        );
    }
}

#[test]
fn damage_by_more_blocks_than_used() {
    // Block 2 leads to itself. Its reports are 5, 6, then 5 + 4 = 9, 10, and so on.
    assert_eq!(read_with(BLOCK_2 + 3, 2), Err(Damage::TooManyBlocks));
}

#[test]
fn damage_by_codes() {
    // Null bytes before the write offset: in the place of a code, and inside a code.
    assert_eq!(read_with(BLOCK_1 + 4, 0x00), Err(Damage::Code));
    assert_eq!(read_with(BLOCK_1 + 6, 0x00), Err(Damage::Code));
    // The write offset stands inside a code, or one byte behind the last code.
    assert_eq!(read_with(16, 6), Err(Damage::Code));
    assert_eq!(read_with(16, 8), Err(Damage::Code));
    // The last code of the tail goes on past the write offset.
    assert_eq!(read_with(BLOCK_1 + 6, 0x81), Err(Damage::Code));
    // In other blocks: the second value is missing, and a code ends in a null byte.
    assert_eq!(read_with(BLOCK_2 + 6, 0x00), Err(Damage::Code));
    assert_eq!(read_with(21, 0x85), Err(Damage::Code));
}

#[test]
fn damage_by_a_code_that_crosses_the_end_of_a_block() {
    // Block 2 is full: 0E, then 59 bytes 01, for reports 5 to 64. The tail goes on from 5 + 60.
    let mut arena = sound_arena();
    arena[BLOCK_2 + 5..BLOCK_2 + 64].fill(0x01);
    arena[BLOCK_1 + 4] = 0xEF;
    arena[BLOCK_1 + 5] = 0x01;
    arena[16] = 6;
    arena[11] = 65;
    arena[15] = 2 + 60 + 1;
    // EF 01 is 111 + 128 = 239 = (60 - 1) x 4 + 3.
    let entries = pairs(read(&arena, USED, 65, 0)).expect("a sound chain");
    assert_eq!(entries.len(), 63);
    assert_eq!(entries[60..], [(63, 1), (64, 1), (65, 3)]);
    // The last byte of the block begins a code that would go on in the unread block 3.
    arena[BLOCK_2 + 63] = 0x81;
    assert_eq!(read(&arena, USED, 100, 0), Err(Damage::Code));
    arena[BLOCK_2 + 63] = 0x04;
    assert_eq!(read(&arena, USED, 100, 0), Err(Damage::Code));
}

#[test]
fn damage_by_a_number_over_reports() {
    assert_eq!(read(&sound_arena(), USED, 40, 0), Err(Damage::OverReports));
    assert_eq!(read(&sound_arena(), USED, 0, 0), Err(Damage::OverReports));
    // 81 02 is 257: a gap of 65 and report 8 + 65.
    assert_eq!(read_with(BLOCK_1 + 6, 0x02), Err(Damage::OverReports));
    // A first posting with a gap of 32: report 5 + 32 = 37, then 37 + 33 = 70.
    assert_eq!(read_with(BLOCK_1 + 4, 0x7F), Err(Damage::OverReports));
}

#[test]
fn numbers_do_not_wrap() {
    let mut arena = one_block();
    // After report 1 a gap of 4,294,967,294 with count 1: (4,294,967,294 - 1) x 4 + 1.
    arena[21..26].copy_from_slice(&[0xF5, 0xFF, 0xFF, 0xFF, 0x3F]);
    arena[8..12].fill(0xFF);
    arena[16] = 26;
    let entries = pairs(read(&arena, 1, u32::MAX, 0));
    assert_eq!(entries, Ok(vec![(1, 1), (u32::MAX, 1)]));
    // One more would be 4,294,967,296.
    arena[21] = 0xF9;
    assert_eq!(read(&arena, 1, u32::MAX, 0), Err(Damage::OverReports));
}

#[test]
fn damage_by_a_number_not_past_the_one_before() {
    // Block 2 opens with 1 + 1 = 2 or 1 + 2 = 3, and report 3 stands before it.
    assert_eq!(read_with(BLOCK_2 + 4, 0x02), Err(Damage::NotPast));
    assert_eq!(read_with(BLOCK_2 + 4, 0x06), Err(Damage::NotPast));
    // The tail opens with 5 + 1 = 6, and report 6 stands before it.
    assert_eq!(read_with(BLOCK_1 + 4, 0x03), Err(Damage::NotPast));
    // The head leads to itself: 1 + 1 = 2.
    assert_eq!(read_with(3, 0), Err(Damage::NotPast));
}

#[test]
fn damage_by_totals_unlike_those_of_the_head() {
    assert_eq!(read_with(15, 5), Err(Damage::Postings));
    assert_eq!(read_with(15, 7), Err(Damage::Postings));
    assert_eq!(read_with(12, 1), Err(Damage::Postings));
    assert_eq!(read_with(11, 40), Err(Damage::Last));
    assert_eq!(read_with(11, 42), Err(Damage::Last));
    assert_eq!(read_with(8, 1), Err(Damage::Last));
    // Block 2 opens with 1 + 3 = 4, so that all reports after it are one lower.
    assert_eq!(read_with(BLOCK_2 + 4, 0x0A), Err(Damage::Last));
    // The posting 05 of the head is lost.
    assert_eq!(read_with(21, 0x00), Err(Damage::Postings));
    // The tail is block 2, where the write offset of 7 happens to be right.
    assert_eq!(read_with(7, 2), Err(Damage::Postings));
}

#[test]
fn a_head_of_another_chain_is_read_as_one_of_the_other_blocks() {
    // Block 1 is made a head with the term `x`: its postings would then begin at byte 19. As
    // one of the other blocks they begin at byte 4.
    let mut arena = sound_arena();
    arena[BLOCK_1 + 17] = 1;
    arena[BLOCK_1 + 18] = b'x';
    assert_eq!(pairs(read(&arena, USED, REPORTS, 0)), Ok(SOUND.to_vec()));
}

#[test]
fn ends_of_sound_chains() {
    let head = Head {
        tail: 1,
        last: 41,
        postings: 6,
        offset: 7,
        length: 2,
    };
    let end = End {
        head,
        first: 8,
        start: 4,
    };
    assert_eq!(judged_end(&sound_arena(), USED, REPORTS, 0), Ok(end));
    assert_eq!(judged_end(&sound_arena(), USED, 41, 0), Ok(end));
    let end = judged_end(&one_block(), 1, 3, 0).expect("a sound chain");
    assert_eq!((end.first, end.start), (1, 20));
}

#[test]
fn damage_in_taking_a_report() {
    // The tail, the write offset, the last report, the first report in the tail, the number of
    // postings.
    assert_eq!(end_with(7, 3), Err(Damage::NotUsed));
    assert_eq!(end_with(4, 1), Err(Damage::NotUsed));
    assert_eq!(end_with(16, 4), Err(Damage::Offset));
    assert_eq!(end_with(16, 65), Err(Damage::Offset));
    assert_eq!(end_with(11, 51), Err(Damage::Last));
    assert_eq!(end_with(BLOCK_1 + 3, 51), Err(Damage::First));
    assert_eq!(end_with(15, 51), Err(Damage::Postings));
    // The same fields at the number of reports, and write offsets at both ends.
    assert!(end_with(11, 50).is_ok());
    assert!(end_with(BLOCK_1 + 3, 50).is_ok());
    assert!(end_with(15, 50).is_ok());
    assert!(end_with(16, 5).is_ok());
    assert!(end_with(16, 64).is_ok());
    let mut arena = one_block();
    for (offset, sound) in [(20, false), (21, true), (64, true), (65, false)] {
        arena[16] = offset;
        let end = judged_end(&arena, 1, 3, 0);
        assert_eq!(end.is_ok(), sound, "offset {offset}");
    }
}

#[test]
fn what_taking_a_report_does_not_look_at() {
    // The links, the codes, and fields of 0.
    for place in [3, 20, 21, BLOCK_2 + 3, BLOCK_2 + 4, BLOCK_1 + 4] {
        assert!(end_with(place, 0xFF).is_ok(), "byte {place}");
    }
    for place in [11, 15, BLOCK_1 + 3] {
        assert!(end_with(place, 0).is_ok(), "byte {place}");
    }
}

#[test]
fn drawn_arenas_never_stop_the_reader() {
    let mut draws = Draws::new(0x0C0A_2026);
    for _ in 0..20_000 {
        let bytes = draws.between(0, 300);
        let mut arena = draws.bytes(bytes);
        for block in arena.chunks_exact_mut(BLOCK_BYTES) {
            block[..3].fill(0);
            block[4..7].fill(0);
            block[3] %= 5;
            block[7] %= 5;
        }
        let used = draws.below(6) as u32;
        let head = draws.below(6) as u32;
        let reports = draws.number();
        let _ = judged_end(&arena, used, reports, head);
        if let Ok(entries) = read(&arena, used, reports, head) {
            assert!(entries.windows(2).all(|two| two[0].number < two[1].number));
            assert!(entries.iter().all(|entry| entry.number <= reports));
        }
    }
}

#[test]
fn chains_of_edited_bytes_never_stop_the_reader() {
    let sound = sound_arena();
    for place in 0..3 * BLOCK_BYTES {
        for byte in 0..=255 {
            let mut arena = sound.clone();
            arena[place] = byte;
            let _ = judged_end(&arena, USED, REPORTS, 0);
            let _ = read(&arena, USED, REPORTS, 0);
        }
    }
}
