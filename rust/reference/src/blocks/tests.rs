//! Tests of the fields of blocks and of writing postings.

use super::*;
use crate::draws::Draws;

/// A term of 36 bytes.
const LONG: &[u8; 36] = b"abcdefghijklmnopqrstuvwxyz0123456789";

/// The largest number, which is also the largest count.
const MAX: u32 = u32::MAX;

/// An arena of this many blocks in which every byte is EE.
fn marked_arena(blocks: usize) -> Vec<u8> {
    vec![0xEE; blocks * BLOCK_BYTES]
}

/// The parts one after another, filled up to 64 bytes with null bytes.
fn block_of(parts: &[&[u8]]) -> Vec<u8> {
    let mut bytes = parts.concat();
    assert!(bytes.len() <= BLOCK_BYTES);
    bytes.resize(BLOCK_BYTES, 0);
    bytes
}

/// An arena of two blocks with the chain of a term of 36 bytes in block 0, to which these
/// reports were added one after another.
fn long_chain(reports: &[(u32, u32)]) -> Vec<u8> {
    let mut arena = marked_arena(2);
    let (report, count) = reports[0];
    open_head(&mut arena, 0, LONG, report, count).expect("the first report");
    for (report, count) in &reports[1..] {
        add_posting(&mut arena, 0, *report, *count).expect("the report fits");
    }
    arena
}

#[test]
fn capacity_counts_whole_blocks() {
    for (bytes, blocks) in [
        (0, 0),
        (63, 0),
        (64, 1),
        (127, 1),
        (128, 2),
        (64_000, 1_000),
    ] {
        assert_eq!(capacity(bytes), blocks);
    }
}

#[cfg(target_pointer_width = "64")]
#[test]
fn capacity_has_a_limit() {
    assert_eq!(capacity(64 * 4_294_967_294 + 63), 4_294_967_294);
    assert_eq!(capacity(64 * 4_294_967_295), 4_294_967_295);
    assert_eq!(capacity(64 * 4_294_967_296), 4_294_967_295);
}

#[test]
fn blocks_lie_one_after_another() {
    let arena: Vec<u8> = (0..=190).collect();
    assert_eq!(block(&arena, 0).expect("block 0")[0], 0);
    assert_eq!(block(&arena, 1).expect("block 1")[0], 64);
    assert_eq!(block(&arena, 1).expect("block 1")[63], 127);
    // Block 2 would need byte 191.
    assert_eq!(block(&arena, 2), None);
    assert_eq!(block(&arena, MAX), None);
}

#[test]
fn fields_of_a_head() {
    let bytes: Vec<u8> = (0x10..0x50).collect();
    let bytes: &Block = bytes[..].try_into().expect("64 bytes");
    assert_eq!(link_or_first(bytes), 0x1011_1213);
    let head = Head {
        tail: 0x1415_1617,
        last: 0x1819_1A1B,
        postings: 0x1C1D_1E1F,
        offset: 0x20,
        length: 0x21,
    };
    assert_eq!(Head::of(bytes), head);
    let mut written = *bytes;
    written[4..18].fill(0);
    head.write(&mut written);
    assert_eq!(written, *bytes);
}

#[test]
fn terms_of_heads() {
    let mut block = [0; BLOCK_BYTES];
    block[17] = 2;
    block[18..21].copy_from_slice(b"znx");
    assert!(has_term(&block, b"zn"));
    assert!(!has_term(&block, b"z"));
    assert!(!has_term(&block, b"znx"));
    assert!(!has_term(&block, b"zm"));
    assert!(!has_term(&block, b""));
    block[17] = 255;
    assert!(!has_term(&block, b"zn"));
    assert!(!has_term(&block, &[b'z'; 255]));
}

#[test]
fn the_first_posting_of_a_head() {
    let mut arena = marked_arena(3);
    open_head(&mut arena, 1, b"zn", 33, 1).expect("block 1 is there");
    // (33 - 1) x 4 + 1 = 129 = 1 x 128 + 1, at bytes 20 and 21, so that 22 is next.
    let head = block_of(&[
        &[0, 0, 0, 33],
        &[0, 0, 0, 1],
        &[0, 0, 0, 33],
        &[0, 0, 0, 1],
        &[22, 2],
        b"zn",
        &[0x81, 0x01],
    ]);
    assert_eq!(arena[64..128], head);
    assert!(arena[..64].iter().all(|byte| *byte == 0xEE));
    assert!(arena[128..].iter().all(|byte| *byte == 0xEE));
}

#[test]
fn the_longest_posting_fills_the_head_of_the_longest_term() {
    let mut arena = marked_arena(1);
    open_head(&mut arena, 0, LONG, MAX, MAX).expect("block 0 is there");
    let code = [0xFC, 0xFF, 0xFF, 0xFF, 0x3F, 0xFC, 0xFF, 0xFF, 0xFF, 0x0F];
    let head = block_of(&[
        &[0xFF; 4],
        &[0; 4],
        &[0xFF; 4],
        &[0, 0, 0, 1],
        &[64, 36],
        LONG,
        &code,
    ]);
    assert_eq!(arena, head);
}

/// The chain that document 01 marks: a term of 36 bytes in reports 1 to 11.
#[test]
fn marked_chain() {
    let mut arena = marked_arena(3);
    open_head(&mut arena, 0, LONG, 1, 1).expect("report 1");
    for report in 2..=10 {
        add_posting(&mut arena, 0, report, 1).expect("reports 2 to 10 fit");
    }
    let head = block_of(&[
        &[0, 0, 0, 1],
        &[0, 0, 0, 0],
        &[0, 0, 0, 10],
        &[0, 0, 0, 10],
        &[64, 36],
        LONG,
        &[0x01; 10],
    ]);
    assert_eq!(arena[..64], head);
    let end = End::of(&arena, 0).expect("the chain");
    assert!(end.offset_is_in_place());
    assert!(!end.fits(11, 1));
    assert_eq!(add_posting(&mut arena, 0, 11, 1), None);
    open_next(&mut arena, 0, 1, 11, 1).expect("report 11");
    // The first four bytes of the head, which held report 1, now lead to block 1.
    let head = block_of(&[
        &[0, 0, 0, 1],
        &[0, 0, 0, 1],
        &[0, 0, 0, 11],
        &[0, 0, 0, 11],
        &[5, 36],
        LONG,
        &[0x01; 10],
    ]);
    let next = block_of(&[&[0, 0, 0, 11], &[0x25]]);
    assert_eq!(arena[..64], head);
    assert_eq!(arena[64..128], next);
    assert!(arena[128..].iter().all(|byte| *byte == 0xEE));
}

#[test]
fn only_the_fields_named_change_when_a_posting_is_added() {
    let mut arena = long_chain(&[(5, 1)]);
    let before = arena.clone();
    add_posting(&mut arena, 0, 7, 9).expect("report 7");
    // The gap is 2 and the count 9: 8, then 6. The first posting took byte 54: (5 - 1) x 4 + 1.
    assert_eq!(before[54], 17);
    let mut expected = before;
    expected[8..12].copy_from_slice(&[0, 0, 0, 7]);
    expected[12..16].copy_from_slice(&[0, 0, 0, 2]);
    expected[16] = 57;
    expected[55..57].copy_from_slice(&[8, 6]);
    assert_eq!(arena, expected);
}

#[test]
fn a_posting_may_end_at_byte_63_and_not_later() {
    // The first posting takes 1, 2, 3, 4 or 5 of the ten bytes and leaves the rest.
    for (first, taken) in [(1, 1), (33, 2), (4_097, 3), (524_289, 4), (67_108_865, 5)] {
        let arena = long_chain(&[(first, 1)]);
        let end = End::of(&arena, 0).expect("the chain");
        assert_eq!(usize::from(end.head.offset), 54 + taken);
        let room = 10 - taken;
        // A gap of 67,108,864 takes 5 bytes with these counts, which take 1 to 5 bytes more.
        for (count, length) in [(3, 5), (4, 6), (131, 7), (16_387, 8), (2_097_155, 9)] {
            let report = first + 67_108_864;
            assert_eq!(
                end.fits(report, count),
                length <= room,
                "{taken} and {length}"
            );
            let mut changed = arena.clone();
            let added = add_posting(&mut changed, 0, report, count);
            assert_eq!(added.is_some(), length <= room);
            assert_eq!(changed == arena, length > room);
        }
    }
}

#[test]
fn a_b_gap_that_takes_more_bytes_than_the_d_gap() {
    // 2 bytes for report 40, then 4 of 2 bytes each: the head is full.
    let mut arena = long_chain(&[(40, 1), (73, 1), (106, 1), (139, 1), (172, 1)]);
    assert_eq!(Head::of(block(&arena, 0).expect("block 0")).offset, 64);
    assert_eq!(add_posting(&mut arena, 0, 173, 2), None);
    open_next(&mut arena, 0, 1, 173, 2).expect("report 173");
    // 173 - 40 = 133, not 173 - 172: (133 - 1) x 4 + 2 = 530 = 4 x 128 + 18.
    assert_eq!(arena[64..128], block_of(&[&[0, 0, 0, 173], &[0x92, 0x04]]));
    assert_eq!(arena[..4], [0, 0, 0, 1]);
    assert_eq!(arena[16], 6);
    // The next gap counts from 173 again.
    add_posting(&mut arena, 0, 174, 1).expect("report 174");
    let next = block_of(&[&[0, 0, 0, 173], &[0x92, 0x04, 0x01]]);
    assert_eq!(arena[64..128], next);
}

#[test]
fn the_second_join_links_the_block_between() {
    let mut arena = marked_arena(4);
    open_head(&mut arena, 2, b"q", 7, 1).expect("report 7");
    open_next(&mut arena, 2, 0, 9, 1).expect("report 9");
    open_next(&mut arena, 2, 3, 12, 1).expect("report 12");
    // From 7 to 9 is 2: (2 - 1) x 4 + 1 = 5. From 9 to 12 is 3: (3 - 1) x 4 + 1 = 9.
    assert_eq!(arena[..64], block_of(&[&[0, 0, 0, 3], &[5]]));
    assert_eq!(arena[192..], block_of(&[&[0, 0, 0, 12], &[9]]));
    let head = block_of(&[
        &[0, 0, 0, 0],
        &[0, 0, 0, 3],
        &[0, 0, 0, 12],
        &[0, 0, 0, 3],
        &[5, 1],
        b"q",
        &[25],
    ]);
    assert_eq!(arena[128..192], head);
    assert!(arena[64..128].iter().all(|byte| *byte == 0xEE));
}

#[test]
fn write_offsets_in_place() {
    let mut arena = long_chain(&[(1, 1)]);
    for (offset, in_place) in [(0, false), (54, false), (55, true), (64, true), (65, false)] {
        arena[16] = offset;
        let end = End::of(&arena, 0).expect("the chain");
        assert_eq!(end.offset_is_in_place(), in_place, "offset {offset}");
    }
    open_next(&mut arena, 0, 1, 2, 1).expect("report 2");
    for (offset, in_place) in [(4, false), (5, true), (64, true), (65, false), (255, false)] {
        arena[16] = offset;
        let end = End::of(&arena, 0).expect("the chain");
        assert_eq!(end.offset_is_in_place(), in_place, "offset {offset}");
        assert_eq!(
            add_posting(&mut arena.clone(), 0, 3, 1).is_some(),
            offset == 5
        );
    }
}

#[test]
fn a_head_is_not_opened_without_block_term_report_or_count() {
    let mut arena = marked_arena(2);
    arena.push(0xEE);
    let before = arena.clone();
    assert_eq!(open_head(&mut arena, 2, b"a", 1, 1), None);
    assert_eq!(open_head(&mut arena, MAX, b"a", 1, 1), None);
    assert_eq!(open_head(&mut arena, 0, b"", 1, 1), None);
    assert_eq!(open_head(&mut arena, 0, &[b'a'; 37], 1, 1), None);
    assert_eq!(open_head(&mut arena, 0, b"a", 0, 1), None);
    assert_eq!(open_head(&mut arena, 0, b"a", 1, 0), None);
    assert_eq!(arena, before);
}

#[test]
fn a_report_must_be_past_the_one_it_is_counted_from() {
    let mut arena = long_chain(&[(5, 1), (9, 1)]);
    let before = arena.clone();
    assert_eq!(add_posting(&mut arena, 0, 9, 1), None);
    assert_eq!(add_posting(&mut arena, 0, 8, 1), None);
    assert_eq!(add_posting(&mut arena, 0, 10, 0), None);
    assert_eq!(open_next(&mut arena, 0, 1, 5, 1), None);
    assert_eq!(open_next(&mut arena, 0, 1, 10, 0), None);
    // Neither the head nor a block past the arena can become the next block.
    assert_eq!(open_next(&mut arena, 0, 0, 10, 1), None);
    assert_eq!(open_next(&mut arena, 0, 2, 10, 1), None);
    assert_eq!(arena, before);
}

#[test]
fn writers_on_drawn_arenas_change_nothing_else() {
    let mut draws = Draws::new(0x0B10_2026);
    let mut done = [0; 2];
    for _ in 0..20_000 {
        let blocks = draws.between(0, 4);
        let mut arena = draws.bytes(blocks * BLOCK_BYTES + blocks);
        let head = draws.below(5) as u32;
        let number = draws.below(5) as u32;
        soften(&mut draws, &mut arena, head);
        let before = arena.clone();
        let end = End::of(&arena, head);
        let report = MAX - draws.below(1_000) as u32;
        let next = draws.below(2) as usize;
        let written = if next == 1 {
            open_next(&mut arena, head, number, report, 1)
        } else {
            add_posting(&mut arena, head, report, 1)
        };
        let mut allowed = Vec::new();
        if written.is_some() {
            let tail = end.expect("a written chain has an end").head.tail;
            allowed = if next == 1 {
                vec![head, tail, number]
            } else {
                vec![head, tail]
            };
            done[next] += 1;
        }
        assert_others_kept(&before, &arena, &allowed);
    }
    assert!(done[0] > 500 && done[1] > 500, "written {done:?}");
}

/// Makes a block, if it is there, likely to pass for a head: small numbers of the tail and a
/// write offset near its limits.
fn soften(draws: &mut Draws, arena: &mut [u8], head: u32) {
    let tail = draws.below(5) as u32;
    let offset = draws.between(0, 70) as u8;
    if let Some(block) = block_mut(arena, head) {
        write_number(block, TAIL_AT, tail);
        block[LAST_AT] = 0;
        block[OFFSET_AT] = offset;
        block[LENGTH_AT] %= 40;
    }
}

/// Fails if a byte outside the allowed blocks differs.
fn assert_others_kept(before: &[u8], after: &[u8], allowed: &[u32]) {
    for (place, (old, new)) in before.iter().zip(after).enumerate() {
        let number = (place / BLOCK_BYTES) as u32;
        assert!(old == new || allowed.contains(&number), "byte {place}");
    }
}
