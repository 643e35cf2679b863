//! Tests of listings that are not refused.

use super::*;

/// An index with `a` in reports 1 to 5, `b` in 2 and 4, and `c` in 5.
fn five_reports() -> Memory {
    let mut memory = Memory::started(3, 8);
    memory.report(&[(b"a", 10)]);
    memory.report(&[(b"a", 20), (b"b", 1)]);
    memory.report(&[(b"a", 30)]);
    memory.report(&[(b"a", 40), (b"b", 2)]);
    assert_eq!(memory.report(&[(b"a", 50), (b"c", 1)]), (0, 5));
    memory
}

#[test]
fn listings_begin_at_the_start() {
    let memory = five_reports();
    let all = [(1, 10), (2, 20), (3, 30), (4, 40), (5, 50)];
    for start in 0..=6 {
        let skipped = (start as usize).saturating_sub(1);
        let (answer, pairs) = memory.one(start, b"a", 9);
        assert_eq!(pairs, all[skipped..]);
        assert_eq!(answer, Listing::of(5 - skipped, 9));
    }
    assert_eq!(memory.one(u32::MAX, b"a", 9).0, Listing::of(0, 9));
    assert_eq!(memory.all(3, &[b"a", b"b"], 9).1, [4]);
    assert_eq!(memory.all(2, &[b"a", b"b"], 9).1, [2, 4]);
}

#[test]
fn more_remain_exactly_when_some_did_not_fit() {
    let memory = five_reports();
    for (places, more) in [(0, true), (1, true), (4, true), (5, false), (6, false)] {
        let filled = places.min(5) as u32;
        let expected = Listing {
            refusal: 0,
            more,
            filled,
        };
        assert_eq!(memory.one(0, b"a", places).0, expected);
        assert_eq!(memory.all(0, &[b"a"], places).0, expected);
    }
    assert_eq!(memory.one(6, b"a", 0).0, Listing::of(0, 0));
    assert!(!memory.one(6, b"a", 0).0.more);
}

#[test]
fn terms_of_a_query() {
    let memory = five_reports();
    assert_eq!(memory.all(0, &[b"b", b"a"], 9).1, [2, 4]);
    assert_eq!(memory.all(0, &[b"b", b"B", b"a", b"b"], 9).1, [2, 4]);
    assert_eq!(memory.all(0, &[b"b", b"c"], 9).1, []);
    assert_eq!(memory.all(0, &[b"c", b"a"], 9).1, [5]);
    assert_eq!(memory.all(0, &[b"a", b"x"], 9).0, Listing::of(0, 9));
    assert_eq!(memory.all(0, &[b"x", b"a"], 9).0, Listing::of(0, 9));
    assert_eq!(memory.one(0, b"x", 9).0, Listing::of(0, 9));
}

#[test]
fn two_lists_of_different_lengths() {
    let memory = five_reports();
    let frame = query_frame(Call::OneTerm, 2, &[b"a"]);
    for (first, second) in [(2, 5), (5, 2)] {
        let mut numbers = vec![77; first];
        let mut counts = vec![88; second];
        let answer = list_one(
            &memory.arena,
            &memory.table,
            &memory.counters,
            &frame,
            &mut numbers,
            &mut counts,
        );
        assert_eq!(answer, Listing::of(4, 2));
        assert_eq!(numbers[..2], [2, 3]);
        assert_eq!(counts[..2], [20, 30]);
        assert!(numbers[2..].iter().all(|number| *number == 77));
        assert!(counts[2..].iter().all(|count| *count == 88));
    }
}

#[test]
fn later_places_keep_their_contents() {
    let memory = five_reports();
    let mut numbers = [77; 4];
    let frame = query_frame(Call::AllTerms, 0, &[b"a", b"b"]);
    let Memory {
        arena,
        table,
        counters,
    } = &memory;
    let answer = list_all(arena, table, counters, &frame, &mut numbers);
    assert_eq!(answer, Listing::of(2, 4));
    assert_eq!(numbers, [2, 4, 77, 77]);
    // A refusal fills no place.
    let answer = list_all(arena, table, counters, &frame[1..], &mut numbers);
    assert_eq!(answer, Listing::refused(1));
    let answer = list_one(arena, table, counters, &frame, &mut [], &mut numbers);
    assert_eq!(answer, Listing::refused(3));
    assert_eq!(numbers, [2, 4, 77, 77]);
}

#[test]
fn a_long_chain() {
    let mut memory = Memory::started(2_000, 2);
    for number in 1..=60_000 {
        assert_eq!(memory.report(&[(b"a", 1 + number % 5)]), (0, number));
    }
    let (answer, pairs) = memory.one(59_990, b"a", 4);
    assert_eq!(answer, Listing::of(11, 4));
    assert_eq!(pairs, [(59_990, 1), (59_991, 2), (59_992, 3), (59_993, 4)]);
}
