//! Tests of the questions of sort 7 and of their answers.

use super::answers::{listing_text, read_calls, report_text, sizes_of, AskedCall};
use super::*;
use crate::ledger::Ledger;
use crate::vectors::hex;

#[test]
fn answers_of_sort_7() {
    assert_eq!(
        call_answer(&[0, 0, 0, 0, 0]),
        "calls 0000000000 | 0 0 0 - -"
    );
    let calls = Calls::on(1, 2, 1)
        .report(&[(b"A", 1)])
        .one(0, b"a")
        .report(&[(b"a", 4)])
        .one(0, b"a")
        .all(2, &[b"a"])
        .report(&[(b"b", 1)])
        .frame(Call::OneTerm, &[]);
    // The hash of `a` is even, so that its slot is 0.
    let answer = format!(
        "calls {} R 1 Q 1 - 1:1 R 2 Q 1 + 1:1 Q 1 - 2 E 11 E 1 | 1 1 2 {} {}{}",
        hex(&calls.payload),
        "0000000100000000",
        "00000001000000000000000200000002160161010401",
        "00".repeat(42)
    );
    assert_eq!(call_answer(&calls.payload), answer);
    let calls = Calls::on(0, 1, 0)
        .report(&[])
        .start()
        .one(0, b"a")
        .report(&[]);
    let answer = format!(
        "calls {} R 1 S Q 0 - R 1 | 0 0 1 00000000 -",
        hex(&calls.payload)
    );
    assert_eq!(call_answer(&calls.payload), answer);
}

#[test]
fn the_desk_example_in_sort_7() {
    for (payload, listings) in desk_calls().iter().zip([
        "Q 2 - 1:3 2:4 Q 1 - 1",
        "Q 2 - 1:3 2:4 Q 1 - 1",
        "Q 1 + 1:3 Q 1 - 1",
    ]) {
        let expected = format!("calls {} R 1 R 2 {listings} | 2 2 2 ", hex(payload));
        assert!(call_answer(payload).starts_with(&expected), "{expected}");
    }
}

/// The words of all answers of sort 7 that stand between the payload and the counters.
fn words_of_sort_7() -> Vec<String> {
    let mut words = Vec::new();
    for payload in call_questions() {
        let answer = call_answer(&payload);
        let (calls, _) = answer.split_once(" | ").expect("a line divides the answer");
        words.extend(calls.split(' ').skip(2).map(str::to_string));
    }
    words
}

#[test]
fn sort_7_asks_for_every_refusal_that_a_grown_index_gives() {
    let words = words_of_sort_7();
    let given = |refusal: u8| {
        let refusal = refusal.to_string();
        words
            .windows(2)
            .filter(|two| two[0] == "E" && two[1] == refusal)
            .count()
    };
    for refusal in [1, 2, 3, 4, 5, 6, 7, 11, 12] {
        assert!(given(refusal) >= 2, "refusal {refusal}: {}", given(refusal));
    }
    for refusal in [8, 9, 10, 13] {
        assert_eq!(given(refusal), 0, "refusal {refusal}");
    }
    for word in ["S", "R", "Q", "+", "-"] {
        let times = words.iter().filter(|other| *other == word).count();
        assert!(times >= 10, "{word}: {times}");
    }
}

#[test]
fn sort_7_asks_on_small_memory_of_many_sizes() {
    let mut sizes = [Vec::new(), Vec::new(), Vec::new()];
    for payload in call_questions() {
        let (blocks, entries, places) = sizes_of(&payload);
        sizes[0].push(blocks);
        sizes[1].push(entries);
        sizes[2].push(places);
    }
    assert!(sizes[0].iter().all(|blocks| *blocks <= 12));
    assert!(sizes[1].iter().all(|entries| *entries <= 24));
    for blocks in [0, 1, 2, 3, 12] {
        assert!(sizes[0].contains(&blocks), "{blocks} blocks");
    }
    for entries in [0, 1, 2, 3, 5, 23, 24] {
        assert!(sizes[1].contains(&entries), "{entries} entries");
    }
    for places in [0, 1, 2, 255] {
        assert!(sizes[2].contains(&places), "{places} places");
    }
}

#[test]
fn joins_of_sort_7() {
    // The counters after each list: the marked chain on 2 blocks and on 1; the heads filled to
    // byte 63 by 6 and 4 bytes and by 5 and 5, and the one of 6, 3 and 2; then two joins in one
    // report with no, one and two blocks left; 45 of 48 postings in the head; five blocks for
    // each of two terms and one more for the first, so that 48 reports are taken.
    let counters: Vec<String> = join_calls()
        .iter()
        .map(|payload| {
            let answer = call_answer(payload);
            let (_, end) = answer.split_once(" | ").expect("a line divides the answer");
            let numbers: Vec<&str> = end.split(' ').take(3).collect();
            numbers.join(" ")
        })
        .collect();
    let expected = [
        "2 1 12", "1 1 11", "2 1 4", "2 1 4", "2 1 4", "2 2 2", "3 2 3", "4 2 4", "2 1 48",
        "11 2 48",
    ];
    assert_eq!(counters[..10], expected);
}

/// The answer of the ledger to a question of sort 7, up to the counters.
fn ledger_answer(payload: &[u8]) -> String {
    let (blocks, entries, places) = sizes_of(payload);
    let mut ledger = Ledger::new();
    let mut text = format!("calls {}", hex(payload));
    for call in read_calls(payload) {
        text.push_str(&match call {
            AskedCall::Start => {
                ledger.start();
                " S".to_string()
            }
            AskedCall::Frame(Call::Report, frame) => {
                let answer = ledger.report(frame, blocks * 64, entries);
                report_text(answer.refusal, answer.number)
            }
            AskedCall::Frame(call, frame) => ledger_listing(&ledger, call, frame, places),
        });
    }
    let (used, terms) = (ledger.prescribed_blocks(), ledger.terms());
    format!("{text} | {used} {terms} {} ", ledger.reports())
}

/// The part of the ledger's answer that stands for a listing.
fn ledger_listing(ledger: &Ledger, call: Call, frame: &[u8], places: usize) -> String {
    let (mut numbers, mut counts) = (vec![0; places], vec![0; places]);
    let answer = match call {
        Call::OneTerm => ledger.list_one(frame, &mut numbers, &mut counts),
        _ => ledger.list_all(frame, &mut numbers),
    };
    numbers.truncate(answer.filled as usize);
    let counts = Some(&counts[..]).filter(|_| call == Call::OneTerm);
    listing_text(answer.refusal, answer.more, &numbers, counts)
}

#[test]
fn answers_of_sort_7_are_those_of_the_ledger() {
    for payload in call_questions() {
        let expected = ledger_answer(&payload);
        let answer = call_answer(&payload);
        assert!(answer.starts_with(&expected), "{expected}\n{answer}");
    }
}
