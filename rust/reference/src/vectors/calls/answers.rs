//! Answers to questions of sort 7: the calls of the list, made on lent memory.

use super::START;
use crate::blocks::BLOCK_BYTES;
use crate::frames::Call;
use crate::index::{self, Counters};
use crate::vectors::hex;

/// A call of a question of sort 7.
pub(super) enum AskedCall<'a> {
    Start,
    Frame(Call, &'a [u8]),
}

/// The calls of a question of sort 7.
pub(super) fn read_calls(payload: &[u8]) -> Vec<AskedCall<'_>> {
    let mut calls = Vec::new();
    let mut rest = &payload[5..];
    while let Some((kind, after)) = rest.split_first() {
        if *kind == START {
            calls.push(AskedCall::Start);
            rest = after;
            continue;
        }
        let call = Call::of_kind(*kind).expect("a question of sort 7 has calls from 0 to 3");
        let length = usize::from(u16::from_be_bytes([after[0], after[1]]));
        let (frame, after) = after[2..].split_at(length);
        calls.push(AskedCall::Frame(call, frame));
        rest = after;
    }
    calls
}

/// The answer to a question of sort 7.
pub fn call_answer(payload: &[u8]) -> String {
    let mut text = format!("calls {}", hex(payload));
    let mut memory = LentMemory::new(payload);
    for call in read_calls(payload) {
        text.push_str(&match call {
            AskedCall::Start => memory.start(),
            AskedCall::Frame(Call::Report, frame) => memory.report(frame),
            AskedCall::Frame(Call::OneTerm, frame) => memory.list_one(frame),
            AskedCall::Frame(Call::AllTerms, frame) => memory.list_all(frame),
        });
    }
    text.push_str(&memory.end());
    text
}

/// The number of blocks, of table entries and of places in lists that a question of sort 7 gives.
pub(super) fn sizes_of(payload: &[u8]) -> (usize, usize, usize) {
    let size = |place| usize::from(u16::from_be_bytes([payload[place], payload[place + 1]]));
    (size(0), size(2), usize::from(payload[4]))
}

/// The memory that the calls of one question share. Each call gives its part of the answer.
struct LentMemory {
    arena: Vec<u8>,
    table: Vec<u32>,
    counters: Counters,
    places: usize,
}

impl LentMemory {
    /// Null memory of the sizes that the question gives.
    fn new(payload: &[u8]) -> LentMemory {
        let (blocks, entries, places) = sizes_of(payload);
        LentMemory {
            arena: vec![0; blocks * BLOCK_BYTES],
            table: vec![0; entries],
            counters: Counters::default(),
            places,
        }
    }

    fn start(&mut self) -> String {
        index::start(&mut self.table, &mut self.counters);
        " S".to_string()
    }

    fn report(&mut self, frame: &[u8]) -> String {
        let answer = index::report(&mut self.arena, &mut self.table, &mut self.counters, frame);
        report_text(answer.refusal, answer.number)
    }

    fn list_one(&self, frame: &[u8]) -> String {
        let mut numbers = vec![0; self.places];
        let mut counts = vec![0; self.places];
        let answer = index::list_one(
            &self.arena,
            &self.table,
            &self.counters,
            frame,
            &mut numbers,
            &mut counts,
        );
        numbers.truncate(answer.filled as usize);
        listing_text(answer.refusal, answer.more, &numbers, Some(&counts))
    }

    fn list_all(&self, frame: &[u8]) -> String {
        let mut numbers = vec![0; self.places];
        let answer = index::list_all(
            &self.arena,
            &self.table,
            &self.counters,
            frame,
            &mut numbers,
        );
        numbers.truncate(answer.filled as usize);
        listing_text(answer.refusal, answer.more, &numbers, None)
    }

    /// The counters, the table and the arena.
    fn end(&self) -> String {
        let Counters {
            used,
            terms,
            reports,
        } = self.counters;
        let table: Vec<u8> = self
            .table
            .iter()
            .flat_map(|entry| entry.to_be_bytes())
            .collect();
        let (table, arena) = (hex(&table), hex(&self.arena));
        format!(" | {used} {terms} {reports} {table} {arena}")
    }
}

/// The part of an answer that stands for a report.
pub(super) fn report_text(refusal: u8, number: u32) -> String {
    match refusal {
        0 => format!(" R {number}"),
        _ => format!(" E {refusal}"),
    }
}

/// The part of an answer that stands for a listing with these numbers, and with the counts if it is
/// one of one term.
pub(super) fn listing_text(
    refusal: u8,
    more: bool,
    numbers: &[u32],
    counts: Option<&[u32]>,
) -> String {
    if refusal != 0 {
        return format!(" E {refusal}");
    }
    let more = if more { '+' } else { '-' };
    let mut text = format!(" Q {} {more}", numbers.len());
    for (place, number) in numbers.iter().enumerate() {
        text.push_str(&format!(" {number}"));
        if let Some(counts) = counts {
            text.push_str(&format!(":{}", counts[place]));
        }
    }
    text
}
