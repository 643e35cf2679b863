//! The memory of one index, lent to the proved library and to plain Rust in turns. Both work on the
//! same pages, so that neither has the better place in the caches.

use std::ops::Range;

use differential::calls::Calls;
use report_index::{Counters, BLOCK_BYTES};

/// Arena, table and counters.
pub struct Memory {
    /// Memory with the arena in it, from the first multiple of 64 bytes on, so that each block lies in
    /// one line of the caches.
    bytes: Vec<u8>,
    arena: Range<usize>,
    /// The table.
    pub table: Vec<u32>,
    /// The counters.
    pub counters: Counters,
}

impl Memory {
    /// An arena of so many blocks and a table of so many slots. Every byte is written once, so that no
    /// page is missing when the clock runs.
    pub fn new(blocks: usize, slots: usize) -> Memory {
        let bytes = vec![0xEE; (blocks + 1) * BLOCK_BYTES];
        let from = bytes.as_ptr().align_offset(BLOCK_BYTES);
        Memory {
            arena: from..from + blocks * BLOCK_BYTES,
            bytes,
            table: vec![0xEE; slots],
            counters: Counters::default(),
        }
    }

    /// The arena.
    pub fn arena(&self) -> &[u8] {
        &self.bytes[self.arena.clone()]
    }

    /// Starts the index.
    pub fn start(&mut self, calls: &Calls) {
        (calls.start)(&mut self.table, &mut self.counters);
    }

    /// Takes all reports.
    pub fn ingest(&mut self, calls: &Calls, frames: &[Vec<u8>]) {
        let arena = &mut self.bytes[self.arena.clone()];
        for frame in frames {
            let answer = (calls.report)(arena, &mut self.table, &mut self.counters, frame);
            assert_eq!(answer.refusal, 0, "a report of the workload is refused");
        }
    }

    /// Lists one query whole and tells how many places were filled. A list of counts is there for
    /// one term only.
    pub fn list(&self, calls: &Calls, frame: &[u8], lists: &mut Lists) -> usize {
        let Lists { numbers, counts } = lists;
        let (arena, table, counters) = (self.arena(), &self.table, &self.counters);
        let answer = match counts {
            Some(counts) => (calls.list_one)(arena, table, counters, frame, numbers, counts),
            None => (calls.list_all)(arena, table, counters, frame, numbers),
        };
        assert_eq!(
            (answer.refusal, answer.more),
            (0, false),
            "a query's answer"
        );
        answer.filled as usize
    }

    /// What an index of all reports leaves: the whole arena, the table and the counters.
    pub fn left(&mut self, calls: &Calls, frames: &[Vec<u8>]) -> (Vec<u8>, Vec<u32>, Counters) {
        self.start(calls);
        self.ingest(calls, frames);
        let arena = self.arena().to_vec();
        (arena, self.table.clone(), self.counters)
    }
}

/// The lists lent to a query.
#[derive(Clone, PartialEq, Eq)]
pub struct Lists {
    /// The numbers of the reports.
    pub numbers: Vec<u32>,
    /// The counts, where one term is asked for.
    pub counts: Option<Vec<u32>>,
}

impl Lists {
    /// Lists with a place for every report.
    pub fn new(reports: usize, with_counts: bool) -> Lists {
        Lists {
            numbers: vec![0; reports],
            counts: with_counts.then(|| vec![0; reports]),
        }
    }
}
