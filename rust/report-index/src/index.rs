//! An index that owns its memory.

use crate::{Counters, Listed, Refusal, BLOCK_BYTES};

/// A started index with memory of its own.
///
/// The fields are open, so that they can be stored and lent again: any contents are taken, and
/// damage is refused.
#[derive(Debug, Clone, PartialEq, Eq)]
pub struct Index {
    /// The arena: the blocks, one after another.
    pub arena: Vec<u8>,
    /// The table. At most half of its entries are ever filled.
    pub table: Vec<u32>,
    /// The counters.
    pub counters: Counters,
}

impl Index {
    /// An empty index with an arena of `blocks` blocks and a table of `slots` entries.
    pub fn new(blocks: usize, slots: usize) -> Index {
        let mut index = Index {
            arena: vec![0; blocks * BLOCK_BYTES],
            table: vec![0; slots],
            counters: Counters::default(),
        };
        index.start();
        index
    }

    /// Empties the index ([`crate::start`]).
    pub fn start(&mut self) {
        crate::start(&mut self.table, &mut self.counters);
    }

    /// Takes a report and gives its number ([`crate::report`]).
    pub fn report(&mut self, frame: &[u8]) -> Result<u32, Refusal> {
        crate::report(&mut self.arena, &mut self.table, &mut self.counters, frame)
    }

    /// Lists the reports with one term, and its counts ([`crate::list_one`]).
    pub fn list_one(
        &self,
        frame: &[u8],
        numbers: &mut [u32],
        counts: &mut [u32],
    ) -> Result<Listed, Refusal> {
        crate::list_one(
            &self.arena,
            &self.table,
            &self.counters,
            frame,
            numbers,
            counts,
        )
    }

    /// Lists the reports with all of several terms ([`crate::list_all`]).
    pub fn list_all(&self, frame: &[u8], numbers: &mut [u32]) -> Result<Listed, Refusal> {
        crate::list_all(&self.arena, &self.table, &self.counters, frame, numbers)
    }
}
