//! The links of chains, followed with nothing decoded. Each block is found by the link of the one
//! before it, so no program that reads a chain whole, chain after chain, takes less than this.

use std::collections::HashMap;

use report_index::BLOCK_BYTES;

use crate::memory::Memory;
use crate::workload::{Queries, Workload};

/// Where a head has the number of its tail block, the length of its term and the term.
const TAIL: usize = 4;
const LENGTH: usize = 17;
const TERM: usize = 18;

/// The chains of some queries in an arena.
pub struct Chains<'a> {
    arena: &'a [u8],
    /// The heads of each query's terms.
    heads: Vec<Vec<u32>>,
}

impl<'a> Chains<'a> {
    /// The chains of the queries' terms, all of which are held.
    pub fn new(workload: &Workload, queries: &Queries, memory: &'a Memory) -> Chains<'a> {
        let arena = memory.arena();
        let filled = memory.table.iter().filter(|entry| **entry != 0);
        let by_term: HashMap<&[u8], u32> = filled
            .map(|entry| (term(arena, entry - 1), entry - 1))
            .collect();
        let head = |place: &u32| by_term[workload.terms[*place as usize].as_bytes()];
        let heads = |places: &Vec<u32>| places.iter().map(head).collect();
        Chains {
            arena,
            heads: queries.places.iter().map(heads).collect(),
        }
    }

    /// Follows the links of all chains, one after another: how many blocks they have together.
    pub fn follow(&self) -> usize {
        let chains = self.heads.iter().flatten();
        chains.map(|head| blocks(self.arena, *head)).sum()
    }
}

/// The term of a head.
fn term(arena: &[u8], head: u32) -> &[u8] {
    let block = &arena[head as usize * BLOCK_BYTES..];
    &block[TERM..TERM + usize::from(block[LENGTH])]
}

/// How many blocks the chain of a head has.
fn blocks(arena: &[u8], head: u32) -> usize {
    let word = |block: u32, at: usize| {
        let from = block as usize * BLOCK_BYTES + at;
        let bytes = arena[from..from + 4].try_into().expect("four bytes");
        u32::from_be_bytes(bytes)
    };
    let tail = word(head, TAIL);
    let mut block = head;
    let mut number = 1;
    while block != tail {
        block = word(block, 0);
        number += 1;
    }
    number
}
