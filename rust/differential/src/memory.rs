//! Arena, table and counters of an index: drawn, and damaged.

use reference::blocks::BLOCK_BYTES;
use reference::draws::Draws;
use reference::index::Counters;
use reference::postings;

/// The memory of an index.
#[derive(Debug, Clone, PartialEq, Eq, Default)]
pub struct Memory {
    /// The arena.
    pub arena: Vec<u8>,
    /// The table.
    pub table: Vec<u32>,
    /// The counters.
    pub counters: Counters,
}

/// Where the fields of a head stand that have four bytes: link or first number, tail, last report,
/// number of postings.
const WIDE_FIELDS: [usize; 4] = [0, 4, 8, 12];

/// Where the fields of a head stand that have one byte: write offset, term length.
const NARROW_FIELDS: [usize; 2] = [16, 17];

impl Memory {
    /// Memory of these sizes with any contents, and some bytes past the last whole block.
    pub fn any(draws: &mut Draws, blocks: usize, slots: usize) -> Memory {
        let bytes_after = draws.between(0, BLOCK_BYTES - 1);
        Memory {
            arena: draws.bytes(blocks * BLOCK_BYTES + bytes_after),
            table: (0..slots).map(|_| draws.number()).collect(),
            counters: Counters {
                used: draws.number(),
                terms: draws.number(),
                reports: draws.number(),
            },
        }
    }

    /// Memory that no list of calls leaves, but in which most fields have a likely value: blocks
    /// that look like heads of these terms and lead to each other, and counters within bounds.
    pub fn wild(draws: &mut Draws, blocks: usize, slots: usize, words: &[Vec<u8>]) -> Memory {
        let mut memory = Memory::any(draws, blocks, slots);
        let used = draws.between(0, blocks);
        memory.counters = Counters {
            used: used as u32,
            terms: draws.between(0, used.min(slots / 2)) as u32,
            reports: draws.between(0, 60) as u32,
        };
        for entry in memory.table.iter_mut() {
            let most = draws.between(0, used) as u64;
            *entry = draws.below(most + 1) as u32;
        }
        for block in memory.arena.chunks_exact_mut(BLOCK_BYTES) {
            let word = words[draws.between(0, words.len() - 1)].to_ascii_lowercase();
            fill_like_a_head(draws, block, used, &word);
        }
        memory
    }

    /// Makes the reports more: later gaps are wide, and nothing is damaged by it. Now and then only
    /// one number is left.
    pub fn raise_reports(&mut self, draws: &mut Draws) {
        let reports = self.counters.reports;
        let more = draws.number() >> draws.below(32);
        self.counters.reports = if draws.below(30) == 0 {
            reports.max(u32::MAX - 1)
        } else {
            reports.saturating_add(more)
        };
    }

    /// Does one damage, drawn from all sorts.
    pub fn damage(&mut self, draws: &mut Draws) {
        match draws.below(16) {
            0 => self.damage_counters(draws),
            1..=3 => self.damage_table(draws),
            4 => self.raise_reports(draws),
            5 => self.swap_or_copy_blocks(draws),
            6..=8 => self.damage_postings(draws),
            9 => {
                self.set_wide_field(draws, 0);
                self.counters.reports = u32::MAX - draws.below(2) as u32;
            }
            10 => self.set_narrow_field(draws),
            11 | 12 => self.flip_bit(draws),
            _ => {
                let field = WIDE_FIELDS[draws.between(0, 3)];
                self.set_wide_field(draws, field);
            }
        }
    }

    /// The bytes of a drawn block, most often of a used one; nothing if there is no whole block.
    fn some_block(&mut self, draws: &mut Draws) -> Option<&mut [u8]> {
        let blocks = self.arena.len() / BLOCK_BYTES;
        let used = (self.counters.used as usize).min(blocks);
        let below = if used > 0 && draws.below(8) > 0 {
            used
        } else {
            blocks
        };
        let number = draws.between(0, below.checked_sub(1)?);
        let place = number * BLOCK_BYTES;
        Some(&mut self.arena[place..place + BLOCK_BYTES])
    }

    /// A number at or near one of the bounds by which fields are judged.
    fn near_a_bound(&self, draws: &mut Draws) -> u32 {
        let Counters { used, reports, .. } = self.counters;
        let near = match draws.below(8) {
            0 => used,
            1 => reports,
            2 => 0,
            3 => return draws.number(),
            4 => draws.below(u64::from(reports) + 1) as u32,
            _ => draws.below(u64::from(used) + 1) as u32,
        };
        match draws.below(4) {
            0 => near.wrapping_add(1),
            1 => near.wrapping_sub(1),
            _ => near,
        }
    }

    fn set_wide_field(&mut self, draws: &mut Draws, field: usize) {
        let number = self.near_a_bound(draws);
        if let Some(block) = self.some_block(draws) {
            block[field..field + 4].copy_from_slice(&number.to_be_bytes());
        }
    }

    fn set_narrow_field(&mut self, draws: &mut Draws) {
        let field = NARROW_FIELDS[draws.between(0, 1)];
        let number = [draws.below(67) as u8, draws.byte()][draws.between(0, 1)];
        if let Some(block) = self.some_block(draws) {
            block[field] = number;
        }
    }

    fn flip_bit(&mut self, draws: &mut Draws) {
        if let Some(block) = self.some_block(draws) {
            block[draws.between(0, BLOCK_BYTES - 1)] ^= 1 << draws.below(8);
        }
    }

    /// Writes a null byte, a byte with or without the flag, or a whole code of a posting somewhere
    /// behind the first four bytes.
    fn damage_postings(&mut self, draws: &mut Draws) {
        let bytes = match draws.below(4) {
            0 => vec![0],
            1 => vec![0x80 | draws.byte()],
            2 => vec![draws.byte() & 0x7F],
            _ => postings::code(draws.posting()),
        };
        if let Some(block) = self.some_block(draws) {
            let place = draws.between(4, BLOCK_BYTES - bytes.len());
            block[place..place + bytes.len()].copy_from_slice(&bytes);
        }
    }

    fn swap_or_copy_blocks(&mut self, draws: &mut Draws) {
        let Some(one) = self.some_block(draws).map(|block| block.to_vec()) else {
            return;
        };
        let copied = draws.below(2) == 0;
        if let Some(other) = self.some_block(draws) {
            other.copy_from_slice(&if copied { one } else { vec![0; BLOCK_BYTES] });
        }
    }

    /// Changes one entry, or fills all empty ones so that a search may find no end.
    fn damage_table(&mut self, draws: &mut Draws) {
        let Some(last) = self.table.len().checked_sub(1) else {
            return;
        };
        if draws.below(4) == 0 {
            let entry = draws.below(u64::from(self.counters.used) + 1) as u32;
            let empty = self.table.iter_mut().filter(|entry| **entry == 0);
            empty.for_each(|slot| *slot = entry);
            return;
        }
        let entry = match draws.below(3) {
            0 => self.table[draws.between(0, last)],
            1 => 0,
            _ => self.near_a_bound(draws),
        };
        self.table[draws.between(0, last)] = entry;
    }

    fn damage_counters(&mut self, draws: &mut Draws) {
        let number = self.near_a_bound(draws);
        match draws.below(4) {
            0 => self.counters.used = number,
            1 => self.counters.terms = number,
            2 => self.counters.reports = number,
            _ => self.counters.reports = u32::MAX - draws.below(2) as u32,
        }
    }
}

/// Fills a block so that it looks like a head of this term or like another block of a chain.
fn fill_like_a_head(draws: &mut Draws, block: &mut [u8], used: usize, word: &[u8]) {
    let most = [used + 1, 61, 4][draws.between(0, 2)];
    for field in WIDE_FIELDS {
        let number = draws.below(most as u64 + 1) as u32;
        block[field..field + 4].copy_from_slice(&number.to_be_bytes());
    }
    block[16] = draws.between(4, 65) as u8;
    block[17] = word.len() as u8;
    block[18..18 + word.len()].copy_from_slice(word);
    // Codes of one byte are 01 to 7F, but for those divisible by 4; small ones are gaps of 1 or 2.
    let most_value = [3, 7, 30][draws.between(0, 2)];
    for byte in &mut block[18 + word.len()..] {
        *byte = draws.between(1, most_value) as u8;
    }
}
