//! The proved library's memory: as large as the reports need, up to a limit.

use report_index::{Index, Refusal, BLOCK_BYTES};

/// The bytes of an entry of the table.
const ENTRY_BYTES: u64 = 4;

/// The least bytes of the first arena.
const LEAST_ARENA: u64 = 64 * 1_024;

/// How many bytes of the first arena there are for an entry of the first table.
const ARENA_TO_ENTRY: u64 = BLOCK_BYTES as u64;

/// An index whose memory is doubled when it is full.
#[derive(Debug)]
pub struct GrowingIndex {
    index: Index,
    /// The most bytes of arena and table together.
    limit: u64,
}

impl GrowingIndex {
    /// An empty index, yet without memory.
    pub fn new(limit: u64) -> GrowingIndex {
        let index = Index::new(0, 0);
        GrowingIndex { index, limit }
    }

    /// Gives the index its first memory, for the reports of a log of this many bytes; nothing, where
    /// it has memory. An arena as long as the log is enough for most: a line of a report takes at least
    /// five bytes there beside its term, and one to ten in an arena, but for the first of its term.
    pub fn give_memory(&mut self, log_bytes: u64) {
        if self.index.arena.is_empty() {
            let (arena, entries) = first_size(log_bytes, self.limit);
            self.index.arena = vec![0; arena as usize];
            self.index.table = vec![0; entries as usize];
            self.index.start();
        }
    }

    /// The index itself.
    pub fn index(&self) -> &Index {
        &self.index
    }

    /// How many reports are held.
    pub fn reports(&self) -> usize {
        self.index.counters.reports as usize
    }

    /// Takes a report. Where the table or the arena is full, it is doubled and `earlier`, the frames
    /// of all reports held, are taken again.
    pub fn take<'a>(
        &mut self,
        frame: &[u8],
        earlier: impl Iterator<Item = &'a [u8]> + Clone,
    ) -> Result<u32, Refusal> {
        loop {
            let refusal = match self.index.report(frame) {
                Ok(number) => return Ok(number),
                Err(refusal) => refusal,
            };
            let grown = match refusal {
                Refusal::Terms => self.double_table(),
                Refusal::Room => self.double_arena(),
                _ => false,
            };
            if !grown {
                return Err(refusal);
            }
            self.index.start();
            for frame in earlier.clone() {
                self.index.report(frame)?;
            }
        }
    }

    /// Doubles the arena, as far as the limit and the system let it; tells whether it grew.
    fn double_arena(&mut self) -> bool {
        let rest = self.limit.saturating_sub(self.table_bytes());
        let now = self.index.arena.len() as u64;
        let next = whole_blocks(rest.min((now * 2).max(LEAST_ARENA)));
        lengthen(&mut self.index.arena, next)
    }

    /// Doubles the table, as far as the limit and the system let it; tells whether it grew.
    fn double_table(&mut self) -> bool {
        let rest = self.limit.saturating_sub(self.index.arena.len() as u64);
        let now = self.index.table.len() as u64;
        let next = (rest / ENTRY_BYTES).min((now * 2).max(LEAST_ARENA / ARENA_TO_ENTRY));
        lengthen(&mut self.index.table, next)
    }

    fn table_bytes(&self) -> u64 {
        self.index.table.len() as u64 * ENTRY_BYTES
    }
}

/// The bytes of the first arena and the entries of the first table.
fn first_size(log_bytes: u64, limit: u64) -> (u64, u64) {
    let wanted = log_bytes.max(LEAST_ARENA);
    // So that arena and table together stay within the limit.
    let within = limit / (ARENA_TO_ENTRY + ENTRY_BYTES) * ARENA_TO_ENTRY;
    let arena = whole_blocks(wanted.min(within));
    (arena, arena / ARENA_TO_ENTRY)
}

fn whole_blocks(bytes: u64) -> u64 {
    bytes - bytes % BLOCK_BYTES as u64
}

/// Lengthens the memory to this many elements, if that is more than it has and the system has it.
fn lengthen<T: Clone + Default>(memory: &mut Vec<T>, next: u64) -> bool {
    let more = next.saturating_sub(memory.len() as u64) as usize;
    if more == 0 || memory.try_reserve_exact(more).is_err() {
        return false;
    }
    memory.resize(next as usize, T::default());
    true
}

#[cfg(test)]
mod tests {
    use super::*;
    use report_index::frame;

    fn bytes(index: &GrowingIndex) -> u64 {
        index.index.arena.len() as u64 + index.table_bytes()
    }

    #[test]
    fn the_first_size_stays_within_the_limit() {
        assert_eq!(first_size(0, 1 << 30), (65_536, 1_024));
        assert_eq!(first_size(1_000_063, 1 << 30), (1_000_000, 15_625));
        assert_eq!(first_size(1_000_000, 6_800), (6_400, 100));
        assert_eq!(first_size(0, 0), (0, 0));
    }

    /// Reports with a new term each, until the limit: all are held, and the memory is used up to it.
    #[test]
    fn memory_grows_up_to_the_limit() {
        for limit in [0, 68, 1_000, 100_000, 1_000_000] {
            let mut index = GrowingIndex::new(limit);
            index.give_memory(0);
            let mut taken: Vec<Vec<u8>> = Vec::new();
            let refusal = loop {
                let term = format!("term-{}", taken.len());
                let frame = frame::report(&[(term, 1)]).unwrap();
                match index.take(&frame, taken.iter().map(|frame| &frame[..])) {
                    Ok(number) => assert_eq!(number as usize, taken.len() + 1),
                    Err(refusal) => break refusal,
                }
                taken.push(frame);
            };
            assert!(matches!(refusal, Refusal::Terms | Refusal::Room));
            assert_eq!(index.reports(), taken.len());
            assert!(bytes(&index) <= limit, "{} over {limit}", bytes(&index));
            assert!(taken.len() as u64 >= limit / 150, "{}", taken.len());
        }
    }
}
