//! Searching the table, after the section "Finding a term" of document 01, the bullet on the table
//! in "Memory lent to the index" and the first sentence on damage in "Where each refusal is
//! checked".

use crate::blocks;
use crate::terms;

/// What a search ends with.
#[derive(Debug, Clone, Copy, PartialEq, Eq)]
pub enum Found {
    /// The term is known.
    Known {
        /// The number of the block that is the head of its chain.
        head: u32,
    },
    /// The term is unknown.
    Unknown {
        /// The empty slot that ended the search, or nothing if the table has no slots.
        slot: Option<usize>,
    },
}

/// Why a search cannot end ("Where each refusal is checked").
#[derive(Debug, Clone, Copy, PartialEq, Eq)]
pub enum Damage {
    /// A slot that the search met leads to a block that is not used.
    NotUsed,
    /// All slots are filled and none leads to the term.
    Full,
}

/// The number of slots of a table with this many entries: T ("Memory lent to the index").
pub fn slots(entries: usize) -> u32 {
    u32::try_from(entries).unwrap_or(u32::MAX)
}

/// Searches the table for a folded term ("Finding a term").
///
/// The search begins at the slot given by the hash and goes on slot by slot, from the last to the
/// first, until it meets an empty slot or one that leads to the term. Slots that it does not meet
/// are not judged.
pub fn find(arena: &[u8], table: &[u32], used: u32, term: &[u8]) -> Result<Found, Damage> {
    let size = slots(table.len());
    if size == 0 {
        return Ok(Found::Unknown { slot: None });
    }
    let first = (terms::fnv1a(term) % size) as usize;
    let size = size as usize;
    for slot in (first..size).chain(0..first) {
        let entry = table[slot];
        if entry == 0 {
            return Ok(Found::Unknown { slot: Some(slot) });
        }
        let head = entry - 1;
        if leads_to(arena, used, head, term)? {
            return Ok(Found::Known { head });
        }
    }
    Err(Damage::Full)
}

/// Whether a block has this term, or damage if the block is not used.
fn leads_to(arena: &[u8], used: u32, number: u32, term: &[u8]) -> Result<bool, Damage> {
    if number >= used {
        return Err(Damage::NotUsed);
    }
    let block = blocks::block(arena, number).ok_or(Damage::NotUsed)?;
    Ok(blocks::has_term(block, term))
}

#[cfg(test)]
mod tests {
    use super::*;
    use crate::blocks::BLOCK_BYTES;
    use crate::draws::Draws;

    /// An arena with one block for each term, of which only the term and its length are set.
    fn arena_of(terms: &[&[u8]]) -> Vec<u8> {
        let mut arena = vec![0; terms.len() * BLOCK_BYTES];
        for (block, term) in arena.chunks_exact_mut(BLOCK_BYTES).zip(terms) {
            block[17] = term.len() as u8;
            block[18..18 + term.len()].copy_from_slice(term);
        }
        arena
    }

    fn known(head: u32) -> Result<Found, Damage> {
        Ok(Found::Known { head })
    }

    fn unknown(slot: usize) -> Result<Found, Damage> {
        Ok(Found::Unknown { slot: Some(slot) })
    }

    #[test]
    fn numbers_of_slots() {
        assert_eq!(slots(0), 0);
        assert_eq!(slots(512), 512);
    }

    #[cfg(target_pointer_width = "64")]
    #[test]
    fn the_number_of_slots_has_a_limit() {
        assert_eq!(slots(4_294_967_295), 4_294_967_295);
        assert_eq!(slots(4_294_967_296), 4_294_967_295);
    }

    #[test]
    fn a_table_without_slots() {
        let arena = arena_of(&[b"a"]);
        assert_eq!(
            find(&arena, &[], 1, b"a"),
            Ok(Found::Unknown { slot: None })
        );
    }

    #[test]
    fn first_slots() {
        // The hash of `a` is E40C292C and that of `c` E60C2C52: by 8 they leave 4 and 2.
        let table = [0; 8];
        assert_eq!(find(&[], &table, 0, b"a"), unknown(4));
        assert_eq!(find(&[], &table, 0, b"c"), unknown(2));
        // E40C292C is 3,826,002,220.
        assert_eq!(find(&[], &[0; 10], 0, b"a"), unknown(0));
        assert_eq!(find(&[], &[0; 1_000], 0, b"a"), unknown(220));
        assert_eq!(find(&[], &[0; 1], 0, b"a"), unknown(0));
    }

    #[test]
    fn a_search_goes_on_to_the_next_slot() {
        // By 8, `c`, `fo` (6222E842) and `hi` (683AF69A) leave 2.
        let arena = arena_of(&[b"c", b"fo", b"hi"]);
        let table = [0, 0, 1, 2, 3, 0, 0, 0];
        assert_eq!(find(&arena, &table, 3, b"c"), known(0));
        assert_eq!(find(&arena, &table, 3, b"fo"), known(1));
        assert_eq!(find(&arena, &table, 3, b"hi"), known(2));
        // `a` leaves 4, where `hi` stands.
        assert_eq!(find(&arena, &table, 3, b"a"), unknown(5));
        // An empty slot ends the search, whatever stands behind it.
        let table = [0, 0, 1, 0, 3, 0, 0, 0];
        assert_eq!(find(&arena, &table, 3, b"hi"), unknown(3));
    }

    #[test]
    fn a_search_goes_from_the_last_slot_to_the_first() {
        // By 8, `foo` (A9F37ED7) and `foob` (3F5076EF) leave 7.
        let arena = arena_of(&[b"foo", b"foob"]);
        let table = [0, 0, 0, 0, 0, 0, 0, 1];
        assert_eq!(find(&arena, &table, 2, b"foob"), unknown(0));
        let table = [2, 0, 0, 0, 0, 0, 0, 1];
        assert_eq!(find(&arena, &table, 2, b"foob"), known(1));
        let table = [1, 2, 0, 0, 0, 0, 0, 1];
        assert_eq!(find(&arena, &table, 2, b"foob"), known(1));
        let table = [1, 1, 1, 1, 1, 1, 2, 1];
        assert_eq!(find(&arena, &table, 2, b"foob"), known(1));
    }

    #[test]
    fn terms_match_whole_or_not_at_all() {
        let arena = arena_of(&[b"foo"]);
        let table = [1, 0];
        // By 2, `foo` leaves 1 and `fo` 0.
        assert_eq!(find(&arena, &table, 1, b"foo"), unknown(1));
        assert_eq!(find(&arena, &table, 1, b"fo"), unknown(1));
        assert_eq!(find(&arena, &[0, 1], 1, b"foo"), known(0));
    }

    #[test]
    fn damage_by_a_slot_that_leads_to_a_block_not_used() {
        let arena = arena_of(&[b"a", b"a"]);
        let mut table = [0; 8];
        table[4] = 2;
        assert_eq!(find(&arena, &table, 2, b"a"), known(1));
        assert_eq!(find(&arena, &table, 1, b"a"), Err(Damage::NotUsed));
        table[4] = 3;
        assert_eq!(find(&arena, &table, 2, b"a"), Err(Damage::NotUsed));
        // The arena lacks the block, though it counts as used.
        assert_eq!(find(&arena, &table, 3, b"a"), Err(Damage::NotUsed));
        table[4] = u32::MAX;
        assert_eq!(find(&arena, &table, u32::MAX, b"a"), Err(Damage::NotUsed));
    }

    #[test]
    fn slots_that_are_not_met_are_not_judged() {
        let arena = arena_of(&[b"a"]);
        let mut table = [u32::MAX; 8];
        table[4] = 1;
        assert_eq!(find(&arena, &table, 1, b"a"), known(0));
        table[4] = 0;
        assert_eq!(find(&arena, &table, 1, b"a"), unknown(4));
    }

    #[test]
    fn damage_by_a_full_table_without_the_term() {
        let arena = arena_of(&[b"b", b"a"]);
        assert_eq!(find(&arena, &[1], 2, b"a"), Err(Damage::Full));
        assert_eq!(find(&arena, &[1; 8], 2, b"a"), Err(Damage::Full));
        // The slot before the first one is the last that is met.
        let mut table = [1; 8];
        table[3] = 2;
        assert_eq!(find(&arena, &table, 2, b"a"), known(1));
        table[3] = 0;
        assert_eq!(find(&arena, &table, 2, b"a"), unknown(3));
    }

    #[test]
    fn drawn_tables_never_stop_the_search() {
        let mut draws = Draws::new(0x0D0B_2026);
        for _ in 0..20_000 {
            let bytes = draws.between(0, 300);
            let arena = draws.bytes(bytes);
            let entries = draws.between(0, 6);
            let table: Vec<u32> = (0..entries).map(|_| draws.below(6) as u32).collect();
            let length = draws.between(0, 40);
            let term = draws.bytes(length);
            let _ = find(&arena, &table, draws.below(6) as u32, &term);
        }
    }
}
