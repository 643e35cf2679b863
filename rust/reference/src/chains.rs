//! Reading chains and judging them, after the section "Blocks" of document 01 and the paragraph on
//! damage at the end of "Where each refusal is checked".
//!
//! The index names all damage by one number. Here each sort of damage has its own name, so that a
//! test can tell which rule it met. Where a chain is damaged in several ways, which of them is
//! named says nothing about document 01.

use crate::blocks::{self, Block, End, Head, BLOCK_BYTES};
use crate::postings::{self, Posting};

/// A way in which a chain is damaged ("Where each refusal is checked").
#[derive(Debug, Clone, Copy, PartialEq, Eq)]
pub enum Damage {
    /// A block of the chain is not used.
    NotUsed,
    /// A block has no posting.
    NoPosting,
    /// The write offset is over 64, or no byte of postings stands before it in the tail.
    Offset,
    /// The chain has more blocks than are used.
    TooManyBlocks,
    /// A code is not one that decoding takes, or it does not end within its part.
    Code,
    /// A report number is over the number of reports.
    OverReports,
    /// A report number is not larger than the one before it in the chain.
    NotPast,
    /// The number of postings differs from the one in the head or, in taking a report, is over the
    /// number of reports.
    Postings,
    /// The last report differs from the one in the head or, in taking a report, is over the number
    /// of reports.
    Last,
    /// In taking a report: the first report in the tail is over the number of reports.
    First,
}

/// A report in a chain.
#[derive(Debug, Clone, Copy, PartialEq, Eq)]
pub struct Entry {
    /// The number of the report.
    pub number: u32,
    /// The count of the term in it.
    pub count: u32,
}

/// What is judged of a known term's chain in taking a report ("Where each refusal is checked"): the
/// fields of its head and the first four bytes of its tail. Gives the end of the chain.
pub fn judged_end(arena: &[u8], used: u32, reports: u32, head_number: u32) -> Result<End, Damage> {
    let end = End::of(arena, head_number).ok_or(Damage::NotUsed)?;
    if head_number >= used || end.head.tail >= used {
        return Err(Damage::NotUsed);
    }
    if !end.offset_is_in_place() {
        return Err(Damage::Offset);
    }
    if end.head.last > reports {
        return Err(Damage::Last);
    }
    if end.first > reports {
        return Err(Damage::First);
    }
    if end.head.postings > reports {
        return Err(Damage::Postings);
    }
    Ok(end)
}

/// All reports of a chain in order, or a damage that listing names ("Blocks" on reading, "Where
/// each refusal is checked" on damage).
///
/// The chain is followed by its links from the head to the block that the head gives as its tail. A
/// chain that never comes there is stopped once it has more blocks than are used.
pub fn read(arena: &[u8], used: u32, reports: u32, head_number: u32) -> Result<Vec<Entry>, Damage> {
    let head = Head::of(used_block(arena, used, head_number)?);
    let mut entries = Vec::new();
    let mut first_before = 0;
    let mut number = head_number;
    for _ in 0..used {
        let block = used_block(arena, used, number)?;
        let start = head.start_in(head_number, number);
        let is_tail = number == head.tail;
        let postings = if is_tail {
            postings_of_tail(block, start, head.offset)?
        } else {
            postings_of_other(block, start)?
        };
        first_before = append(&mut entries, &postings, first_before, reports)?;
        if is_tail {
            check_totals(&head, &entries)?;
            return Ok(entries);
        }
        number = blocks::link_or_first(block);
    }
    Err(Damage::TooManyBlocks)
}

/// A block, if it is used and the arena has it.
fn used_block(arena: &[u8], used: u32, number: u32) -> Result<&Block, Damage> {
    if number >= used {
        return Err(Damage::NotUsed);
    }
    blocks::block(arena, number).ok_or(Damage::NotUsed)
}

/// The postings of a tail: its part ends at the write offset, and codes fill it to there
/// ("Blocks").
fn postings_of_tail(block: &Block, start: usize, offset: u8) -> Result<Vec<Posting>, Damage> {
    let end = usize::from(offset);
    if end <= start || end > BLOCK_BYTES {
        return Err(Damage::Offset);
    }
    let mut postings = Vec::new();
    let mut place = start;
    while place < end {
        let (posting, length) = postings::decode(&block[place..end]).ok_or(Damage::Code)?;
        postings.push(posting);
        place += length;
    }
    Ok(postings)
}

/// The postings of a block that is not the tail: they end where a null byte stands in the place of
/// a code, or with the block ("Blocks").
fn postings_of_other(block: &Block, start: usize) -> Result<Vec<Posting>, Damage> {
    let mut postings = Vec::new();
    let mut place = start;
    while place < BLOCK_BYTES && block[place] != 0 {
        let (posting, length) = postings::decode(&block[place..]).ok_or(Damage::Code)?;
        postings.push(posting);
        place += length;
    }
    Ok(postings)
}

/// Appends the reports of one block and gives the first of them, which a block without a posting
/// does not have. The first posting's gap counts from the first report of the block before, each
/// other gap from the report just appended ("Blocks").
fn append(
    entries: &mut Vec<Entry>,
    postings: &[Posting],
    first_before: u32,
    reports: u32,
) -> Result<u32, Damage> {
    let mut first = None;
    let mut base = first_before;
    for posting in postings {
        let number = number_after(base, posting.gap(), reports)?;
        if entries.last().is_some_and(|entry| number <= entry.number) {
            return Err(Damage::NotPast);
        }
        entries.push(Entry {
            number,
            count: posting.count(),
        });
        first = first.or(Some(number));
        base = number;
    }
    first.ok_or(Damage::NoPosting)
}

/// The report that lies a gap past `base`, if there are so many reports.
fn number_after(base: u32, gap: u32, reports: u32) -> Result<u32, Damage> {
    match base.checked_add(gap) {
        Some(number) if number <= reports => Ok(number),
        _ => Err(Damage::OverReports),
    }
}

/// Compares what was read with the head's number of postings and last report.
fn check_totals(head: &Head, entries: &[Entry]) -> Result<(), Damage> {
    if entries.len() as u64 != u64::from(head.postings) {
        return Err(Damage::Postings);
    }
    if entries.last().map(|entry| entry.number) != Some(head.last) {
        return Err(Damage::Last);
    }
    Ok(())
}

#[cfg(test)]
mod tests;
