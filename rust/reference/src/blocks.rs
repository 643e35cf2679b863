//! The fields of blocks and the three ways of writing a posting, after the section "Blocks" of
//! document 01 and the bullet on the arena in "Memory lent to the index".
//!
//! Everything here works on an arena with any contents. A block number that the arena has no bytes
//! for names no block: readers then give nothing and writers change nothing.

use std::ops::Range;

use crate::postings::{self, Posting};
use crate::terms::LONGEST_TERM;

/// The bytes of a block.
pub const BLOCK_BYTES: usize = 64;

/// Where the postings part starts in a block that is not read as a head.
const START_IN_OTHERS: usize = 4;

/// Where the number of the tail stands in a head.
const TAIL_AT: usize = 4;

/// Where the last report stands in a head.
const LAST_AT: usize = 8;

/// Where the number of postings stands in a head.
const POSTINGS_AT: usize = 12;

/// Where the write offset stands in a head.
const OFFSET_AT: usize = 16;

/// Where the length of the term stands in a head.
const LENGTH_AT: usize = 17;

/// Where the term stands in a head.
const TERM_AT: usize = 18;

/// The bytes of one block.
pub type Block = [u8; BLOCK_BYTES];

/// The number of blocks of an arena with this many bytes ("Memory lent to the index").
pub fn capacity(arena_bytes: usize) -> u32 {
    u32::try_from(arena_bytes / BLOCK_BYTES).unwrap_or(u32::MAX)
}

/// The bytes of the block with this number, or nothing if the arena has no such block.
pub fn block(arena: &[u8], number: u32) -> Option<&Block> {
    let bytes = bytes_of(arena.len(), number)?;
    arena.get(bytes)?.try_into().ok()
}

/// The same bytes, to be changed.
fn block_mut(arena: &mut [u8], number: u32) -> Option<&mut Block> {
    let bytes = bytes_of(arena.len(), number)?;
    arena.get_mut(bytes)?.try_into().ok()
}

/// Where a block stands in an arena of this many bytes, or nothing if its number is not below the
/// capacity.
fn bytes_of(arena_bytes: usize, number: u32) -> Option<Range<usize>> {
    if number >= capacity(arena_bytes) {
        return None;
    }
    let start = number as usize * BLOCK_BYTES;
    Some(start..start + BLOCK_BYTES)
}

/// The first four bytes of any block: the number of the next block, or, in a tail, that of the
/// first report in it ("Blocks").
pub fn link_or_first(block: &Block) -> u32 {
    number_at(block, 0)
}

/// The fields of a head that stand between its first four bytes and its term ("Blocks").
#[derive(Debug, Clone, Copy, PartialEq, Eq)]
pub struct Head {
    /// The number of the block that is the tail of the chain.
    pub tail: u32,
    /// The last report in the chain.
    pub last: u32,
    /// How many postings the chain has.
    pub postings: u32,
    /// The offset in the tail at which the next posting goes.
    pub offset: u8,
    /// How many bytes the term has.
    pub length: u8,
}

impl Head {
    /// The fields of a block, read as a head.
    pub fn of(block: &Block) -> Head {
        Head {
            tail: number_at(block, TAIL_AT),
            last: number_at(block, LAST_AT),
            postings: number_at(block, POSTINGS_AT),
            offset: block[OFFSET_AT],
            length: block[LENGTH_AT],
        }
    }

    /// Writes the fields into a block.
    fn write(self, block: &mut Block) {
        write_number(block, TAIL_AT, self.tail);
        write_number(block, LAST_AT, self.last);
        write_number(block, POSTINGS_AT, self.postings);
        block[OFFSET_AT] = self.offset;
        block[LENGTH_AT] = self.length;
    }

    /// Where the postings part starts in block `number` of the chain whose head has these fields
    /// and the number `head_number` ("Blocks").
    ///
    /// In the head it comes after the term, so that it lies past the block where the length of the
    /// term is out of range. Any other block of the chain has only its first four bytes before it,
    /// also if that block is the head of another chain.
    pub fn start_in(&self, head_number: u32, number: u32) -> usize {
        if number == head_number {
            TERM_AT + usize::from(self.length)
        } else {
            START_IN_OTHERS
        }
    }
}

/// Whether a block, read as a head, has this term ("Finding a term").
pub fn has_term(block: &Block, term: &[u8]) -> bool {
    usize::from(block[LENGTH_AT]) == term.len() && block[TERM_AT..].starts_with(term)
}

/// The end of a chain: all that decides where its next posting goes and which gap it carries.
#[derive(Debug, Clone, Copy, PartialEq, Eq)]
pub struct End {
    /// The fields of the head.
    pub head: Head,
    /// The first report in the tail.
    pub first: u32,
    /// Where the postings part of the tail starts.
    pub start: usize,
}

impl End {
    /// The end of the chain with this head, or nothing if the arena lacks its head or its tail. The
    /// tail may be the head itself.
    pub fn of(arena: &[u8], head_number: u32) -> Option<End> {
        let head = Head::of(block(arena, head_number)?);
        let tail = block(arena, head.tail)?;
        Some(End {
            head,
            first: link_or_first(tail),
            start: head.start_in(head_number, head.tail),
        })
    }

    /// Whether the write offset leaves at least one byte of postings before it and is at most 64
    /// (the paragraph on damage in "Where each refusal is checked").
    pub fn offset_is_in_place(&self) -> bool {
        let offset = usize::from(self.head.offset);
        self.start < offset && offset <= BLOCK_BYTES
    }

    /// Whether a posting with its d-gap goes into the tail without passing byte 63 ("Blocks"). A
    /// report that is not past the last one has no d-gap and fits nowhere.
    pub fn fits(&self, report: u32, count: u32) -> bool {
        self.offset_after(report, count).is_some()
    }

    /// The write offset after a posting with its d-gap, if it fits.
    fn offset_after(&self, report: u32, count: u32) -> Option<u8> {
        let length = self.d_gap_code(report, count)?.len();
        let offset = usize::from(self.head.offset) + length;
        if offset > BLOCK_BYTES {
            return None;
        }
        u8::try_from(offset).ok()
    }

    /// The code of a posting that does not open a block: its gap counts from the last report.
    fn d_gap_code(&self, report: u32, count: u32) -> Option<Vec<u8>> {
        code(self.head.last, report, count)
    }

    /// The code of a posting that opens the block after the tail: its gap counts from the first
    /// report in the tail.
    fn b_gap_code(&self, report: u32, count: u32) -> Option<Vec<u8>> {
        code(self.first, report, count)
    }
}

/// The code of a posting whose gap counts from `base`, or nothing if the report is not past it or
/// the count is 0.
fn code(base: u32, report: u32, count: u32) -> Option<Vec<u8>> {
    let gap = report.checked_sub(base)?;
    Some(postings::code(Posting::new(gap, count)?))
}

/// Makes a block the head of a new chain with one posting, whose gap counts from 0 ("Blocks").
///
/// Nothing is given and nothing changed if the arena has no such block, if the term has a length
/// that no term has, or if the report or the count is 0.
pub fn open_head(
    arena: &mut [u8],
    number: u32,
    term: &[u8],
    report: u32,
    count: u32,
) -> Option<()> {
    if term.is_empty() || term.len() > LONGEST_TERM {
        return None;
    }
    let code = code(0, report, count)?;
    let start = TERM_AT + term.len();
    let head = Head {
        tail: number,
        last: report,
        postings: 1,
        offset: (start + code.len()) as u8,
        length: term.len() as u8,
    };
    let block = block_mut(arena, number)?;
    block.fill(0);
    write_number(block, 0, report);
    head.write(block);
    block[TERM_AT..start].copy_from_slice(term);
    block[start..start + code.len()].copy_from_slice(&code);
    Some(())
}

/// Adds a posting to the tail of a chain ("Blocks").
///
/// Nothing is given and nothing changed if the posting does not fit, if the write offset is out of
/// place, or if the chain has no end.
pub fn add_posting(arena: &mut [u8], head_number: u32, report: u32, count: u32) -> Option<()> {
    let end = End::of(arena, head_number)?;
    if !end.offset_is_in_place() {
        return None;
    }
    let code = end.d_gap_code(report, count)?;
    let head = Head {
        last: report,
        postings: end.head.postings.checked_add(1)?,
        offset: end.offset_after(report, count)?,
        ..end.head
    };
    let place = usize::from(end.head.offset);
    let tail = block_mut(arena, end.head.tail)?;
    tail[place..place + code.len()].copy_from_slice(&code);
    head.write(block_mut(arena, head_number)?);
    Some(())
}

/// Puts block `number` after the tail of a chain, makes it the new tail and writes a posting with
/// its b-gap at its front ("Blocks"). Of the old tail only the first four bytes change.
///
/// Nothing is given and nothing changed if the arena has no such block, if the block is the head or
/// the tail of this chain, if there is no b-gap, or if the chain has no end.
pub fn open_next(
    arena: &mut [u8],
    head_number: u32,
    number: u32,
    report: u32,
    count: u32,
) -> Option<()> {
    let end = End::of(arena, head_number)?;
    if number == head_number || number == end.head.tail {
        return None;
    }
    let code = end.b_gap_code(report, count)?;
    let after = START_IN_OTHERS + code.len();
    let head = Head {
        tail: number,
        last: report,
        postings: end.head.postings.checked_add(1)?,
        offset: after as u8,
        ..end.head
    };
    let block = block_mut(arena, number)?;
    block.fill(0);
    write_number(block, 0, report);
    block[START_IN_OTHERS..after].copy_from_slice(&code);
    write_number(block_mut(arena, end.head.tail)?, 0, number);
    head.write(block_mut(arena, head_number)?);
    Some(())
}

/// The four bytes at `place`, big-endian.
fn number_at(block: &Block, place: usize) -> u32 {
    u32::from_be_bytes([
        block[place],
        block[place + 1],
        block[place + 2],
        block[place + 3],
    ])
}

/// Writes a number into the four bytes at `place`, big-endian.
fn write_number(block: &mut Block, place: usize, number: u32) {
    block[place..place + 4].copy_from_slice(&number.to_be_bytes());
}

#[cfg(test)]
mod tests;
