//! A report index whose every call is proved: this crate hands Rust slices to the proved library and
//! its answers back as results.
//!
//! The caller lends all memory. [`Index`] holds it for callers who would rather own it.
//!
//! | item | what |
//! |---|---|
//! | [`start`], [`report`], [`list_one`], [`list_all`] | the four calls, over lent memory |
//! | [`Refusal`] | why a call is refused, with document 01's number |
//! | [`Index`] | the same calls over memory of its own |
//! | [`mod@frame`] | making the frame of a report or of a query; the limits of a frame |
//! | [`raw`] | the calls with the library's own answers; all `unsafe` stands there |
//!
//! A frame is what document 01 calls a report or a query in bytes: the version 1, the length of the
//! body in two bytes, the kind, and the fields of that kind. Numbers have four bytes, highest first.
//!
//! ```
//! use report_index::{Index, Refusal};
//!
//! // 1,000 blocks of 64 bytes, and a table that may hold 256 terms.
//! let mut index = Index::new(1_000, 512);
//!
//! // Two reports (kind 1): "zn" with count 3 and "P17" with count 1; then "zn" with count 4.
//! assert_eq!(index.report(b"\x01\x00\x10\x01\x02zn\x00\x00\x00\x03\x03P17\x00\x00\x00\x01"), Ok(1));
//! assert_eq!(index.report(b"\x01\x00\x08\x01\x02zn\x00\x00\x00\x04"), Ok(2));
//!
//! // The reports from 0 on that hold "zn" (kind 2), with its counts, into lists of 16 places.
//! let (mut numbers, mut counts) = ([0; 16], [0; 16]);
//! let listed = index.list_one(b"\x01\x00\x08\x02\x00\x00\x00\x00\x02zn", &mut numbers, &mut counts)?;
//! assert_eq!((listed.filled, listed.more), (2, false));
//! assert_eq!((&numbers[..2], &counts[..2]), (&[1, 2][..], &[3, 4][..]));
//!
//! // The reports that hold both "zn" and "p17" (kind 3), into a list without a place.
//! let listed = index.list_all(b"\x01\x00\x0C\x03\x00\x00\x00\x00\x02zn\x03p17", &mut [])?;
//! assert_eq!((listed.filled, listed.more), (0, true));
//!
//! // A space is barred in a term.
//! let refusal = index.report(b"\x01\x00\x09\x01\x03z n\x00\x00\x00\x01").unwrap_err();
//! assert_eq!((refusal, refusal.number()), (Refusal::Term, 5));
//! println!("{refusal}");
//! # Ok::<(), Refusal>(())
//! ```

#![deny(unsafe_code)]
#![warn(missing_docs)]

pub mod frame;
mod index;
#[allow(unsafe_code)]
pub mod raw;
mod refusal;

pub use index::Index;
pub use raw::Counters;
pub use refusal::Refusal;

/// The bytes of a block. An arena of fewer bytes holds nothing; one that begins at a multiple of this
/// many is read a little faster.
pub const BLOCK_BYTES: usize = 64;

/// What a listing did.
#[derive(Debug, Clone, Copy, PartialEq, Eq)]
pub struct Listed {
    /// How many places were filled. Later places keep their contents.
    pub filled: usize,
    /// Whether reports that match remain beyond the lists.
    pub more: bool,
}

/// Starts an index: clears the whole table and the counters. The arena may hold anything.
pub fn start(table: &mut [u32], counters: &mut Counters) {
    raw::start(table, counters);
}

/// Takes a report (a frame of kind 1) and gives its number.
///
/// A refusal changes nothing, but for [`Refusal::Writing`], which never comes in an index that grew
/// from a start.
pub fn report(
    arena: &mut [u8],
    table: &mut [u32],
    counters: &mut Counters,
    frame: &[u8],
) -> Result<u32, Refusal> {
    let answer = raw::report(arena, table, counters, frame);
    check(answer.refusal)?;
    Ok(answer.number)
}

/// Lists the reports that hold one term (a frame of kind 2), and its count in each, up to the lesser
/// of the two lists' lengths.
pub fn list_one(
    arena: &[u8],
    table: &[u32],
    counters: &Counters,
    frame: &[u8],
    numbers: &mut [u32],
    counts: &mut [u32],
) -> Result<Listed, Refusal> {
    listed(raw::list_one(
        arena, table, counters, frame, numbers, counts,
    ))
}

/// Lists the reports that hold all of 1 to 8 terms (a frame of kind 3).
pub fn list_all(
    arena: &[u8],
    table: &[u32],
    counters: &Counters,
    frame: &[u8],
    numbers: &mut [u32],
) -> Result<Listed, Refusal> {
    listed(raw::list_all(arena, table, counters, frame, numbers))
}

/// A listing's answer as a result.
fn listed(answer: raw::ListAnswer) -> Result<Listed, Refusal> {
    check(answer.refusal)?;
    Ok(Listed {
        filled: answer.filled as usize,
        more: answer.more,
    })
}

/// The refusal with this number as an error; 0 stands for none.
fn check(number: u8) -> Result<(), Refusal> {
    if number == 0 {
        return Ok(());
    }
    Err(Refusal::of_number(number).unwrap_or(Refusal::Unknown(number)))
}

#[cfg(test)]
mod tests {
    use super::*;

    #[test]
    fn an_unknown_number_is_a_refusal_too() {
        assert_eq!(check(0), Ok(()));
        assert_eq!(check(13), Err(Refusal::Writing));
        assert_eq!(check(14), Err(Refusal::Unknown(14)));
        assert_eq!(check(255), Err(Refusal::Unknown(255)));
    }
}
