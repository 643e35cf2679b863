//! Making frames, and the limits of what a frame may hold.
//!
//! A frame that is made here may still be refused: it is the library that judges. Only a body of more
//! than [`MAX_BODY`] bytes and a term whose length has no room in its byte are refused here, under the
//! number that the library would give.
//!
//! ```
//! use report_index::{frame, Index};
//!
//! let mut index = Index::new(1_000, 512);
//! let report = frame::report(&[("zn", 3), ("P17", 1)])?;
//! assert_eq!(report, b"\x01\x00\x10\x01\x02zn\x00\x00\x00\x03\x03P17\x00\x00\x00\x01");
//! assert_eq!(index.report(&report), Ok(1));
//!
//! let (mut numbers, mut counts) = ([0; 16], [0; 16]);
//! let listed = index.list_one(&frame::one(0, "ZN")?, &mut numbers, &mut counts)?;
//! assert_eq!((listed.filled, numbers[0], counts[0]), (1, 1, 3));
//! let listed = index.list_all(&frame::all(0, &["zn", "p17"])?, &mut numbers)?;
//! assert_eq!((listed.filled, numbers[0]), (1, 1));
//! # Ok::<(), report_index::Refusal>(())
//! ```

use std::ops::RangeInclusive;

use crate::Refusal;

/// The first byte of every frame.
pub const VERSION: u8 = 1;

/// The bytes before the body: the version and the length of the body.
pub const START_BYTES: usize = 3;

/// The most bytes of a body; the kind is the first of them.
pub const MAX_BODY: usize = 4_096;

/// The kind of a report's frame.
pub const REPORT: u8 = 1;

/// The kind of a query for one term.
pub const ONE: u8 = 2;

/// The kind of a query for all of several terms.
pub const ALL: u8 = 3;

/// The most bytes of a term. It has at least 1.
pub const MAX_TERM: usize = 36;

/// The bytes that a term may have: the visible ASCII characters.
pub const TERM_BYTES: RangeInclusive<u8> = 0x21..=0x7E;

/// The most terms of a query for all of several terms. It names at least 1.
pub const MAX_TERMS: usize = 8;

/// The greatest count of a term. It is at least 1.
pub const MAX_COUNT: u32 = u32::MAX;

/// The most reports that an index can number.
pub const MAX_REPORTS: u32 = u32::MAX;

/// The frame of a report with these lines, a term and its count each.
pub fn report<T: AsRef<[u8]>>(lines: &[(T, u32)]) -> Result<Vec<u8>, Refusal> {
    let mut body = vec![REPORT];
    let mut term_too_long = false;
    for (term, count) in lines {
        term_too_long |= !push_term(&mut body, term.as_ref());
        body.extend(count.to_be_bytes());
    }
    framed(&body, term_too_long)
}

/// The frame of a query for the reports at or past `from` that hold this term.
pub fn one(from: u32, term: impl AsRef<[u8]>) -> Result<Vec<u8>, Refusal> {
    query(ONE, from, &[term])
}

/// The frame of a query for the reports at or past `from` that hold all of these terms.
pub fn all<T: AsRef<[u8]>>(from: u32, terms: &[T]) -> Result<Vec<u8>, Refusal> {
    query(ALL, from, terms)
}

/// The frame of a query of this kind.
fn query<T: AsRef<[u8]>>(kind: u8, from: u32, terms: &[T]) -> Result<Vec<u8>, Refusal> {
    let mut body = vec![kind];
    body.extend(from.to_be_bytes());
    let mut term_too_long = false;
    for term in terms {
        term_too_long |= !push_term(&mut body, term.as_ref());
    }
    // The library judges the number of terms before it judges any of them.
    if term_too_long && body.len() <= MAX_BODY && terms.len() > MAX_TERMS {
        return Err(Refusal::Fields);
    }
    framed(&body, term_too_long)
}

/// Puts a term behind its length; tells whether its length fits into the one byte for it.
fn push_term(body: &mut Vec<u8>, term: &[u8]) -> bool {
    let length = u8::try_from(term.len());
    body.push(length.unwrap_or(u8::MAX));
    body.extend(term);
    length.is_ok()
}

/// The frame with this body, or the refusal of a body that is too long or has a term whose length
/// cannot be written.
fn framed(body: &[u8], term_too_long: bool) -> Result<Vec<u8>, Refusal> {
    if body.len() > MAX_BODY {
        return Err(Refusal::Length);
    }
    if term_too_long {
        return Err(Refusal::Term);
    }
    let length = u16::try_from(body.len()).map_err(|_| Refusal::Length)?;
    let mut frame = vec![VERSION];
    frame.extend(length.to_be_bytes());
    frame.extend(body);
    Ok(frame)
}
