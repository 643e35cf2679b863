//! Reading a frame, after the section "Frames" of document 01 and the rows Frame and Terms of the
//! section "Where each refusal is checked".
//!
//! A frame is judged step by step, one step for each refusal. A step looks at the whole frame
//! before the next step begins, so that of several faults the one with the lowest number is named.

use crate::terms;

/// The version that byte 0 must give.
const VERSION: u8 = 0x01;

/// The bytes before the body: the version and the two bytes of the length field.
const BYTES_BEFORE_BODY: usize = 3;

/// The fewest bytes of a frame: those before the body, and a body of one byte.
const FEWEST_BYTES: usize = BYTES_BEFORE_BODY + 1;

/// The most bytes of a body.
pub const LONGEST_BODY: usize = 4_096;

/// The most terms that a frame of kind 03 may name.
const MOST_TERMS: usize = 8;

/// The call that a frame is brought to.
#[derive(Debug, Clone, Copy, PartialEq, Eq)]
pub enum Call {
    /// Taking a report, kind 01.
    Report,
    /// Listing the reports with one term, kind 02.
    OneTerm,
    /// Listing the reports with all of several terms, kind 03.
    AllTerms,
}

impl Call {
    /// The call that takes frames of this kind, or nothing if there is none.
    pub fn of_kind(kind: u8) -> Option<Call> {
        match kind {
            0x01 => Some(Call::Report),
            0x02 => Some(Call::OneTerm),
            0x03 => Some(Call::AllTerms),
            _ => None,
        }
    }

    /// The kind of the frames that this call takes.
    pub fn kind(self) -> u8 {
        match self {
            Call::Report => 0x01,
            Call::OneTerm => 0x02,
            Call::AllTerms => 0x03,
        }
    }
}

/// Why a frame is refused. The numbers are those of the section "Where each refusal is checked".
#[derive(Debug, Clone, Copy, PartialEq, Eq)]
pub enum Refusal {
    /// There are fewer than 4 bytes, or byte 0 is not the version.
    Header = 1,
    /// The length field is larger than a body may be, or is not the number of bytes after it.
    Length = 2,
    /// The kind belongs to another call or to none.
    Kind = 3,
    /// The body ends inside a field, or the number of terms of a query is not allowed.
    Fields = 4,
    /// A term has no bytes, too many bytes, or a barred byte.
    Term = 5,
    /// A count is 0.
    Count = 6,
    /// Two lines of a report have the same folded term.
    Repeat = 7,
}

impl Refusal {
    /// The number of the refusal.
    pub fn number(self) -> u8 {
        self as u8
    }
}

/// A line of a report.
#[derive(Debug, Clone, PartialEq, Eq)]
pub struct Line {
    /// The folded term.
    pub term: Vec<u8>,
    /// The count, at least 1.
    pub count: u32,
}

/// What a sound frame means.
#[derive(Debug, Clone, PartialEq, Eq)]
pub enum Meaning {
    /// The lines of a report, in frame order.
    Report(Vec<Line>),
    /// A query.
    Query {
        /// The report number from which on reports are listed.
        start: u32,
        /// The folded terms, in frame order.
        terms: Vec<Vec<u8>>,
    },
}

/// Reads a frame that is brought to `call`: its meaning, or the first refusal that applies, in the
/// order of the section "Where each refusal is checked".
pub fn read(call: Call, frame: &[u8]) -> Result<Meaning, Refusal> {
    check_header(frame)?;
    check_length(frame)?;
    let kind = frame[BYTES_BEFORE_BODY];
    if kind != call.kind() {
        return Err(Refusal::Kind);
    }
    let fields = &frame[BYTES_BEFORE_BODY + 1..];
    match call {
        Call::Report => read_report(fields),
        Call::OneTerm => read_query(fields, 1),
        Call::AllTerms => read_query(fields, MOST_TERMS),
    }
}

/// Refusal 1.
fn check_header(frame: &[u8]) -> Result<(), Refusal> {
    if frame.len() < FEWEST_BYTES || frame[0] != VERSION {
        return Err(Refusal::Header);
    }
    Ok(())
}

/// Refusal 2. The frame has at least 4 bytes here. A length field of 0 is refused too, because at
/// least one byte follows it.
fn check_length(frame: &[u8]) -> Result<(), Refusal> {
    let length = usize::from(u16::from_be_bytes([frame[1], frame[2]]));
    if length > LONGEST_BODY || length != frame.len() - BYTES_BEFORE_BODY {
        return Err(Refusal::Length);
    }
    Ok(())
}

/// Refusals 4 to 7 for a report whose body, without the kind, is `fields`.
fn read_report(fields: &[u8]) -> Result<Meaning, Refusal> {
    let (terms, counts) = cut_report(fields)?;
    let folded = fold_all(&terms)?;
    if counts.contains(&0) {
        return Err(Refusal::Count);
    }
    if has_repeat(&folded) {
        return Err(Refusal::Repeat);
    }
    let lines = folded.into_iter().zip(counts);
    Ok(Meaning::Report(
        lines.map(|(term, count)| Line { term, count }).collect(),
    ))
}

/// Refusals 4 and 5 for a query whose body, without the kind, is `fields`.
fn read_query(fields: &[u8], most_terms: usize) -> Result<Meaning, Refusal> {
    let (start, terms) = cut_query(fields)?;
    if terms.is_empty() || terms.len() > most_terms {
        return Err(Refusal::Fields);
    }
    let terms = fold_all(&terms)?;
    Ok(Meaning::Query { start, terms })
}

/// The terms and the counts of a report, as they stand in the frame, or refusal 4.
fn cut_report(fields: &[u8]) -> Result<(Vec<&[u8]>, Vec<u32>), Refusal> {
    let mut terms = Vec::new();
    let mut counts = Vec::new();
    let mut rest = fields;
    while !rest.is_empty() {
        terms.push(take_term(&mut rest)?);
        counts.push(take_number(&mut rest)?);
    }
    Ok((terms, counts))
}

/// The start and the terms of a query, as they stand in the frame, or refusal 4. The number of
/// terms is not judged here.
fn cut_query(fields: &[u8]) -> Result<(u32, Vec<&[u8]>), Refusal> {
    let mut rest = fields;
    let start = take_number(&mut rest)?;
    let mut terms = Vec::new();
    while !rest.is_empty() {
        terms.push(take_term(&mut rest)?);
    }
    Ok((start, terms))
}

/// Takes a length byte and as many bytes as it says, whatever it says, from the front of `rest`.
fn take_term<'a>(rest: &mut &'a [u8]) -> Result<&'a [u8], Refusal> {
    let length = take(rest, 1)?[0];
    take(rest, usize::from(length))
}

/// Takes a field of four bytes, big-endian, from the front of `rest`.
fn take_number(rest: &mut &[u8]) -> Result<u32, Refusal> {
    let field = take(rest, 4)?;
    Ok(u32::from_be_bytes([field[0], field[1], field[2], field[3]]))
}

/// Takes `length` bytes from the front of `rest`, or gives refusal 4 if it has fewer.
fn take<'a>(rest: &mut &'a [u8], length: usize) -> Result<&'a [u8], Refusal> {
    if rest.len() < length {
        return Err(Refusal::Fields);
    }
    let (field, after) = rest.split_at(length);
    *rest = after;
    Ok(field)
}

/// The folded terms, or refusal 5.
fn fold_all(terms: &[&[u8]]) -> Result<Vec<Vec<u8>>, Refusal> {
    terms
        .iter()
        .map(|term| terms::fold_term(term).ok_or(Refusal::Term))
        .collect()
}

/// Whether one term stands at two places.
fn has_repeat(terms: &[Vec<u8>]) -> bool {
    (0..terms.len()).any(|place| terms[..place].contains(&terms[place]))
}

#[cfg(test)]
mod tests;
