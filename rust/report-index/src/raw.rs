//! The library's four calls as they are: the numbers that it answers with, and all `unsafe` of this
//! crate.
//!
//! The functions here take slices and are safe to call. Most callers want those of the crate's root,
//! which turn the answers into results.

use std::mem::{align_of, offset_of, size_of};

/// The counters of an index. They are lent to the library with the arena and the table.
#[repr(C)]
#[derive(Debug, Clone, Copy, PartialEq, Eq, Default)]
pub struct Counters {
    /// How many blocks of the arena are used.
    pub used: u32,
    /// How many terms are held.
    pub terms: u32,
    /// How many reports are held.
    pub reports: u32,
}

/// The answer to a report.
#[repr(C)]
#[derive(Debug, Clone, Copy, PartialEq, Eq)]
pub struct ReportAnswer {
    /// The number of the refusal, or 0 if the report was taken.
    pub refusal: u8,
    /// The number of the report, or 0 if it was refused.
    pub number: u32,
}

/// The answer to a listing.
#[repr(C)]
#[derive(Debug, Clone, Copy, PartialEq, Eq)]
pub struct ListAnswer {
    /// The number of the refusal, or 0 if there is a result.
    pub refusal: u8,
    /// Whether reports that match remain beyond the lists.
    pub more: bool,
    /// How many places were filled.
    pub filled: u32,
}

// The layouts that include/report_index.h gives to these structs. A build fails where Rust would
// lay them out in another way.
const _: () = {
    assert!(size_of::<Counters>() == 12 && align_of::<Counters>() == 4);
    assert!(offset_of!(Counters, used) == 0);
    assert!(offset_of!(Counters, terms) == 4);
    assert!(offset_of!(Counters, reports) == 8);
    assert!(size_of::<ReportAnswer>() == 8 && align_of::<ReportAnswer>() == 4);
    assert!(offset_of!(ReportAnswer, refusal) == 0);
    assert!(offset_of!(ReportAnswer, number) == 4);
    assert!(size_of::<ListAnswer>() == 8 && align_of::<ListAnswer>() == 4);
    assert!(offset_of!(ListAnswer, refusal) == 0);
    assert!(offset_of!(ListAnswer, more) == 1);
    assert!(offset_of!(ListAnswer, filled) == 4);
};

// The declarations of include/report_index.h. Each pointer is followed by the number of elements
// behind it.
extern "C" {
    fn report_index_start(table: *mut u32, table_length: usize, counters: *mut Counters);

    fn report_index_report(
        arena: *mut u8,
        arena_length: usize,
        table: *mut u32,
        table_length: usize,
        counters: *mut Counters,
        frame: *const u8,
        frame_length: usize,
    ) -> ReportAnswer;

    fn report_index_list_one(
        arena: *const u8,
        arena_length: usize,
        table: *const u32,
        table_length: usize,
        counters: *const Counters,
        frame: *const u8,
        frame_length: usize,
        numbers: *mut u32,
        numbers_length: usize,
        counts: *mut u32,
        counts_length: usize,
    ) -> ListAnswer;

    fn report_index_list_all(
        arena: *const u8,
        arena_length: usize,
        table: *const u32,
        table_length: usize,
        counters: *const Counters,
        frame: *const u8,
        frame_length: usize,
        numbers: *mut u32,
        numbers_length: usize,
    ) -> ListAnswer;
}

// Why the calls below are sound, for all four:
// - The library's proved contracts ask nothing of the contents of the lent memory and nothing of
//   its lengths. They say that no call reads or writes outside the lengths it is told.
// - Each pointer comes from a Rust reference or slice with its own length, so that it is aligned and
//   valid for that many elements for the whole call. An empty slice's pointer leads to no memory,
//   and none is read or written through it.
// - Memory that the library writes comes from `&mut`, so that by Rust's rules of borrowing nothing
//   else that is lent overlaps it. What it only reads comes from `&`.
// - The library keeps no pointer after a call, starts no thread and never unwinds.
// - It sets every field of an answer, and `more` to false or true.

/// Starts an index: clears the table and the counters.
pub fn start(table: &mut [u32], counters: &mut Counters) {
    // SAFETY: the table and the counters are lent for writing, each by its own `&mut`.
    unsafe { report_index_start(table.as_mut_ptr(), table.len(), counters) }
}

/// Takes a report.
pub fn report(
    arena: &mut [u8],
    table: &mut [u32],
    counters: &mut Counters,
    frame: &[u8],
) -> ReportAnswer {
    // SAFETY: arena, table and counters are lent for writing, each by its own `&mut`; the frame is
    // lent for reading and, being behind `&`, overlaps none of them.
    unsafe {
        report_index_report(
            arena.as_mut_ptr(),
            arena.len(),
            table.as_mut_ptr(),
            table.len(),
            counters,
            frame.as_ptr(),
            frame.len(),
        )
    }
}

/// Lists the reports with one term.
pub fn list_one(
    arena: &[u8],
    table: &[u32],
    counters: &Counters,
    frame: &[u8],
    numbers: &mut [u32],
    counts: &mut [u32],
) -> ListAnswer {
    // SAFETY: the two lists are lent for writing, each by its own `&mut`; all else is lent for
    // reading and overlaps neither.
    unsafe {
        report_index_list_one(
            arena.as_ptr(),
            arena.len(),
            table.as_ptr(),
            table.len(),
            counters,
            frame.as_ptr(),
            frame.len(),
            numbers.as_mut_ptr(),
            numbers.len(),
            counts.as_mut_ptr(),
            counts.len(),
        )
    }
}

/// Lists the reports with all of 1 to 8 terms.
pub fn list_all(
    arena: &[u8],
    table: &[u32],
    counters: &Counters,
    frame: &[u8],
    numbers: &mut [u32],
) -> ListAnswer {
    // SAFETY: the list is lent for writing by its own `&mut`; all else is lent for reading and does
    // not overlap it.
    unsafe {
        report_index_list_all(
            arena.as_ptr(),
            arena.len(),
            table.as_ptr(),
            table.len(),
            counters,
            frame.as_ptr(),
            frame.len(),
            numbers.as_mut_ptr(),
            numbers.len(),
        )
    }
}
