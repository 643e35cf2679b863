//! The four calls as values, so that an implementation can be chosen: by a comparison or a benchmark.

use report_index::raw::{self, Counters, ListAnswer, ReportAnswer};

/// A start, of table and counters.
pub type Start = fn(&mut [u32], &mut Counters);

/// Taking a report, with arena, table, counters and frame.
pub type Report = fn(&mut [u8], &mut [u32], &mut Counters, &[u8]) -> ReportAnswer;

/// The one-term listing, with arena, table, counters, frame, numbers and counts.
pub type ListOne = fn(&[u8], &[u32], &Counters, &[u8], &mut [u32], &mut [u32]) -> ListAnswer;

/// The all-terms listing, with arena, table, counters, frame and numbers.
pub type ListAll = fn(&[u8], &[u32], &Counters, &[u8], &mut [u32]) -> ListAnswer;

/// The four calls of one implementation.
#[derive(Debug, Clone, Copy)]
pub struct Calls {
    /// The start.
    pub start: Start,
    /// Taking a report.
    pub report: Report,
    /// The one-term listing.
    pub list_one: ListOne,
    /// The all-terms listing.
    pub list_all: ListAll,
}

/// The calls of the proved library.
pub const LIBRARY: Calls = Calls {
    start: raw::start,
    report: raw::report,
    list_one: raw::list_one,
    list_all: raw::list_all,
};
