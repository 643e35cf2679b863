//! Which answers were met, and which never.

use reference::drawn_calls::DrawnCall;

use crate::memory::Memory;
use crate::sides::Answer;

/// The refusals that a report can meet, on any memory.
const OF_REPORTS: [usize; 13] = [1, 2, 3, 4, 5, 6, 7, 8, 9, 10, 11, 12, 13];

/// The refusals that a listing can meet, on any memory.
const OF_LISTINGS: [usize; 7] = [1, 2, 3, 4, 5, 8, 10];

/// The refusals that a report can meet in an index grown from a start, with memory of the sizes
/// drawn here.
const OF_REPORTS_FROM_A_START: [usize; 9] = [1, 2, 3, 4, 5, 6, 7, 11, 12];

/// The refusals that a listing can meet in an index grown from a start.
const OF_LISTINGS_FROM_A_START: [usize; 5] = [1, 2, 3, 4, 5];

/// How often each answer and each special sort of call was met.
#[derive(Debug, Clone, Default)]
pub struct Tally {
    /// All calls.
    pub calls: u64,
    /// All cases.
    pub cases: u64,
    starts: u64,
    /// By refusal, with 0 for a report taken.
    reports: [u64; 14],
    /// By refusal, with 0 for a result.
    list_one: [u64; 14],
    list_all: [u64; 14],
    /// Reports that took a block for a posting that did not fit.
    joins: u64,
    /// Results that filled at least one place.
    filled: u64,
    /// Results with more to come.
    more: u64,
    /// Results that filled the lists to the last place, with nothing more to come.
    exactly_full: u64,
    /// Calls on an arena without a whole block, on a table of 0 slots and on one of 1 slot.
    no_block: u64,
    no_slot: u64,
    one_slot: u64,
}

impl Tally {
    /// Counts a call with its answer, the memory before it and the memory after it.
    pub fn count(&mut self, call: &DrawnCall, answer: Answer, before: &Sizes, after: &Memory) {
        self.calls += 1;
        self.no_block += u64::from(before.arena_bytes < 64);
        self.no_slot += u64::from(before.table_entries == 0);
        self.one_slot += u64::from(before.table_entries == 1);
        match (call, answer) {
            (DrawnCall::Report { .. }, Answer::Report(refusal, _)) => {
                self.reports[usize::from(refusal)] += 1;
                let blocks = after.counters.used.wrapping_sub(before.used);
                let terms = after.counters.terms.wrapping_sub(before.terms);
                self.joins += u64::from(blocks > terms);
            }
            (
                DrawnCall::ListOne {
                    numbers, counts, ..
                },
                Answer::Listing(refusal, more, filled),
            ) => {
                self.list_one[usize::from(refusal)] += 1;
                self.count_result(more, filled, numbers.len().min(counts.len()));
            }
            (DrawnCall::ListAll { numbers, .. }, Answer::Listing(refusal, more, filled)) => {
                self.list_all[usize::from(refusal)] += 1;
                self.count_result(more, filled, numbers.len());
            }
            _ => self.starts += 1,
        }
    }

    fn count_result(&mut self, more: bool, filled: u32, places: usize) {
        self.filled += u64::from(filled > 0);
        self.more += u64::from(more);
        self.exactly_full += u64::from(filled > 0 && filled as usize == places && !more);
    }

    /// What a run over memory of all sorts should have met and did not.
    pub fn never_met(&self) -> Vec<String> {
        self.missing(&OF_REPORTS, &OF_LISTINGS)
    }

    /// What a run over indexes grown from a start should have met and did not, and what it met
    /// though it cannot come.
    pub fn wrong_from_a_start(&self) -> Vec<String> {
        let mut wrong = self.missing(&OF_REPORTS_FROM_A_START, &OF_LISTINGS_FROM_A_START);
        for refusal in [8, 9, 10, 13] {
            if self.reports[refusal] + self.list_one[refusal] + self.list_all[refusal] > 0 {
                wrong.push(format!("refusal {refusal} in an index grown from a start"));
            }
        }
        wrong
    }

    fn missing(&self, of_reports: &[usize], of_listings: &[usize]) -> Vec<String> {
        let mut missing = Vec::new();
        let mut need = |what: String, met: u64| {
            if met == 0 {
                missing.push(format!("never met: {what}"));
            }
        };
        for refusal in [&[0], of_reports].concat() {
            need(
                format!("refusal {refusal} of reports"),
                self.reports[refusal],
            );
        }
        for refusal in [&[0], of_listings].concat() {
            need(
                format!("refusal {refusal} of one-term listings"),
                self.list_one[refusal],
            );
            need(
                format!("refusal {refusal} of all-terms listings"),
                self.list_all[refusal],
            );
        }
        need("a start".to_string(), self.starts);
        need("a posting that opens a block".to_string(), self.joins);
        need("a result with more to come".to_string(), self.more);
        need(
            "a result that fills the lists exactly".to_string(),
            self.exactly_full,
        );
        need("an arena without a whole block".to_string(), self.no_block);
        need("a table of 0 slots".to_string(), self.no_slot);
        need("a table of 1 slot".to_string(), self.one_slot);
        missing
    }

    /// The tally as a text for people.
    pub fn text(&self) -> String {
        let row = |name: &str, met: &[u64; 14]| {
            let cells: Vec<String> = met.iter().map(|met| format!("{met:>9}")).collect();
            format!("{name:<10}{}\n", cells.concat())
        };
        let numbers: Vec<String> = (0..14).map(|number| format!("{number:>9}")).collect();
        let mut text = format!("{:<10}{}\n", "refusal", numbers.concat());
        text += &row("report", &self.reports);
        text += &row("list one", &self.list_one);
        text += &row("list all", &self.list_all);
        text += &format!(
            "{} calls in {} cases: {} starts, {} postings opened a block, {} results filled places, {} had more, {} were exactly full\n",
            self.calls, self.cases, self.starts, self.joins, self.filled, self.more, self.exactly_full
        );
        text
    }
}

/// What a tally needs to know of the memory before a call.
#[derive(Debug, Clone, Copy)]
pub struct Sizes {
    arena_bytes: usize,
    table_entries: usize,
    used: u32,
    terms: u32,
}

impl Sizes {
    /// The sizes and counters of this memory.
    pub fn of(memory: &Memory) -> Sizes {
        Sizes {
            arena_bytes: memory.arena.len(),
            table_entries: memory.table.len(),
            used: memory.counters.used,
            terms: memory.counters.terms,
        }
    }
}
