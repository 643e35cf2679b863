//! The plain ledger, after the section "The plain ledger of demand 3" of document 01.
//!
//! It keeps the reports as they were brought and works out every answer from them. It knows neither
//! arena nor table, only their lengths. With the index it shares nothing but the reading of frames
//! and the lengths of codes.

use std::collections::{BTreeMap, BTreeSet};

use crate::frames::{self, Call, Line, Meaning};
use crate::postings::{self, Posting};

/// The most reports, blocks or table entries that count.
const MOST: u64 = 4_294_967_295;

/// The bytes of a block.
const BLOCK: u64 = 64;

/// The refusal of a report when no number is left for it.
const REPORTS: u8 = 9;

/// The refusal of a report with which there would be too many different terms.
const TERMS: u8 = 11;

/// The refusal of a report with which too many blocks would be prescribed.
const ROOM: u8 = 12;

/// The ledger's answer to a report.
#[derive(Debug, Clone, Copy, PartialEq, Eq)]
pub struct Answer {
    /// The number of the refusal, or 0 if the report was appended.
    pub refusal: u8,
    /// The new number of reports, or 0 after a refusal.
    pub number: u32,
}

/// The ledger's answer to a listing.
#[derive(Debug, Clone, Copy, PartialEq, Eq)]
pub struct Listing {
    /// The number of the refusal, or 0 if there is none.
    pub refusal: u8,
    /// Whether some reports did not fit into the lists.
    pub more: bool,
    /// How many reports were put into the lists.
    pub filled: u32,
}

/// The reports held. Report n stands at place n - 1.
#[derive(Debug, Clone, PartialEq, Eq, Default)]
pub struct Ledger {
    reports: Vec<Vec<Line>>,
}

impl Ledger {
    /// A ledger that holds nothing.
    pub fn new() -> Ledger {
        Ledger::default()
    }

    /// The step of a start: nothing is held any more.
    pub fn start(&mut self) {
        self.reports.clear();
    }

    /// The step of a report, with the lengths of arena and table that the call was lent.
    pub fn report(&mut self, frame: &[u8], arena_bytes: usize, table_entries: usize) -> Answer {
        match self.take(frame, arena_bytes as u64, table_entries as u64) {
            Ok(()) => Answer {
                refusal: 0,
                number: self.reports() as u32,
            },
            Err(refusal) => Answer { refusal, number: 0 },
        }
    }

    /// The step of a one-term listing. Each report found takes a place in both lists.
    pub fn list_one(&self, frame: &[u8], numbers: &mut [u32], counts: &mut [u32]) -> Listing {
        let (start, terms) = match read_query(Call::OneTerm, frame) {
            Ok(query) => query,
            Err(refusal) => return refused(refusal),
        };
        let found = self.holding(start, &terms);
        let places = numbers.len().min(counts.len());
        for (place, number) in found.iter().take(places).enumerate() {
            numbers[place] = *number;
            counts[place] = self.count(*number, &terms[0]);
        }
        listed(found.len(), places)
    }

    /// The step of an all-terms listing.
    pub fn list_all(&self, frame: &[u8], numbers: &mut [u32]) -> Listing {
        let (start, terms) = match read_query(Call::AllTerms, frame) {
            Ok(query) => query,
            Err(refusal) => return refused(refusal),
        };
        let found = self.holding(start, &terms);
        let places = numbers.len();
        for (place, number) in found.iter().take(places).enumerate() {
            numbers[place] = *number;
        }
        listed(found.len(), places)
    }

    /// How many reports are held.
    pub fn reports(&self) -> u64 {
        self.reports.len() as u64
    }

    /// How many different terms the reports hold.
    pub fn terms(&self) -> u64 {
        let lines = self.reports.iter().flatten();
        let terms: BTreeSet<&[u8]> = lines.map(|line| &line.term[..]).collect();
        terms.len() as u64
    }

    /// How many blocks are prescribed for the reports held: those of all terms together.
    pub fn prescribed_blocks(&self) -> u64 {
        let mut walks: BTreeMap<&[u8], Walk> = BTreeMap::new();
        for (number, report) in (1..).zip(&self.reports) {
            for line in report {
                let walk = walks
                    .entry(&line.term)
                    .or_insert_with(|| Walk::new(line.term.len() as u64));
                walk.add(number, line.count);
            }
        }
        walks.values().map(|walk| walk.blocks).sum()
    }

    /// Appends a report, or gives the first refusal that applies and leaves the ledger as it was.
    fn take(&mut self, frame: &[u8], arena_bytes: u64, table_entries: u64) -> Result<(), u8> {
        let lines = match frames::read(Call::Report, frame) {
            Ok(Meaning::Report(lines)) => lines,
            Ok(Meaning::Query { .. }) => return Err(frames::Refusal::Kind.number()),
            Err(refusal) => return Err(refusal.number()),
        };
        if self.reports() == MOST {
            return Err(REPORTS);
        }
        self.reports.push(lines);
        let checked = self.check_sizes(arena_bytes, table_entries);
        if checked.is_err() {
            self.reports.pop();
        }
        checked
    }

    /// Refusals 11 and 12 for the reports held, the newest included.
    fn check_sizes(&self, arena_bytes: u64, table_entries: u64) -> Result<(), u8> {
        if self.terms() > table_entries.min(MOST) / 2 {
            return Err(TERMS);
        }
        if self.prescribed_blocks() > (arena_bytes / BLOCK).min(MOST) {
            return Err(ROOM);
        }
        Ok(())
    }

    /// The numbers of the reports at or past the start that hold all of these terms, ascending.
    fn holding(&self, start: u32, terms: &[Vec<u8>]) -> Vec<u32> {
        (1..)
            .zip(&self.reports)
            .filter(|(number, _)| *number >= start)
            .filter(|(_, report)| terms.iter().all(|term| holds(report, term)))
            .map(|(number, _)| number)
            .collect()
    }

    /// The count of a term in a report, or 0 if the report does not hold it.
    fn count(&self, number: u32, term: &[u8]) -> u32 {
        let report = &self.reports[number as usize - 1];
        let line = report.iter().find(|line| line.term == term);
        line.map_or(0, |line| line.count)
    }
}

/// The blocks prescribed for one term, worked out posting by posting.
struct Walk {
    /// How many blocks have been reached.
    blocks: u64,
    /// The first report in the block reached, or 0 if there is none yet.
    first: u32,
    /// The last report, or 0 if there is none yet.
    last: u32,
    /// Where the next posting would begin in the block reached.
    next: u64,
}

impl Walk {
    /// A term of this length without postings: its block's first 18 bytes and the term itself come
    /// before them.
    fn new(term_length: u64) -> Walk {
        Walk {
            blocks: 1,
            first: 0,
            last: 0,
            next: 18 + term_length,
        }
    }

    /// Goes on to the next posting.
    fn add(&mut self, number: u32, count: u32) {
        let after = self.next + code_length(number - self.last, count);
        if after > BLOCK {
            self.blocks += 1;
            self.next = 4 + code_length(number - self.first, count);
            self.first = number;
        } else {
            self.next = after;
            if self.first == 0 {
                self.first = number;
            }
        }
        self.last = number;
    }
}

/// Whether a report holds a folded term.
fn holds(report: &[Line], term: &[u8]) -> bool {
    report.iter().any(|line| line.term == term)
}

/// How many bytes a posting takes. Numbers ascend and counts are at least 1, so that it has a code.
fn code_length(gap: u32, count: u32) -> u64 {
    let posting = Posting::new(gap, count).expect("a gap and a count of at least 1");
    postings::code(posting).len() as u64
}

/// The start and the terms of a query, or the refusal of its frame.
fn read_query(call: Call, frame: &[u8]) -> Result<(u32, Vec<Vec<u8>>), u8> {
    match frames::read(call, frame) {
        Ok(Meaning::Query { start, terms }) => Ok((start, terms)),
        Ok(Meaning::Report(_)) => Err(frames::Refusal::Kind.number()),
        Err(refusal) => Err(refusal.number()),
    }
}

/// The answer to a listing that is refused.
fn refused(refusal: u8) -> Listing {
    Listing {
        refusal,
        more: false,
        filled: 0,
    }
}

/// The answer to a listing that found this many reports for this many places.
fn listed(found: usize, places: usize) -> Listing {
    let filled = found.min(places);
    Listing {
        refusal: 0,
        more: filled < found,
        filled: filled as u32,
    }
}

#[cfg(test)]
mod tests {
    use super::*;
    use crate::compose::{query_frame, report_frame};

    /// A term of 36 bytes.
    const LONG: &[u8; 36] = b"abcdefghijklmnopqrstuvwxyz0123456789";

    /// A ledger and the lengths of arena and table that each report is brought with.
    struct Case {
        ledger: Ledger,
        arena_bytes: usize,
        table_entries: usize,
    }

    impl Case {
        fn new(arena_bytes: usize, table_entries: usize) -> Case {
            Case {
                ledger: Ledger::new(),
                arena_bytes,
                table_entries,
            }
        }

        fn report(&mut self, lines: &[(&[u8], u32)]) -> (u8, u32) {
            let frame = report_frame(lines);
            let answer = self
                .ledger
                .report(&frame, self.arena_bytes, self.table_entries);
            (answer.refusal, answer.number)
        }

        /// Fails unless the report is refused under this number and changes nothing.
        fn assert_refused(&mut self, lines: &[(&[u8], u32)], refusal: u8) {
            let before = self.ledger.clone();
            assert_eq!(self.report(lines), (refusal, 0));
            assert_eq!(self.ledger, before);
        }

        /// Refusal, "more" and what was filled, for lists of this many places.
        fn one(&self, start: u32, term: &[u8], places: usize) -> (u8, bool, Vec<(u32, u32)>) {
            let frame = query_frame(Call::OneTerm, start, &[term]);
            let mut numbers = vec![0; places];
            let mut counts = vec![0; places];
            let answer = self.ledger.list_one(&frame, &mut numbers, &mut counts);
            let pairs = numbers.into_iter().zip(counts);
            let pairs = pairs.take(answer.filled as usize).collect();
            (answer.refusal, answer.more, pairs)
        }

        /// Refusal, "more" and what was filled, for a list of this many places.
        fn all(&self, start: u32, terms: &[&[u8]], places: usize) -> (u8, bool, Vec<u32>) {
            let frame = query_frame(Call::AllTerms, start, terms);
            let mut numbers = vec![0; places];
            let answer = self.ledger.list_all(&frame, &mut numbers);
            numbers.truncate(answer.filled as usize);
            (answer.refusal, answer.more, numbers)
        }
    }

    #[test]
    fn the_example_of_the_desk_program() {
        let mut case = Case::new(64_000, 512);
        assert_eq!(case.report(&[(b"zn", 3), (b"P17", 1)]), (0, 1));
        assert_eq!(case.report(&[(b"zn", 4)]), (0, 2));
        assert_eq!(case.one(0, b"zn", 16), (0, false, vec![(1, 3), (2, 4)]));
        assert_eq!(case.all(0, &[b"zn", b"p17"], 16), (0, false, vec![1]));
        let ledger = &case.ledger;
        assert_eq!((ledger.terms(), ledger.reports()), (2, 2));
        assert_eq!(ledger.prescribed_blocks(), 2);
    }

    #[test]
    fn a_start_empties_the_ledger() {
        let mut case = Case::new(64, 2);
        assert_eq!(case.report(&[(b"a", 1)]), (0, 1));
        case.ledger.start();
        assert_eq!(case.ledger, Ledger::new());
        assert_eq!(case.report(&[(b"b", 1)]), (0, 1));
    }

    #[test]
    fn frames_are_judged_first() {
        let mut case = Case::new(0, 0);
        assert_eq!(case.ledger.report(&[], 0, 0).refusal, 1);
        assert_eq!(case.ledger.report(&[1, 0, 1, 2], 0, 0).refusal, 3);
        case.assert_refused(&[(b"a", 1), (b"b", 0), (b" ", 1)], 5);
        case.assert_refused(&[(b"a", 1), (b"a", 0)], 6);
        case.assert_refused(&[(b"a", 1), (b"A", 1)], 7);
        assert_eq!(case.one(0, b" ", 4), (5, false, vec![]));
        assert_eq!(case.all(0, &[], 4), (4, false, vec![]));
    }

    #[test]
    fn too_many_terms() {
        for (entries, terms) in [(0, 0), (1, 0), (2, 1), (3, 1), (4, 2), (5, 2)] {
            let mut case = Case::new(6_400, entries);
            let lines: [(&[u8], u32); 3] = [(b"a", 1), (b"b", 1), (b"c", 1)];
            case.assert_refused(&lines[..terms + 1], 11);
            assert_eq!(case.report(&lines[..terms]), (0, 1));
            case.assert_refused(&[(b"x", 1)], 11);
            assert_eq!(case.report(&lines[..terms]), (0, 2));
        }
    }

    #[test]
    fn too_many_blocks() {
        // Two whole blocks.
        let mut case = Case::new(191, 16);
        case.assert_refused(&[(b"a", 1), (b"b", 1), (b"c", 1)], 12);
        assert_eq!(case.report(&[(b"a", 1), (b"b", 1)]), (0, 1));
        case.assert_refused(&[(b"c", 1)], 12);
        assert_eq!(case.report(&[(b"b", 1), (b"a", 1)]), (0, 2));
        // Too many terms come first.
        case.table_entries = 4;
        case.assert_refused(&[(b"c", 1)], 11);
    }

    #[test]
    fn blocks_of_the_marked_chain() {
        let mut case = Case::new(64, 2);
        for number in 1..=10 {
            assert_eq!(case.report(&[(LONG, 1)]), (0, number));
            assert_eq!(case.ledger.prescribed_blocks(), 1);
        }
        case.assert_refused(&[(LONG, 1)], 12);
        case.arena_bytes = 128;
        assert_eq!(case.report(&[(LONG, 1)]), (0, 11));
        assert_eq!(case.ledger.prescribed_blocks(), 2);
    }

    #[test]
    fn walks_by_hand() {
        let walk = |term_length, postings: &[(u32, u32)]| {
            let mut walk = Walk::new(term_length);
            for (number, count) in postings {
                walk.add(*number, *count);
            }
            (walk.blocks, walk.next)
        };
        assert_eq!(walk(36, &[(1, 1)]), (1, 55));
        assert_eq!(walk(1, &[(33, 1)]), (1, 21));
        // The longest code fills the head of the longest term.
        assert_eq!(walk(36, &[(u32::MAX, u32::MAX)]), (1, 64));
        // Two bytes each for 40 and for four gaps of 33. Then a gap of 1 would take one byte, and
        // the gap of 173 - 40 takes two.
        let full = [(40, 1), (73, 1), (106, 1), (139, 1), (172, 1), (173, 1)];
        assert_eq!(walk(36, &full[..5]), (1, 64));
        assert_eq!(walk(36, &full), (2, 6));
        // A head of 45 bytes for postings, then 60 and 60.
        let ones: Vec<(u32, u32)> = (1..=200).map(|number| (number, 1)).collect();
        assert_eq!(walk(1, &ones[..45]), (1, 64));
        // 46 - 1 = 45 is the gap of the next: (45 - 1) x 4 + 1 = 177 takes two bytes.
        assert_eq!(walk(1, &ones[..46]), (2, 6));
        assert_eq!(walk(1, &ones[..104]), (2, 64));
        // 105 - 46 = 59: (59 - 1) x 4 + 1 = 233 takes two bytes.
        assert_eq!(walk(1, &ones[..105]), (3, 6));
    }

    #[test]
    fn listings() {
        let mut case = Case::new(6_400, 64);
        for number in 1..=6 {
            let lines: [(&[u8], u32); 2] = [(b"a", 10 * number), (b"B", number)];
            let lines = if number % 3 == 0 {
                &lines[..]
            } else {
                &lines[..1]
            };
            assert_eq!(case.report(lines), (0, number));
        }
        assert_eq!(case.one(5, b"A", 9), (0, false, vec![(5, 50), (6, 60)]));
        assert_eq!(case.one(0, b"a", 1), (0, true, vec![(1, 10)]));
        assert_eq!(case.one(6, b"a", 1), (0, false, vec![(6, 60)]));
        assert_eq!(case.one(0, b"a", 0), (0, true, vec![]));
        assert_eq!(case.one(7, b"a", 0), (0, false, vec![]));
        assert_eq!(case.one(0, b"x", 4), (0, false, vec![]));
        assert_eq!(case.all(0, &[b"b", b"a", b"b"], 4), (0, false, vec![3, 6]));
        assert_eq!(case.all(4, &[b"b"], 4), (0, false, vec![6]));
        assert_eq!(case.all(0, &[b"b", b"x"], 4), (0, false, vec![]));
        assert_eq!(case.all(0, &[b"b"], 1), (0, true, vec![3]));
    }

    #[test]
    fn later_places_are_kept() {
        let mut case = Case::new(64, 2);
        assert_eq!(case.report(&[(b"a", 8)]), (0, 1));
        let frame = query_frame(Call::OneTerm, 0, &[b"a"]);
        let (mut numbers, mut counts) = ([77; 3], [88; 2]);
        case.ledger.list_one(&frame, &mut numbers, &mut counts);
        assert_eq!((numbers, counts), ([1, 77, 77], [8, 88]));
        let answer = case.ledger.list_all(&frame, &mut numbers);
        assert_eq!((answer, numbers), (refused(3), [1, 77, 77]));
    }
}
