//! Brings drawn lists of calls to the index and to the plain ledger of document 01 and compares
//! every answer, every place of the result lists, and the counters.

use reference::compose::{query_frame, report_frame};
use reference::drawn_calls::{DrawnCall, Source};
use reference::draws::Draws;
use reference::frames::Call;
use reference::index::{self, Counters};
use reference::ledger::Ledger;

/// How often each refusal was given, with 0 for none, and how often more reports remained.
#[derive(Debug, Default)]
struct Tally {
    reports: [u32; 14],
    listings: [u32; 14],
    filled: u32,
    more: u32,
    exactly_full: u32,
}

/// An index and a ledger that are brought the same calls.
struct Both {
    arena: Vec<u8>,
    table: Vec<u32>,
    counters: Counters,
    ledger: Ledger,
    tally: Tally,
}

impl Both {
    /// Drawn memory with this many blocks and slots, and some bytes past the last block, started.
    fn started(draws: &mut Draws, blocks: usize, slots: usize) -> Both {
        let bytes_after = draws.between(0, 63);
        let mut both = Both {
            arena: draws.bytes(blocks * 64 + bytes_after),
            table: (0..slots).map(|_| draws.number()).collect(),
            counters: Counters {
                used: draws.number(),
                terms: draws.number(),
                reports: draws.number(),
            },
            ledger: Ledger::new(),
            tally: Tally::default(),
        };
        both.start();
        both
    }

    fn start(&mut self) {
        index::start(&mut self.table, &mut self.counters);
        self.ledger.start();
    }

    /// Brings a frame to taking a report and gives the refusal, or 0.
    fn report(&mut self, frame: &[u8]) -> u8 {
        let (bytes, entries) = (self.arena.len(), self.table.len());
        let answer = index::report(&mut self.arena, &mut self.table, &mut self.counters, frame);
        let expected = self.ledger.report(frame, bytes, entries);
        assert_eq!(
            (answer.refusal, answer.number),
            (expected.refusal, expected.number),
            "{frame:02X?}"
        );
        self.tally.reports[usize::from(answer.refusal)] += 1;
        answer.refusal
    }

    /// Brings a frame to the one-term listing, with these lists.
    fn list_one(&mut self, frame: &[u8], mut numbers: Vec<u32>, mut counts: Vec<u32>) {
        let places = numbers.len().min(counts.len());
        let (mut expected_numbers, mut expected_counts) = (numbers.clone(), counts.clone());
        let answer = index::list_one(
            &self.arena,
            &self.table,
            &self.counters,
            frame,
            &mut numbers,
            &mut counts,
        );
        let expected = self
            .ledger
            .list_one(frame, &mut expected_numbers, &mut expected_counts);
        assert_eq!(numbers, expected_numbers, "{frame:02X?}");
        assert_eq!(counts, expected_counts, "{frame:02X?}");
        self.compare(answer, expected, places);
    }

    /// Brings a frame to the all-terms listing, with this list.
    fn list_all(&mut self, frame: &[u8], mut numbers: Vec<u32>) {
        let places = numbers.len();
        let mut expected_numbers = numbers.clone();
        let answer = index::list_all(
            &self.arena,
            &self.table,
            &self.counters,
            frame,
            &mut numbers,
        );
        let expected = self.ledger.list_all(frame, &mut expected_numbers);
        assert_eq!(numbers, expected_numbers, "{frame:02X?}");
        self.compare(answer, expected, places);
    }

    /// Brings the next call of the source.
    fn bring_next(&mut self, source: &mut Source) {
        match source.call(self.counters.reports) {
            DrawnCall::Start => self.start(),
            DrawnCall::Report { frame } => {
                self.report(&frame);
            }
            DrawnCall::ListOne {
                frame,
                numbers,
                counts,
            } => self.list_one(&frame, numbers, counts),
            DrawnCall::ListAll { frame, numbers } => self.list_all(&frame, numbers),
        }
    }

    /// Compares two answers to a listing whose lists have this many places.
    fn compare(
        &mut self,
        answer: index::Listing,
        expected: reference::ledger::Listing,
        places: usize,
    ) {
        assert_eq!(
            (answer.refusal, answer.more, answer.filled),
            (expected.refusal, expected.more, expected.filled)
        );
        self.tally.listings[usize::from(answer.refusal)] += 1;
        self.tally.filled += u32::from(answer.filled > 0);
        self.tally.more += u32::from(answer.more);
        let full = answer.filled > 0 && answer.filled as usize == places;
        self.tally.exactly_full += u32::from(full && !answer.more);
    }

    /// Fails unless the counters hold what the ledger prescribes.
    fn assert_counters(&self) {
        let counters = [
            self.counters.used,
            self.counters.terms,
            self.counters.reports,
        ];
        let expected = [
            self.ledger.prescribed_blocks(),
            self.ledger.terms(),
            self.ledger.reports(),
        ];
        assert_eq!(counters.map(u64::from), expected);
    }
}

/// A list of this length with any contents.
fn drawn_list(draws: &mut Draws, length: usize) -> Vec<u32> {
    (0..length).map(|_| draws.number()).collect()
}

#[test]
fn small_memory() {
    let mut source = Source {
        draws: Draws::new(0x5A11_2026),
        words: Vec::new(),
        listing_in: 2,
        fault_in: 10,
        start_in: 50,
        lines: 4,
    };
    let mut total = Tally::default();
    for _ in 0..1_500 {
        let blocks = source.draws.between(0, 10);
        let slots = source.draws.between(0, 14);
        let words = source.draws.between(1, 9);
        source.draw_words(words);
        let mut both = Both::started(&mut source.draws, blocks, slots);
        for _ in 0..80 {
            both.bring_next(&mut source);
            both.assert_counters();
        }
        add(&mut total, &both.tally);
    }
    for refusal in [0, 1, 2, 3, 4, 5, 6, 7, 11, 12] {
        let given = total.reports[refusal];
        assert!(given > 10, "refusal {refusal} of reports: {given}");
    }
    for refusal in [0, 1, 2, 3, 4, 5] {
        let given = total.listings[refusal];
        assert!(given > 10, "refusal {refusal} of listings: {given}");
    }
    assert!(total.reports[11] > 1_000 && total.reports[12] > 1_000);
    assert!(total.filled > 1_000 && total.more > 500 && total.exactly_full > 200);
}

/// Adds one tally to another.
fn add(total: &mut Tally, tally: &Tally) {
    for number in 0..14 {
        total.reports[number] += tally.reports[number];
        total.listings[number] += tally.listings[number];
    }
    total.filled += tally.filled;
    total.more += tally.more;
    total.exactly_full += tally.exactly_full;
}

#[test]
fn long_chains() {
    let mut source = Source {
        draws: Draws::new(0x5A12_2026),
        words: Vec::new(),
        listing_in: 8,
        fault_in: 200,
        start_in: 100_000,
        lines: 3,
    };
    for (words, blocks) in [(1, 200), (2, 200), (3, 200), (3, 60)] {
        source.draw_words(words);
        let mut both = Both::started(&mut source.draws, blocks, 8);
        for _ in 0..900 {
            both.bring_next(&mut source);
        }
        both.assert_counters();
        assert!(both.counters.used > 20, "{:?}", both.counters);
    }
}

#[test]
fn one_term_until_the_arena_is_full() {
    let mut draws = Draws::new(0x5A13_2026);
    let mut both = Both::started(&mut draws, 40, 2);
    for _ in 0..1_500 {
        let count = draws.posting().count();
        both.report(&report_frame(&[(b"zn", count)]));
    }
    assert!(both.tally.reports[12] > 100);
    both.assert_counters();
    assert_eq!(both.counters.used, 40);
    let reports = both.counters.reports as usize;
    let frame = query_frame(Call::OneTerm, 0, &[b"ZN"]);
    for length in [0, 1, reports - 1, reports, reports + 1] {
        let [numbers, counts] = [length; 2].map(|length| drawn_list(&mut draws, length));
        both.list_one(&frame, numbers, counts);
    }
    for start in [1, 2, both.counters.reports, both.counters.reports + 1] {
        let frame = query_frame(Call::AllTerms, start, &[b"zn", b"zn"]);
        both.list_all(&frame, drawn_list(&mut draws, reports));
    }
}

/// Reports without lines make gaps of two and three bytes.
#[test]
fn wide_gaps() {
    let mut draws = Draws::new(0x5A14_2026);
    let mut both = Both::started(&mut draws, 12, 6);
    let words: [&[u8]; 3] = [b"a", b"bc", &[b'd'; 36]];
    for empty in [0, 40, 4_100, 1, 0, 31, 32, 33, 64, 100, 200, 300] {
        for _ in 0..empty {
            assert_eq!(both.report(&report_frame(&[])), 0);
        }
        for word in words {
            let count = draws.posting().count();
            both.report(&report_frame(&[(word, count)]));
        }
    }
    both.assert_counters();
    for word in words {
        let frame = query_frame(Call::OneTerm, 0, &[word]);
        let [numbers, counts] = [100; 2].map(|length| drawn_list(&mut draws, length));
        both.list_one(&frame, numbers, counts);
    }
    assert!(both.counters.used > 3);
}

/// Many terms with short chains: half of the table is filled, and searches pass many slots.
#[test]
fn many_terms() {
    let mut source = Source {
        draws: Draws::new(0x5A15_2026),
        words: Vec::new(),
        listing_in: 4,
        fault_in: 100,
        start_in: 400,
        lines: 8,
    };
    for slots in [61, 64, 120] {
        source.draw_words(90);
        let mut both = Both::started(&mut source.draws, 80, slots);
        for _ in 0..500 {
            both.bring_next(&mut source);
        }
        both.assert_counters();
        assert!(both.tally.reports[11] + both.tally.reports[12] > 20);
    }
}
