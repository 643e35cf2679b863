//! One case for each seed: memory, a list of calls, and for some kinds damage between the calls.
//!
//! All of a case depends on its seed alone, so that a difference can be seen again by that seed.

use std::fmt;

use crate::calls::Calls;
use reference::drawn_calls::{DrawnCall, Source};
use reference::draws::Draws;
use reference::ledger::Ledger;

use crate::memory::Memory;
use crate::sides::{bring_to_ledger, bring_to_reference, Outcome, Tested};
use crate::tally::{Sizes, Tally};

/// The kinds of cases.
#[derive(Debug, Clone, Copy, PartialEq, Eq)]
pub enum Kind {
    /// Calls from a start in little memory: joins, refusals 11 and 12, and starts are frequent.
    Grown,
    /// Calls from a start with many terms: half of the table is filled, searches pass many slots.
    Crowded,
    /// Calls from a start with few terms: chains of many blocks.
    LongChains,
    /// Calls on a grown index that is damaged before them.
    Damaged,
    /// Calls on memory that never was an index.
    Wild,
    /// Calls on an index whose reports counter is raised between them: gaps and codes are long.
    WideGaps,
    /// Reports of hundreds of lines.
    LongFrames,
}

impl Kind {
    /// The kind of the case with this seed.
    pub fn of_seed(seed: u64) -> Kind {
        match scrambled(seed) % 32 {
            0..=9 => Kind::Grown,
            10..=11 => Kind::Crowded,
            12 => Kind::LongChains,
            13..=21 => Kind::Damaged,
            22..=27 => Kind::Wild,
            28..=30 => Kind::WideGaps,
            _ => Kind::LongFrames,
        }
    }

    /// Whether the plain ledger is brought the calls too: only to lists of calls from a start, with
    /// nothing changed between them.
    pub fn has_ledger(self) -> bool {
        matches!(self, Kind::Grown | Kind::Crowded | Kind::LongChains)
    }
}

/// A seed with all its bits mixed, so that seeds that follow each other draw different numbers. It
/// is the last step of the generator SplitMix64, and never 0.
fn scrambled(seed: u64) -> u64 {
    let mut mixed = seed.wrapping_add(0x9E37_79B9_7F4A_7C15);
    mixed = (mixed ^ (mixed >> 30)).wrapping_mul(0xBF58_476D_1CE4_E5B9);
    mixed = (mixed ^ (mixed >> 27)).wrapping_mul(0x94D0_49BB_1331_11EB);
    (mixed ^ (mixed >> 31)).max(1)
}

/// A difference: where it was met and what differs.
#[derive(Debug, Clone, PartialEq, Eq)]
pub struct Failure {
    /// The seed of the case.
    pub seed: u64,
    /// The number of the call within the case, from 1 on.
    pub call: u64,
    /// What differs.
    pub text: String,
}

impl fmt::Display for Failure {
    fn fmt(&self, text: &mut fmt::Formatter<'_>) -> fmt::Result {
        let kind = Kind::of_seed(self.seed);
        writeln!(text, "seed {} ({kind:?}), call {}:", self.seed, self.call)?;
        writeln!(text, "{}", self.text)?;
        write!(
            text,
            "To see it again: cargo run --offline --release --manifest-path rust/Cargo.toml -p differential -- 1 {}",
            self.seed
        )
    }
}

/// Brings the cases from `first_seed` on whose kind is asked for to the tested calls, until they
/// made `number` calls. At least one case is run, and each is run to its end.
pub fn run(
    tested: Calls,
    first_seed: u64,
    number: u64,
    asked: fn(Kind) -> bool,
) -> Result<Tally, Failure> {
    let mut tally = Tally::default();
    let mut seed = first_seed;
    while tally.cases == 0 || tally.calls < number {
        if asked(Kind::of_seed(seed)) {
            run_case(tested, seed, &mut tally)?;
        }
        seed = seed.wrapping_add(1);
    }
    Ok(tally)
}

/// Runs the case of one seed.
fn run_case(tested: Calls, seed: u64, tally: &mut Tally) -> Result<(), Failure> {
    let calls_before = tally.calls;
    let kind = Kind::of_seed(seed);
    let mut case = Case::new(tested, kind, Draws::new(scrambled(scrambled(seed))), tally);
    let result = match kind {
        Kind::Grown => case.calls(80),
        Kind::Crowded => case.calls(150),
        Kind::LongChains => case.calls(400),
        Kind::LongFrames => case.calls(8),
        Kind::WideGaps => case.calls_with_raised_reports(80),
        Kind::Damaged => case.calls_after_damage(25),
        Kind::Wild => case.calls_on_wild_memory(30),
    };
    tally.cases += 1;
    result.map_err(|text| Failure {
        seed,
        call: tally.calls - calls_before + 1,
        text,
    })
}

/// The two or three sides of a case, and what its calls are drawn from.
struct Case<'a> {
    tested: Tested,
    reference: Memory,
    ledger: Option<Ledger>,
    source: Source,
    tally: &'a mut Tally,
}

impl Case<'_> {
    /// Memory and terms for a case of this kind. Nothing is started yet.
    fn new(tested: Calls, kind: Kind, draws: Draws, tally: &mut Tally) -> Case<'_> {
        let mut source = Source {
            draws,
            words: Vec::new(),
            listing_in: 2,
            fault_in: 10,
            start_in: 50,
            lines: 4,
        };
        let (blocks, slots) = match kind {
            Kind::Grown => draw_little(&mut source, (0, 20), (0, 20)),
            Kind::Wild => draw_little(&mut source, (0, 10), (0, 14)),
            Kind::WideGaps => draw_little(&mut source, (4, 40), (4, 20)),
            Kind::Damaged => draw_little(&mut source, (2, 20), (2, 20)),
            Kind::Crowded => draw_crowded(&mut source),
            Kind::LongChains => draw_long_chains(&mut source),
            Kind::LongFrames => draw_long_frames(&mut source),
        };
        let reference = Memory::any(&mut source.draws, blocks, slots);
        Case {
            tested: Tested::new(tested, &reference),
            reference,
            ledger: kind.has_ledger().then(Ledger::new),
            source,
            tally,
        }
    }

    /// A start, then this many calls.
    fn calls(&mut self, number: usize) -> Result<(), String> {
        self.bring(&DrawnCall::Start)?;
        for _ in 0..number {
            self.bring_next()?;
        }
        Ok(())
    }

    /// The same, with the reports counter raised now and then.
    fn calls_with_raised_reports(&mut self, number: usize) -> Result<(), String> {
        self.bring(&DrawnCall::Start)?;
        for _ in 0..number {
            if self.source.draws.below(4) == 0 {
                self.reference.raise_reports(&mut self.source.draws);
                self.tested.reset(&self.reference);
            }
            self.bring_next()?;
        }
        Ok(())
    }

    /// Grows an index; then, again and again, goes back to it, damages it and brings a few calls.
    fn calls_after_damage(&mut self, rounds: usize) -> Result<(), String> {
        let calls = self.source.draws.between(5, 60);
        self.calls(calls)?;
        let grown = self.reference.clone();
        self.source.fault_in = 100;
        for _ in 0..rounds {
            self.reference.clone_from(&grown);
            for _ in 0..self.source.draws.between(1, 3) {
                self.reference.damage(&mut self.source.draws);
            }
            self.tested.reset(&self.reference);
            for _ in 0..self.source.draws.between(1, 4) {
                self.bring_next()?;
            }
        }
        Ok(())
    }

    /// Makes wild memory, again and again, and brings a few calls.
    fn calls_on_wild_memory(&mut self, rounds: usize) -> Result<(), String> {
        let (blocks, slots) = (self.reference.arena.len() / 64, self.reference.table.len());
        self.source.fault_in = 100;
        for _ in 0..rounds {
            let Source { draws, words, .. } = &mut self.source;
            self.reference = Memory::wild(draws, blocks, slots, words);
            self.tested.reset(&self.reference);
            for _ in 0..self.source.draws.between(1, 4) {
                self.bring_next()?;
            }
        }
        Ok(())
    }

    /// Draws a call and brings it to all sides.
    fn bring_next(&mut self) -> Result<(), String> {
        let call = self.source.call(self.reference.counters.reports);
        self.bring(&call)
    }

    /// Brings a call to all sides and compares what they answer and leave.
    fn bring(&mut self, call: &DrawnCall) -> Result<(), String> {
        let before = Sizes::of(&self.reference);
        let outcome = self.tested.bring(call).map_err(|text| told(call, &text))?;
        let expected = bring_to_reference(&mut self.reference, call);
        compare(call, &outcome, "reference", &expected)?;
        let compared = self.tested.compare(&self.reference);
        compared.map_err(|text| told(call, &text))?;
        self.bring_to_ledger(call, &outcome)?;
        self.tally
            .count(call, outcome.answer, &before, &self.reference);
        Ok(())
    }

    /// Brings a call to the ledger, if there is one, and compares its answer, the lists, and the
    /// counters with what the ledger prescribes.
    fn bring_to_ledger(&mut self, call: &DrawnCall, outcome: &Outcome) -> Result<(), String> {
        let Some(ledger) = &mut self.ledger else {
            return Ok(());
        };
        let Memory {
            arena,
            table,
            counters,
        } = &self.reference;
        let expected = bring_to_ledger(ledger, arena.len(), table.len(), call);
        compare(call, outcome, "ledger", &expected)?;
        let held = [counters.used, counters.terms, counters.reports].map(u64::from);
        let prescribed = [ledger.prescribed_blocks(), ledger.terms(), ledger.reports()];
        if held != prescribed {
            let text = format!("the counters are {held:?}, the ledger prescribes {prescribed:?}");
            return Err(told(call, &text));
        }
        Ok(())
    }
}

/// Fails unless the outcome of the tested call is the expected one.
fn compare(
    call: &DrawnCall,
    outcome: &Outcome,
    name: &str,
    expected: &Outcome,
) -> Result<(), String> {
    if outcome == expected {
        return Ok(());
    }
    let text = format!("the tested call gives {outcome:?},\nthe {name} {expected:?}");
    Err(told(call, &text))
}

/// A text on a difference, with the call that showed it.
fn told(call: &DrawnCall, text: &str) -> String {
    format!("{call:02X?}\n{text}")
}

/// Few words, and numbers of blocks and slots within these bounds.
fn draw_little(
    source: &mut Source,
    blocks: (usize, usize),
    slots: (usize, usize),
) -> (usize, usize) {
    let most = [2, 4, 9][source.draws.between(0, 2)];
    let words = source.draws.between(1, most);
    source.draw_words(words);
    let blocks = source.draws.between(blocks.0, blocks.1);
    (blocks, source.draws.between(slots.0, slots.1))
}

/// More words than the table may hold.
fn draw_crowded(source: &mut Source) -> (usize, usize) {
    source.draw_words(90);
    source.lines = 8;
    source.start_in = 400;
    source.listing_in = 4;
    (80, source.draws.between(61, 128))
}

/// Few words and many blocks.
fn draw_long_chains(source: &mut Source) -> (usize, usize) {
    let words = source.draws.between(1, 3);
    source.draw_words(words);
    source.lines = 3;
    source.start_in = 2_000;
    source.listing_in = 8;
    source.fault_in = 200;
    (source.draws.between(20, 200), source.draws.between(6, 9))
}

/// Hundreds of short words, and reports of nearly all of them.
fn draw_long_frames(source: &mut Source) -> (usize, usize) {
    let words = source.draws.between(100, 1_000);
    for _ in 0..words {
        let length = source.draws.between(1, 4);
        let word = source.draws.term(length);
        source.words.push(word);
    }
    source.lines = source.draws.between(200, 1_000);
    source.start_in = 10;
    source.listing_in = 4;
    (
        source.draws.between(300, 2_500),
        source.draws.between(500, 2_500),
    )
}
