//! Bringing one call to the implementation under test, to the reference or to the plain ledger.

use crate::calls::Calls;
use reference::drawn_calls::DrawnCall;
use reference::index;
use reference::ledger::Ledger;
use report_index::raw;

use crate::guarded::Guarded;
use crate::memory::Memory;

/// What a call answers.
#[derive(Debug, Clone, Copy, PartialEq, Eq)]
pub enum Answer {
    /// A start answers nothing.
    Started,
    /// The refusal, or 0, and the number of the report.
    Report(u8, u32),
    /// The refusal, or 0, whether more remain, and how many places were filled.
    Listing(u8, bool, u32),
}

/// What a call answers, and its lists as it leaves them. A list that the call does not have is
/// empty.
#[derive(Debug, Clone, PartialEq, Eq)]
pub struct Outcome {
    /// The answer.
    pub answer: Answer,
    /// The list of numbers.
    pub numbers: Vec<u32>,
    /// The list of counts.
    pub counts: Vec<u32>,
}

impl Outcome {
    /// The outcome of a call without lists.
    fn without_lists(answer: Answer) -> Outcome {
        Outcome {
            answer,
            numbers: Vec::new(),
            counts: Vec::new(),
        }
    }
}

/// Brings a call to the reference, over this memory.
pub fn bring_to_reference(memory: &mut Memory, call: &DrawnCall) -> Outcome {
    let Memory {
        arena,
        table,
        counters,
    } = memory;
    match call {
        DrawnCall::Start => {
            index::start(table, counters);
            Outcome::without_lists(Answer::Started)
        }
        DrawnCall::Report { frame } => {
            let answer = index::report(arena, table, counters, frame);
            Outcome::without_lists(Answer::Report(answer.refusal, answer.number))
        }
        DrawnCall::ListOne {
            frame,
            numbers,
            counts,
        } => {
            let (mut numbers, mut counts) = (numbers.clone(), counts.clone());
            let answer = index::list_one(arena, table, counters, frame, &mut numbers, &mut counts);
            Outcome {
                answer: Answer::Listing(answer.refusal, answer.more, answer.filled),
                numbers,
                counts,
            }
        }
        DrawnCall::ListAll { frame, numbers } => {
            let mut numbers = numbers.clone();
            let answer = index::list_all(arena, table, counters, frame, &mut numbers);
            Outcome {
                answer: Answer::Listing(answer.refusal, answer.more, answer.filled),
                numbers,
                counts: Vec::new(),
            }
        }
    }
}

/// Brings a call to the plain ledger, which is told the lengths of arena and table.
pub fn bring_to_ledger(
    ledger: &mut Ledger,
    arena_bytes: usize,
    table_entries: usize,
    call: &DrawnCall,
) -> Outcome {
    match call {
        DrawnCall::Start => {
            ledger.start();
            Outcome::without_lists(Answer::Started)
        }
        DrawnCall::Report { frame } => {
            let answer = ledger.report(frame, arena_bytes, table_entries);
            Outcome::without_lists(Answer::Report(answer.refusal, answer.number))
        }
        DrawnCall::ListOne {
            frame,
            numbers,
            counts,
        } => {
            let (mut numbers, mut counts) = (numbers.clone(), counts.clone());
            let answer = ledger.list_one(frame, &mut numbers, &mut counts);
            Outcome {
                answer: Answer::Listing(answer.refusal, answer.more, answer.filled),
                numbers,
                counts,
            }
        }
        DrawnCall::ListAll { frame, numbers } => {
            let mut numbers = numbers.clone();
            let answer = ledger.list_all(frame, &mut numbers);
            Outcome {
                answer: Answer::Listing(answer.refusal, answer.more, answer.filled),
                numbers,
                counts: Vec::new(),
            }
        }
    }
}

/// What stands before and behind the lent counters.
const COUNTERS_GUARD: raw::Counters = raw::Counters {
    used: 0xB1B2_B3B4,
    terms: 0xC1C2_C3C4,
    reports: 0xD1D2_D3D4,
};

/// An implementation under test and the memory lent to it, with guards around each part.
#[derive(Debug, Clone)]
pub struct Tested {
    calls: Calls,
    arena: Guarded<u8>,
    table: Guarded<u32>,
    /// The lent counters stand in the middle.
    counters: [raw::Counters; 3],
}

impl Tested {
    /// These calls, over memory with these contents.
    pub fn new(calls: Calls, memory: &Memory) -> Tested {
        Tested {
            calls,
            arena: Guarded::new(&memory.arena),
            table: Guarded::new(&memory.table),
            counters: [COUNTERS_GUARD, counters_of(memory), COUNTERS_GUARD],
        }
    }

    /// Gives the memory other contents.
    pub fn reset(&mut self, memory: &Memory) {
        *self = Tested::new(self.calls, memory);
    }

    /// Brings a call. Fails if a guard or the frame is changed by it.
    pub fn bring(&mut self, call: &DrawnCall) -> Result<Outcome, String> {
        let outcome = match call {
            DrawnCall::Start => {
                (self.calls.start)(self.table.lent_mut(), &mut self.counters[1]);
                Outcome::without_lists(Answer::Started)
            }
            DrawnCall::Report { frame } => self.report(frame)?,
            DrawnCall::ListOne {
                frame,
                numbers,
                counts,
            } => self.list_one(frame, numbers, counts)?,
            DrawnCall::ListAll { frame, numbers } => self.list_all(frame, numbers)?,
        };
        self.arena.check("arena")?;
        self.table.check("table")?;
        if [self.counters[0], self.counters[2]] != [COUNTERS_GUARD; 2] {
            return Err("the tested calls wrote beside the counters".to_string());
        }
        Ok(outcome)
    }

    /// Fails unless every byte, entry and counter is as in `memory`.
    pub fn compare(&self, memory: &Memory) -> Result<(), String> {
        if let Some(place) = first_difference(self.arena.lent(), &memory.arena) {
            return Err(format!("byte {place} of the arena differs"));
        }
        if let Some(place) = first_difference(self.table.lent(), &memory.table) {
            return Err(format!("entry {place} of the table differs"));
        }
        if self.counters[1] != counters_of(memory) {
            let (ours, theirs) = (self.counters[1], memory.counters);
            return Err(format!("the tested {ours:?}, the reference's {theirs:?}"));
        }
        Ok(())
    }

    fn report(&mut self, frame: &[u8]) -> Result<Outcome, String> {
        let lent = Guarded::new(frame);
        let (arena, table) = (self.arena.lent_mut(), self.table.lent_mut());
        let answer = (self.calls.report)(arena, table, &mut self.counters[1], lent.lent());
        check_frame(&lent, frame)?;
        Ok(Outcome::without_lists(Answer::Report(
            answer.refusal,
            answer.number,
        )))
    }

    fn list_one(&self, frame: &[u8], numbers: &[u32], counts: &[u32]) -> Result<Outcome, String> {
        let lent = Guarded::new(frame);
        let (mut numbers, mut counts) = (Guarded::new(numbers), Guarded::new(counts));
        let answer = (self.calls.list_one)(
            self.arena.lent(),
            self.table.lent(),
            &self.counters[1],
            lent.lent(),
            numbers.lent_mut(),
            counts.lent_mut(),
        );
        check_frame(&lent, frame)?;
        numbers.check("list of numbers")?;
        counts.check("list of counts")?;
        Ok(Outcome {
            answer: Answer::Listing(answer.refusal, answer.more, answer.filled),
            numbers: numbers.lent().to_vec(),
            counts: counts.lent().to_vec(),
        })
    }

    fn list_all(&self, frame: &[u8], numbers: &[u32]) -> Result<Outcome, String> {
        let lent = Guarded::new(frame);
        let mut numbers = Guarded::new(numbers);
        let answer = (self.calls.list_all)(
            self.arena.lent(),
            self.table.lent(),
            &self.counters[1],
            lent.lent(),
            numbers.lent_mut(),
        );
        check_frame(&lent, frame)?;
        numbers.check("list of numbers")?;
        Ok(Outcome {
            answer: Answer::Listing(answer.refusal, answer.more, answer.filled),
            numbers: numbers.lent().to_vec(),
            counts: Vec::new(),
        })
    }
}

/// Fails unless the frame and its guards are as they were.
fn check_frame(lent: &Guarded<u8>, frame: &[u8]) -> Result<(), String> {
    if lent.lent() != frame {
        return Err("the tested call changed the frame".to_string());
    }
    lent.check("frame")
}

/// The counters as the library takes them.
fn counters_of(memory: &Memory) -> raw::Counters {
    raw::Counters {
        used: memory.counters.used,
        terms: memory.counters.terms,
        reports: memory.counters.reports,
    }
}

/// The first place at which two slices differ.
fn first_difference<T: PartialEq>(one: &[T], other: &[T]) -> Option<usize> {
    if one == other {
        return None;
    }
    let common = one
        .iter()
        .zip(other)
        .take_while(|(one, other)| one == other);
    Some(common.count())
}
