//! The four outer calls over lent memory, after the sections "Memory lent to the index", "Taking a
//! report, listing reports" and "Where each refusal is checked" of document 01.
//!
//! Arena, table and counters may have any contents. A call that is refused under a number from 1 to
//! 12 changes nothing.

use crate::blocks;
use crate::chains::{self, Entry};
use crate::frames::{self, Call, Line, Meaning};
use crate::lookup::{self, Found};

/// The refusal for counters that cannot be right.
const COUNTERS: u8 = 8;

/// The refusal of a report when no number is left for it.
const REPORTS: u8 = 9;

/// The refusal for damage.
const DAMAGE: u8 = 10;

/// The refusal of a report with too many new terms.
const TERMS: u8 = 11;

/// The refusal of a report that needs more blocks than are left.
const ROOM: u8 = 12;

/// The refusal of a report of which a line cannot be written after all.
const WRITING: u8 = 13;

/// The counters of an index ("Memory lent to the index").
#[derive(Debug, Clone, Copy, PartialEq, Eq, Default)]
pub struct Counters {
    /// How many blocks are used.
    pub used: u32,
    /// How many terms are held.
    pub terms: u32,
    /// How many reports were taken.
    pub reports: u32,
}

/// The answer to a report.
#[derive(Debug, Clone, Copy, PartialEq, Eq)]
pub struct Answer {
    /// The number of the refusal, or 0 if the report was taken.
    pub refusal: u8,
    /// The number of the report, or 0 if it was refused.
    pub number: u32,
}

/// The answer to a listing.
#[derive(Debug, Clone, Copy, PartialEq, Eq)]
pub struct Listing {
    /// The number of the refusal, or 0 if there is a result.
    pub refusal: u8,
    /// Whether the result has more reports than the lists have places.
    pub more: bool,
    /// How many places were filled.
    pub filled: u32,
}

impl Listing {
    /// The answer to a listing that is refused.
    fn refused(refusal: u8) -> Listing {
        Listing {
            refusal,
            more: false,
            filled: 0,
        }
    }

    /// The answer when this many reports are found and the lists have this many places.
    fn of(found: usize, places: usize) -> Listing {
        Listing {
            refusal: 0,
            more: found > places,
            filled: found.min(places) as u32,
        }
    }
}

/// Starts an index: empties the whole table and sets the counters to 0 ("Memory lent to the
/// index").
pub fn start(table: &mut [u32], counters: &mut Counters) {
    table.fill(0);
    *counters = Counters::default();
}

/// Takes a report ("Taking a report, listing reports").
pub fn report(
    arena: &mut [u8],
    table: &mut [u32],
    counters: &mut Counters,
    frame: &[u8],
) -> Answer {
    match take(arena, table, counters, frame) {
        Ok(number) => Answer { refusal: 0, number },
        Err(refusal) => Answer { refusal, number: 0 },
    }
}

/// Lists the reports with one term ("Taking a report, listing reports").
pub fn list_one(
    arena: &[u8],
    table: &[u32],
    counters: &Counters,
    frame: &[u8],
    numbers: &mut [u32],
    counts: &mut [u32],
) -> Listing {
    let (start, chains) = match named_chains(arena, table, counters, Call::OneTerm, frame) {
        Ok(named) => named,
        Err(refusal) => return Listing::refused(refusal),
    };
    let entries = chains.into_iter().next().flatten().unwrap_or_default();
    let entries = from_start(entries, start);
    let places = numbers.iter_mut().zip(counts.iter_mut());
    let answer = Listing::of(entries.len(), places.len());
    for ((number, count), entry) in places.zip(entries) {
        *number = entry.number;
        *count = entry.count;
    }
    answer
}

/// Lists the reports with all of several terms ("Taking a report, listing reports").
pub fn list_all(
    arena: &[u8],
    table: &[u32],
    counters: &Counters,
    frame: &[u8],
    numbers: &mut [u32],
) -> Listing {
    let (start, chains) = match named_chains(arena, table, counters, Call::AllTerms, frame) {
        Ok(named) => named,
        Err(refusal) => return Listing::refused(refusal),
    };
    let entries = from_start(in_all(chains), start);
    let answer = Listing::of(entries.len(), numbers.len());
    for (number, entry) in numbers.iter_mut().zip(entries) {
        *number = entry.number;
    }
    answer
}

/// Takes a report and gives its number, or the first refusal that applies ("Where each refusal is
/// checked").
///
/// All lines are judged before the first is written. Then each is judged once more, by itself, when
/// its turn comes.
fn take(
    arena: &mut [u8],
    table: &mut [u32],
    counters: &mut Counters,
    frame: &[u8],
) -> Result<u32, u8> {
    let lines = read_report(frame)?;
    check_counters(arena, table, counters)?;
    let number = counters.reports.checked_add(1).ok_or(REPORTS)?;
    judge_all(arena, table, counters, number, &lines)?;
    for line in &lines {
        write_line(arena, table, counters, number, line).ok_or(WRITING)?;
    }
    counters.reports = number;
    Ok(number)
}

/// The lines of a report, or refusals 1 to 7.
fn read_report(frame: &[u8]) -> Result<Vec<Line>, u8> {
    match frames::read(Call::Report, frame) {
        Ok(Meaning::Report(lines)) => Ok(lines),
        Ok(Meaning::Query { .. }) => Err(frames::Refusal::Kind.number()),
        Err(refusal) => Err(refusal.number()),
    }
}

/// The start and the terms of a query, or refusals 1 to 5.
fn read_query(call: Call, frame: &[u8]) -> Result<(u32, Vec<Vec<u8>>), u8> {
    match frames::read(call, frame) {
        Ok(Meaning::Query { start, terms }) => Ok((start, terms)),
        Ok(Meaning::Report(_)) => Err(frames::Refusal::Kind.number()),
        Err(refusal) => Err(refusal.number()),
    }
}

/// Refusal 8 ("Where each refusal is checked"). It looks at the counters and at the lengths of
/// arena and table.
fn check_counters(arena: &[u8], table: &[u32], counters: &Counters) -> Result<(), u8> {
    let sound = counters.used <= blocks::capacity(arena.len())
        && counters.terms <= most_terms(table)
        && counters.terms <= counters.used;
    if !sound {
        return Err(COUNTERS);
    }
    Ok(())
}

/// How many terms may be held: half the slots, rounded down ("Memory lent to the index").
fn most_terms(table: &[u32]) -> u32 {
    lookup::slots(table.len()) / 2
}

/// The way in which a line is written ("Taking a report, listing reports").
#[derive(Debug, Clone, Copy, PartialEq, Eq)]
enum Way {
    /// The term is unknown: a block becomes its head, and the slot leads there.
    NewTerm { slot: Option<usize> },
    /// The term is known and its posting does not fit: a block becomes the tail.
    NextBlock { head: u32 },
    /// The term is known and its posting fits.
    SameBlock { head: u32 },
}

impl Way {
    fn is_new_term(self) -> bool {
        matches!(self, Way::NewTerm { .. })
    }

    fn needs_block(self) -> bool {
        !matches!(self, Way::SameBlock { .. })
    }
}

/// Refusals 10, 11 and 12 over these lines, in this order, on memory as it stands ("Where each
/// refusal is checked"). Gives the way of each line.
fn judge_all(
    arena: &[u8],
    table: &[u32],
    counters: &Counters,
    number: u32,
    lines: &[Line],
) -> Result<Vec<Way>, u8> {
    let mut ways = Vec::new();
    for line in lines {
        ways.push(way_of(arena, table, counters, number, line)?);
    }
    let new_terms = ways.iter().filter(|way| way.is_new_term()).count() as u64;
    if u64::from(counters.terms) + new_terms > u64::from(most_terms(table)) {
        return Err(TERMS);
    }
    let needed = ways.iter().filter(|way| way.needs_block()).count() as u64;
    if u64::from(counters.used) + needed > u64::from(blocks::capacity(arena.len())) {
        return Err(ROOM);
    }
    Ok(ways)
}

/// The way of one line, or refusal 10 if the look-up or the end of the chain is damaged.
fn way_of(
    arena: &[u8],
    table: &[u32],
    counters: &Counters,
    number: u32,
    line: &Line,
) -> Result<Way, u8> {
    let found = lookup::find(arena, table, counters.used, &line.term).map_err(|_| DAMAGE)?;
    let head = match found {
        Found::Known { head } => head,
        Found::Unknown { slot } => return Ok(Way::NewTerm { slot }),
    };
    let end = chains::judged_end(arena, counters.used, counters.reports, head);
    let end = end.map_err(|_| DAMAGE)?;
    if end.fits(number, line.count) {
        return Ok(Way::SameBlock { head });
    }
    Ok(Way::NextBlock { head })
}

/// Judges one line by itself, on memory as the lines before it left it, and writes it. Nothing is
/// given and nothing changed if it cannot be written ("Where each refusal is checked").
fn write_line(
    arena: &mut [u8],
    table: &mut [u32],
    counters: &mut Counters,
    number: u32,
    line: &Line,
) -> Option<()> {
    let ways = judge_all(arena, table, counters, number, std::slice::from_ref(line)).ok()?;
    write(arena, table, counters, number, line, *ways.first()?)
}

/// Writes one line and counts the block and the term that it adds. A line that was just judged can
/// always be written.
fn write(
    arena: &mut [u8],
    table: &mut [u32],
    counters: &mut Counters,
    number: u32,
    line: &Line,
    way: Way,
) -> Option<()> {
    let next = counters.used;
    match way {
        Way::SameBlock { head } => {
            blocks::add_posting(arena, head, number, line.count)?;
        }
        Way::NextBlock { head } => {
            blocks::open_next(arena, head, next, number, line.count)?;
            counters.used += 1;
        }
        Way::NewTerm { slot } => {
            let entry = table.get_mut(slot?)?;
            blocks::open_head(arena, next, &line.term, number, line.count)?;
            *entry = next + 1;
            counters.used += 1;
            counters.terms += 1;
        }
    }
    Some(())
}

/// The chains of the terms of a query, one after another, with nothing for an unknown term.
type NamedChains = Vec<Option<Vec<Entry>>>;

/// The start of a query and the chains of its terms, read whole, or the first refusal that applies
/// ("Where each refusal is checked"). A damaged chain counts also if another term is unknown.
fn named_chains(
    arena: &[u8],
    table: &[u32],
    counters: &Counters,
    call: Call,
    frame: &[u8],
) -> Result<(u32, NamedChains), u8> {
    let (start, terms) = read_query(call, frame)?;
    check_counters(arena, table, counters)?;
    let mut chains = Vec::new();
    for term in &terms {
        chains.push(chain_of(arena, table, counters, term)?);
    }
    Ok((start, chains))
}

/// The chain of a term, nothing if it is unknown, or refusal 10.
fn chain_of(
    arena: &[u8],
    table: &[u32],
    counters: &Counters,
    term: &[u8],
) -> Result<Option<Vec<Entry>>, u8> {
    match lookup::find(arena, table, counters.used, term) {
        Ok(Found::Known { head }) => chains::read(arena, counters.used, counters.reports, head)
            .map(Some)
            .map_err(|_| DAMAGE),
        Ok(Found::Unknown { .. }) => Ok(None),
        Err(_) => Err(DAMAGE),
    }
}

/// The reports at or past the start.
fn from_start(entries: Vec<Entry>, start: u32) -> Vec<Entry> {
    let at_or_past = entries.into_iter().filter(|entry| entry.number >= start);
    at_or_past.collect()
}

/// The reports that stand in all chains; none if there is an unknown term.
fn in_all(chains: NamedChains) -> Vec<Entry> {
    let mut chains = chains.into_iter();
    let mut common = chains.next().flatten().unwrap_or_default();
    for chain in chains {
        common = in_both(&common, &chain.unwrap_or_default());
    }
    common
}

/// The entries of `one` whose report stands in `other` too. Both ascend, so that one pass over both
/// is enough.
fn in_both(one: &[Entry], other: &[Entry]) -> Vec<Entry> {
    let mut common = Vec::new();
    let mut rest = other.iter().peekable();
    for entry in one {
        while rest.next_if(|next| next.number < entry.number).is_some() {}
        if rest.peek().is_some_and(|next| next.number == entry.number) {
            common.push(*entry);
        }
    }
    common
}

#[cfg(test)]
mod tests;
