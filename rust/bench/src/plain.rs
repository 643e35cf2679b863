//! The four calls in plain, safe Rust, written for speed: the yardstick of the proved library.
//!
//! They work over the same bytes with the same layout, the same checks and the same refusals as the
//! library, and leave the same arena, table and counters. The rules are those of document 01; the
//! comments here only say what is done for speed. (`rust/reference` states the same rules in their
//! most direct form and is far slower.)

use differential::calls::Calls;
use report_index::raw::{Counters, ListAnswer, ReportAnswer};
use report_index::BLOCK_BYTES;

/// The four calls.
pub const PLAIN: Calls = Calls {
    start,
    report,
    list_one,
    list_all,
};

type Block = [u8; BLOCK_BYTES];

/// The folded byte, or 0 for a barred one.
static FOLDED: [u8; 256] = folded_bytes();

const fn folded_bytes() -> [u8; 256] {
    let mut table = [0; 256];
    let mut byte = 0x21;
    while byte <= 0x7E {
        table[byte] = (byte as u8).to_ascii_lowercase();
        byte += 1;
    }
    table
}

/// Starts an index.
fn start(table: &mut [u32], counters: &mut Counters) {
    table.fill(0);
    *counters = Counters::default();
}

/// Takes a report.
fn report(
    arena: &mut [u8],
    table: &mut [u32],
    counters: &mut Counters,
    frame: &[u8],
) -> ReportAnswer {
    let (blocks, _) = arena.as_chunks_mut::<BLOCK_BYTES>();
    match take(blocks, table, counters, frame) {
        Ok(number) => ReportAnswer { refusal: 0, number },
        Err(refusal) => ReportAnswer { refusal, number: 0 },
    }
}

/// Lists the reports with one term.
fn list_one(
    arena: &[u8],
    table: &[u32],
    counters: &Counters,
    frame: &[u8],
    numbers: &mut [u32],
    counts: &mut [u32],
) -> ListAnswer {
    let (blocks, _) = arena.as_chunks::<BLOCK_BYTES>();
    match named_heads(blocks, table, counters, frame, 2, 1) {
        Ok(Some(named)) => fill_one(blocks, named.heads[0], named.start, numbers, counts),
        Ok(None) => answer(0, false, 0),
        Err(refusal) => answer(refusal, false, 0),
    }
}

/// Lists the reports with all of several terms.
fn list_all(
    arena: &[u8],
    table: &[u32],
    counters: &Counters,
    frame: &[u8],
    numbers: &mut [u32],
) -> ListAnswer {
    let (blocks, _) = arena.as_chunks::<BLOCK_BYTES>();
    match named_heads(blocks, table, counters, frame, 3, 8) {
        Ok(Some(named)) => fill_all(blocks, &named, numbers),
        Ok(None) => answer(0, false, 0),
        Err(refusal) => answer(refusal, false, 0),
    }
}

fn answer(refusal: u8, more: bool, filled: usize) -> ListAnswer {
    ListAnswer {
        refusal,
        more,
        filled: filled as u32,
    }
}

// ---- frames

/// A line of a report; a query's term has the count 1.
struct Line {
    /// Where the term stands in the folded frame.
    at: u16,
    length: u8,
    /// The line before this one whose hash has the same last byte, counted from 1; 0 for none.
    earlier: u16,
    hash: u32,
    count: u32,
}

/// A frame read once: its terms folded and hashed.
struct Lines {
    folded: Vec<u8>,
    lines: Vec<Line>,
}

impl Lines {
    fn term(&self, line: &Line) -> &[u8] {
        let at = usize::from(line.at);
        &self.folded[at..at + usize::from(line.length)]
    }
}

/// Refusals 1 to 3.
fn check_head(frame: &[u8], kind: u8) -> Result<(), u8> {
    if frame.len() < 4 || frame[0] != 1 {
        return Err(1);
    }
    let body = usize::from(u16::from_be_bytes([frame[1], frame[2]]));
    if body > 4_096 || body != frame.len() - 3 {
        return Err(2);
    }
    if frame[3] != kind {
        return Err(3);
    }
    Ok(())
}

/// Reads the fields from `at` on in one pass: refusals 4 to 6. A field has `behind` bytes behind its
/// term.
fn read_lines(frame: &[u8], mut at: usize, behind: usize, most: usize) -> Result<Lines, u8> {
    let mut folded = frame.to_vec();
    let mut lines = Vec::with_capacity(frame.len() / (2 + behind));
    let (mut bad_term, mut zero_count) = (false, false);
    while at < frame.len() {
        let length = frame[at];
        let from = at + 1;
        let to = from + usize::from(length);
        at = to + behind;
        if at > frame.len() {
            return Err(4);
        }
        let mut hash = 2_166_136_261u32;
        for byte in &mut folded[from..to] {
            let plain = FOLDED[usize::from(*byte)];
            bad_term |= plain == 0;
            *byte = plain;
            hash = (hash ^ u32::from(plain)).wrapping_mul(16_777_619);
        }
        bad_term |= length == 0 || length > 36;
        let count = if behind == 4 { word(frame, to) } else { 1 };
        zero_count |= count == 0;
        lines.push(Line {
            at: from as u16,
            length,
            earlier: 0,
            hash,
            count,
        });
    }
    if lines.len() > most {
        return Err(4);
    }
    match (bad_term, zero_count) {
        (true, _) => Err(5),
        (_, true) => Err(6),
        _ => Ok(Lines { folded, lines }),
    }
}

/// Refusal 7. Lines are chained by the last byte of their hash, so that few are compared.
fn has_repeat(read: &mut Lines) -> bool {
    let mut latest = [0u16; 256];
    for place in 0..read.lines.len() {
        let line = &read.lines[place];
        let bucket = line.hash as u8;
        let chain = latest[usize::from(bucket)];
        let mut before = chain;
        while before != 0 {
            let other = &read.lines[usize::from(before) - 1];
            if other.hash == line.hash && read.term(other) == read.term(line) {
                return true;
            }
            before = other.earlier;
        }
        latest[usize::from(bucket)] = place as u16 + 1;
        read.lines[place].earlier = chain;
    }
    false
}

// ---- blocks

fn word(bytes: &[u8], at: usize) -> u32 {
    u32::from_be_bytes([bytes[at], bytes[at + 1], bytes[at + 2], bytes[at + 3]])
}

fn put_word(block: &mut Block, at: usize, number: u32) {
    block[at..at + 4].copy_from_slice(&number.to_be_bytes());
}

/// The fields of a head.
#[derive(Clone, Copy)]
struct Head {
    tail: u32,
    last: u32,
    postings: u32,
    end: usize,
    length: usize,
}

impl Head {
    fn of(block: &Block) -> Head {
        Head {
            tail: word(block, 4),
            last: word(block, 8),
            postings: word(block, 12),
            end: usize::from(block[16]),
            length: usize::from(block[17]),
        }
    }

    /// Whether the tail is used and the write offset in place.
    fn is_in_place(&self, number: u32, used: u32) -> bool {
        let start = if self.tail == number {
            18 + self.length
        } else {
            4
        };
        self.tail < used && start < self.end && self.end <= BLOCK_BYTES
    }
}

/// Writes the fields of a head that a posting changes.
fn put_changing(block: &mut Block, tail: u32, last: u32, postings: u32, end: usize) {
    put_word(block, 4, tail);
    put_word(block, 8, last);
    put_word(block, 12, postings);
    block[16] = end as u8;
}

/// The one or two values of a posting; the second is 0 where there is none.
fn values(gap: u32, count: u32) -> (u64, u64) {
    let (gap, count) = (u64::from(gap), u64::from(count));
    if count < 4 {
        ((gap - 1) * 4 + count, 0)
    } else {
        (gap * 4, count - 3)
    }
}

/// How many bytes code a posting.
fn code_length(gap: u32, count: u32) -> usize {
    let bytes = |value: u64| (70 - value.leading_zeros() as usize) / 7;
    let (first, second) = values(gap, count);
    bytes(first) + bytes(second)
}

/// Writes a posting at `at` and gives the offset past it.
fn put_posting(block: &mut Block, at: usize, gap: u32, count: u32) -> usize {
    let (first, second) = values(gap, count);
    let past = put_value(block, at, first);
    if second == 0 {
        return past;
    }
    put_value(block, past, second)
}

fn put_value(block: &mut Block, mut at: usize, mut value: u64) -> usize {
    while value >= 128 {
        block[at] = value as u8 | 0x80;
        value >>= 7;
        at += 1;
    }
    block[at] = value as u8;
    at + 1
}

// ---- taking a report

/// Where a line goes.
enum Place {
    New(usize),
    Stays(u32, Head),
    Spills(u32, Head),
}

fn take(
    blocks: &mut [Block],
    table: &mut [u32],
    counters: &mut Counters,
    frame: &[u8],
) -> Result<u32, u8> {
    check_head(frame, 1)?;
    let mut read = read_lines(frame, 4, 4, usize::MAX)?;
    if has_repeat(&mut read) {
        return Err(7);
    }
    check_counters(blocks, table, counters)?;
    let number = counters.reports.checked_add(1).ok_or(9)?;
    let (mut terms, mut needed) = (0, 0);
    for line in &read.lines {
        match place_of(blocks, table, counters, line, read.term(line)).ok_or(10)? {
            Place::New(_) => (terms, needed) = (terms + 1, needed + 1),
            Place::Spills(..) => needed += 1,
            Place::Stays(..) => {}
        }
    }
    check_room(blocks, table, counters, terms, needed)?;
    for line in &read.lines {
        write_line(blocks, table, counters, number, line, read.term(line))?;
    }
    counters.reports = number;
    Ok(number)
}

fn capacity(blocks: &[Block]) -> u32 {
    u32::try_from(blocks.len()).unwrap_or(u32::MAX)
}

fn slots(table: &[u32]) -> u32 {
    u32::try_from(table.len()).unwrap_or(u32::MAX)
}

/// Refusal 8.
fn check_counters(blocks: &[Block], table: &[u32], counters: &Counters) -> Result<(), u8> {
    let Counters { used, terms, .. } = *counters;
    if used > capacity(blocks) || terms > slots(table) / 2 || terms > used {
        return Err(8);
    }
    Ok(())
}

/// Refusals 11 and 12.
fn check_room(
    blocks: &[Block],
    table: &[u32],
    counters: &Counters,
    terms: u32,
    needed: u32,
) -> Result<(), u8> {
    if counters.terms + terms > slots(table) / 2 {
        return Err(11);
    }
    if needed > capacity(blocks) - counters.used {
        return Err(12);
    }
    Ok(())
}

/// The head of a term, or the empty slot met; nothing where there is damage.
fn find(
    blocks: &[Block],
    table: &[u32],
    used: u32,
    hash: u32,
    term: &[u8],
) -> Option<Result<u32, usize>> {
    let slots = slots(table);
    if slots == 0 {
        return Some(Err(0));
    }
    let mut slot = (hash % slots) as usize;
    for _ in 0..slots {
        let entry = table[slot];
        if entry == 0 {
            return Some(Err(slot));
        }
        let head = entry - 1;
        if head >= used {
            return None;
        }
        let block = &blocks[head as usize];
        if usize::from(block[17]) == term.len() && &block[18..18 + term.len()] == term {
            return Some(Ok(head));
        }
        slot = if slot + 1 == slots as usize {
            0
        } else {
            slot + 1
        };
    }
    None
}

/// Where a line goes; nothing where there is damage.
fn place_of(
    blocks: &[Block],
    table: &[u32],
    counters: &Counters,
    line: &Line,
    term: &[u8],
) -> Option<Place> {
    let Counters { used, reports, .. } = *counters;
    let number = match find(blocks, table, used, line.hash, term)? {
        Ok(head) => head,
        Err(slot) => return Some(Place::New(slot)),
    };
    let head = Head::of(&blocks[number as usize]);
    if !head.is_in_place(number, used) || head.last > reports || head.postings > reports {
        return None;
    }
    if word(&blocks[head.tail as usize], 0) > reports {
        return None;
    }
    if head.end + code_length(reports + 1 - head.last, line.count) <= BLOCK_BYTES {
        return Some(Place::Stays(number, head));
    }
    Some(Place::Spills(number, head))
}

/// Judges a line afresh and writes it, or gives refusal 13.
fn write_line(
    blocks: &mut [Block],
    table: &mut [u32],
    counters: &mut Counters,
    number: u32,
    line: &Line,
    term: &[u8],
) -> Result<(), u8> {
    let next = counters.used;
    match place_of(blocks, table, counters, line, term).ok_or(13)? {
        Place::Stays(h, head) => {
            let tail = &mut blocks[head.tail as usize];
            let end = put_posting(tail, head.end, number - head.last, line.count);
            let block = &mut blocks[h as usize];
            put_changing(block, head.tail, number, head.postings + 1, end);
        }
        Place::Spills(h, head) => {
            check_room(blocks, table, counters, 0, 1).map_err(|_| 13)?;
            let gap = number - word(&blocks[head.tail as usize], 0);
            put_word(&mut blocks[head.tail as usize], 0, next);
            let end = open_block(&mut blocks[next as usize], 4, number, gap, line.count);
            put_changing(
                &mut blocks[h as usize],
                next,
                number,
                head.postings + 1,
                end,
            );
            counters.used += 1;
        }
        Place::New(slot) => {
            check_room(blocks, table, counters, 1, 1).map_err(|_| 13)?;
            let block = &mut blocks[next as usize];
            let start = 18 + term.len();
            let end = open_block(block, start, number, number, line.count);
            put_changing(block, next, number, 1, end);
            block[17] = line.length;
            block[18..start].copy_from_slice(term);
            table[slot] = next + 1;
            counters.used += 1;
            counters.terms += 1;
        }
    }
    Ok(())
}

/// Clears a block and writes its first number and its first posting.
fn open_block(block: &mut Block, start: usize, number: u32, gap: u32, count: u32) -> usize {
    *block = [0; BLOCK_BYTES];
    put_word(block, 0, number);
    put_posting(block, start, gap, count)
}

// ---- listings

/// A query whose terms are all known and whose chains are all sound.
struct Named {
    start: u32,
    heads: [u32; 8],
    count: usize,
}

/// The heads of the named terms, their chains read whole; nothing where one is unknown.
fn named_heads(
    blocks: &[Block],
    table: &[u32],
    counters: &Counters,
    frame: &[u8],
    kind: u8,
    most: usize,
) -> Result<Option<Named>, u8> {
    check_head(frame, kind)?;
    if frame.len() <= 8 {
        return Err(4);
    }
    let read = read_lines(frame, 8, 0, most)?;
    check_counters(blocks, table, counters)?;
    let Counters { used, reports, .. } = *counters;
    let mut named = Named {
        start: word(frame, 4),
        heads: [0; 8],
        count: 0,
    };
    for line in &read.lines {
        if let Ok(head) = find(blocks, table, used, line.hash, read.term(line)).ok_or(10)? {
            if !is_sound(blocks, used, reports, head) {
                return Err(10);
            }
            named.heads[named.count] = head;
            named.count += 1;
        }
    }
    Ok((named.count == read.lines.len()).then_some(named))
}

/// The gap and the count of the posting at `at` and the offset past it. Codes of one byte, which
/// most are, are told by that byte alone.
#[inline(always)]
fn decode(part: &[u8], at: usize) -> Option<(u32, u32, usize)> {
    let byte = part[at];
    if byte < 128 && byte & 3 != 0 {
        return Some((u32::from(byte >> 2) + 1, u32::from(byte & 3), at + 1));
    }
    decode_long(part, at)
}

fn decode_long(part: &[u8], at: usize) -> Option<(u32, u32, usize)> {
    let (first, at) = decode_value(part, at, 17_179_869_180)?;
    if first & 3 != 0 {
        return Some(((first >> 2) as u32 + 1, first as u32 & 3, at));
    }
    let (second, at) = decode_value(part, at, 4_294_967_292)?;
    Some(((first >> 2) as u32, second as u32 + 3, at))
}

#[inline(always)]
fn decode_value(part: &[u8], at: usize, most: u64) -> Option<(u64, usize)> {
    let mut value = 0;
    for (place, byte) in part.iter().enumerate().skip(at).take(5) {
        value |= u64::from(byte & 0x7F) << (7 * (place - at));
        if *byte < 128 {
            return (*byte != 0 && value <= most).then_some((value, place + 1));
        }
    }
    None
}

/// Reads the chain of a head whole. Only the first number of a block can fall behind the last one of
/// the block before, so that only there this is looked at.
fn is_sound(blocks: &[Block], used: u32, reports: u32, number: u32) -> bool {
    let head = Head::of(&blocks[number as usize]);
    if !head.is_in_place(number, used) {
        return false;
    }
    let (mut at, mut b) = (18 + head.length, number);
    let (mut first, mut last, mut postings) = (0, 0, 0);
    for _ in 0..used {
        if b >= used {
            return false;
        }
        let block = &blocks[b as usize];
        let is_tail = b == head.tail;
        let end = if is_tail { head.end } else { BLOCK_BYTES };
        let Some(read) = read_block(&block[..end], at, is_tail, first, reports) else {
            return false;
        };
        if read.first <= last {
            return false;
        }
        (first, last) = (read.first, read.last);
        postings += read.postings;
        if is_tail {
            return postings == head.postings && last == head.last;
        }
        (b, at) = (word(block, 0), 4);
    }
    false
}

/// What a block holds.
struct Read {
    first: u32,
    last: u32,
    postings: u32,
}

/// Reads the part of one block from `at` on; its first gap counts from `base`. Nothing is given
/// where it has no posting, a code is rejected or a number is over `reports`.
fn read_block(part: &[u8], at: usize, is_tail: bool, base: u32, reports: u32) -> Option<Read> {
    if at >= part.len() {
        return None;
    }
    let (gap, _, mut at) = decode(part, at)?;
    if gap > reports - base {
        return None;
    }
    let first = base + gap;
    let (mut last, mut postings) = (first, 1);
    while at < part.len() && (is_tail || part[at] != 0) {
        let (gap, _, past) = decode(part, at)?;
        if gap > reports - last {
            return None;
        }
        (last, at) = (last + gap, past);
        postings += 1;
    }
    Some(Read {
        first,
        last,
        postings,
    })
}

/// A place in a chain that was found sound, so that nothing is judged again.
#[derive(Clone, Copy)]
struct Cursor<'a> {
    blocks: &'a [Block],
    block: &'a Block,
    /// Where the part of the block ends.
    end: usize,
    at: usize,
    number: u32,
    count: u32,
    /// The first number of the block.
    first: u32,
    tail: u32,
    tail_end: usize,
    is_tail: bool,
}

impl<'a> Cursor<'a> {
    /// The cursor at the first posting of a chain.
    fn at_first(blocks: &'a [Block], number: u32) -> Cursor<'a> {
        let block = &blocks[number as usize];
        let head = Head::of(block);
        let mut cursor = Cursor {
            blocks,
            block,
            end: 0,
            at: 0,
            number: 0,
            count: 0,
            first: 0,
            tail: head.tail,
            tail_end: head.end,
            is_tail: false,
        };
        cursor.open(number, 18 + head.length);
        cursor
    }

    /// Goes to the first posting of a block, whose gap counts from the first number of the block
    /// before.
    fn open(&mut self, number: u32, at: usize) {
        self.block = &self.blocks[number as usize];
        self.is_tail = number == self.tail;
        self.end = if self.is_tail {
            self.tail_end
        } else {
            BLOCK_BYTES
        };
        self.at = at;
        self.number = self.first;
        self.read();
        self.first = self.number;
    }

    /// Reads the posting at the cursor. A sound chain has one there.
    #[inline(always)]
    fn read(&mut self) {
        if let Some((gap, count, past)) = decode(self.block, self.at) {
            self.number += gap;
            self.count = count;
            self.at = past;
        }
    }

    /// Goes one posting on; false at the end of the chain.
    #[inline(always)]
    fn advance(&mut self) -> bool {
        if self.at < self.end && (self.is_tail || self.block[self.at] != 0) {
            self.read();
            return true;
        }
        if self.is_tail {
            return false;
        }
        self.open(word(self.block, 0), 4);
        true
    }

    /// Goes on to the first posting at or past a number; false where there is none.
    #[inline(always)]
    fn seek(&mut self, number: u32) -> bool {
        while self.number < number {
            if !self.advance() {
                return false;
            }
        }
        true
    }
}

fn fill_one(
    blocks: &[Block],
    head: u32,
    start: u32,
    numbers: &mut [u32],
    counts: &mut [u32],
) -> ListAnswer {
    let mut cursor = Cursor::at_first(blocks, head);
    if !cursor.seek(start) {
        return answer(0, false, 0);
    }
    let places = numbers.len().min(counts.len());
    for (filled, (number, count)) in numbers.iter_mut().zip(counts).enumerate() {
        (*number, *count) = (cursor.number, cursor.count);
        if !cursor.advance() {
            return answer(0, false, filled + 1);
        }
    }
    answer(0, true, places)
}

/// The cursor of the first term gives a number, which every other cursor goes on to.
fn fill_all(blocks: &[Block], named: &Named, numbers: &mut [u32]) -> ListAnswer {
    let heads = &named.heads[..named.count];
    let cursors = heads.iter().map(|head| Cursor::at_first(blocks, *head));
    let mut cursors: Vec<Cursor> = cursors.collect();
    let (first, others) = cursors.split_first_mut().expect("a query names a term");
    let mut filled = 0;
    let mut sought = named.start;
    while first.seek(sought) {
        sought = first.number;
        let mut held = true;
        for other in others.iter_mut() {
            if !other.seek(sought) {
                return answer(0, false, filled);
            }
            if other.number > sought {
                // No report before this one holds all terms.
                sought = other.number;
                held = false;
                break;
            }
        }
        if held {
            if filled == numbers.len() {
                return answer(0, true, filled);
            }
            numbers[filled] = sought;
            filled += 1;
            sought = match sought.checked_add(1) {
                Some(next) => next,
                None => return answer(0, false, filled),
            };
        }
    }
    answer(0, false, filled)
}
