//! Questions of sort 7, on lists of calls.

use super::{change, joined, without_repeats, LONG_COUNT, NINE_TERMS};
use crate::compose::{framed, query_frame, report_frame};
use crate::draws::Draws;
use crate::frames::Call;

mod answers;

pub use answers::call_answer;

/// Sort 7: lists of calls. Each function gives the lists around one rule.
pub fn call_questions() -> Vec<Vec<u8>> {
    let mut payloads = Vec::new();
    payloads.extend(desk_calls());
    payloads.extend(empty_index_calls());
    payloads.extend(table_size_calls());
    payloads.extend(arena_size_calls());
    payloads.extend(join_calls());
    payloads.extend(wide_gap_calls());
    payloads.extend(refused_frame_calls());
    payloads.extend(slot_calls());
    payloads.extend(start_number_calls());
    payloads.extend(list_length_calls());
    payloads.extend(all_terms_calls());
    payloads.extend(restart_calls());
    payloads.extend(drawn_calls());
    without_repeats(payloads)
}

/// The byte that stands for a start in a list of calls.
const START: u8 = 0;

/// A list of calls while its question is made.
#[derive(Clone)]
struct Calls {
    payload: Vec<u8>,
}

impl Calls {
    /// No calls yet, on an arena of this many blocks, a table of this many entries and lists of
    /// this many places.
    fn on(blocks: u16, entries: u16, places: u8) -> Calls {
        Calls {
            payload: joined(&[&blocks.to_be_bytes(), &entries.to_be_bytes(), &[places]]),
        }
    }

    fn start(mut self) -> Calls {
        self.payload.push(START);
        self
    }

    fn frame(mut self, call: Call, frame: &[u8]) -> Calls {
        let length = u16::try_from(frame.len()).expect("a frame has at most 65,535 bytes");
        self.payload.push(call.kind());
        self.payload.extend(length.to_be_bytes());
        self.payload.extend(frame);
        self
    }

    fn report(self, lines: &[(&[u8], u32)]) -> Calls {
        self.frame(Call::Report, &report_frame(lines))
    }

    /// The same report several times.
    fn reports(self, number: usize, lines: &[(&[u8], u32)]) -> Calls {
        (0..number).fold(self, |calls, _| calls.report(lines))
    }

    fn one(self, start: u32, term: &[u8]) -> Calls {
        self.frame(Call::OneTerm, &query_frame(Call::OneTerm, start, &[term]))
    }

    fn all(self, start: u32, terms: &[&[u8]]) -> Calls {
        self.frame(Call::AllTerms, &query_frame(Call::AllTerms, start, terms))
    }
}

/// The payloads of these lists.
fn payloads_of<const N: usize>(lists: [Calls; N]) -> Vec<Vec<u8>> {
    lists.map(|calls| calls.payload).to_vec()
}

/// The frames that document 01 gives as input of the desk program, on more memory than they need, on
/// exactly as much, and with lists of one place too few.
fn desk_calls() -> Vec<Vec<u8>> {
    let desk = |calls: Calls| {
        calls
            .report(&[(b"zn", 3), (b"P17", 1)])
            .report(&[(b"zn", 4)])
            .one(0, b"zn")
            .all(0, &[b"zn", b"p17"])
    };
    payloads_of([
        desk(Calls::on(12, 24, 16)),
        desk(Calls::on(2, 4, 2)),
        desk(Calls::on(2, 5, 1)),
    ])
}

/// No calls, nothing but starts, and listings and reports without lines where no term is known.
fn empty_index_calls() -> Vec<Vec<u8>> {
    let unknown = |calls: Calls| {
        calls
            .one(0, b"a")
            .report(&[])
            .all(1, &[b"a", b"b"])
            .report(&[])
            .one(2, b"B")
            .start()
            .report(&[])
    };
    payloads_of([
        Calls::on(0, 0, 0),
        Calls::on(1, 3, 1).start().start(),
        unknown(Calls::on(0, 0, 0)),
        unknown(Calls::on(1, 1, 1)),
        unknown(Calls::on(2, 2, 3)),
    ])
}

/// Tables of few entries, which hold none to three terms, with more blocks than are needed.
fn table_size_calls() -> Vec<Vec<u8>> {
    let mut payloads = Vec::new();
    for entries in [0, 1, 2, 3, 4, 5, 7] {
        let calls = Calls::on(6, entries, 4)
            .report(&[(b"a", 1), (b"b", 2), (b"c", 3), (b"d", 4)])
            .report(&[(b"a", 5)])
            .report(&[(b"a", 1), (b"b", 6), (b"c", 7)])
            .report(&[(b"b", 8)])
            .report(&[])
            .report(&[(b"b", 1), (b"c", 9)])
            .report(&[(b"c", 10), (b"a", 3)])
            .one(0, b"a")
            .one(0, b"b")
            .all(0, &[b"a", b"c"]);
        payloads.push(calls.payload);
    }
    payloads
}

/// Arenas of few blocks, with more table entries than are needed. Reports that lack a block for their
/// last line leave nothing behind.
fn arena_size_calls() -> Vec<Vec<u8>> {
    let mut payloads = Vec::new();
    for blocks in [0, 1, 2, 3, 4] {
        let calls = Calls::on(blocks, 24, 4)
            .report(&[(b"e", 1), (b"f", 1), (b"g", 1), (b"h", 1), (b"i", 1)])
            .report(&[(b"a", 2)])
            .report(&[(b"a", 9), (b"b", 1), (b"c", 3)])
            .report(&[(b"b", 200)])
            .report(&[(b"b", 1), (b"a", 1), (b"d", 1)])
            .report(&[(b"b", 7), (b"a", 8)])
            .report(&[(b"c", 5)])
            .all(0, &[b"a", b"b"])
            .one(2, b"c");
        payloads.push(calls.payload);
    }
    payloads
}

/// A term of 36 bytes: its head has room for ten bytes of postings.
const LONG_TERM: &[u8] = b"abcdefghijklmnopqrstuvwxyz0123456789";

/// Chains of several blocks, and reports that lack a block for a join.
fn join_calls() -> Vec<Vec<u8>> {
    let marked = |blocks| {
        Calls::on(blocks, 2, 12)
            .reports(11, &[(LONG_TERM, 1)])
            .report(&[])
            .one(0, LONG_TERM)
            .one(11, LONG_TERM)
    };
    // 6 bytes and 4 fill the head; 5 and 5 do too; after 6 and 3, two more do not fit.
    let exact = |first, second, third| {
        Calls::on(3, 3, 4)
            .report(&[(LONG_TERM, first)])
            .report(&[(LONG_TERM, second)])
            .report(&[(LONG_TERM, third)])
            .report(&[(LONG_TERM, 1)])
            .one(0, LONG_TERM)
    };
    // Both terms need a block in report 2. Two blocks are used.
    let both = |blocks| {
        Calls::on(blocks, 4, 4)
            .report(&[(LONG_TERM, LONG_COUNT), (&[b'~'; 36], LONG_COUNT)])
            .report(&[(LONG_TERM, LONG_COUNT), (&[b'~'; 36], LONG_COUNT)])
            .report(&[(&[b'~'; 36], LONG_COUNT)])
            .report(&[(LONG_TERM, 1), (&[b'~'; 36], 1)])
            .all(0, &[LONG_TERM, &[b'~'; 36]])
    };
    payloads_of([
        marked(2),
        marked(1),
        exact(LONG_COUNT, 16_387, 1),
        exact(2_097_155, 2_097_155, 4),
        exact(LONG_COUNT, 131, 4),
        both(2),
        both(3),
        both(4),
        Calls::on(3, 2, 3).reports(48, &[(b"q", 2)]).one(44, b"q"),
        // Report 48 needs two blocks, and one is left: `x` alone then takes it.
        Calls::on(11, 4, 7)
            .reports(49, &[(b"x", LONG_COUNT), (b"yy", LONG_COUNT)])
            .report(&[(b"x", LONG_COUNT)])
            .report(&[(b"yy", LONG_COUNT)])
            .all(40, &[b"yy", b"x"])
            .one(46, b"x"),
        Calls::on(11, 24, 2)
            .reports(7, &[(b"k", u32::MAX), (&[b'm'; 30], u32::MAX), (b"!!", 2)])
            .one(6, b"!!"),
    ])
}

/// Reports without lines between others, so that gaps take two bytes, in a block and at its front.
fn wide_gap_calls() -> Vec<Vec<u8>> {
    payloads_of([
        Calls::on(3, 2, 5)
            .report(&[(LONG_TERM, LONG_COUNT)])
            .reports(40, &[])
            .report(&[(LONG_TERM, 1)])
            .report(&[(LONG_TERM, 131)])
            .report(&[(LONG_TERM, 1)])
            .one(0, LONG_TERM),
        Calls::on(4, 5, 5)
            .reports(33, &[])
            .report(&[(LONG_TERM, LONG_COUNT), (b"n", 3)])
            .report(&[(LONG_TERM, 16_387), (b"n", 4)])
            .reports(31, &[])
            .report(&[(b"n", 1), (LONG_TERM, 3)])
            .reports(32, &[])
            .report(&[(LONG_TERM, 4), (b"n", 2)])
            .all(34, &[b"n", LONG_TERM])
            .one(35, LONG_TERM),
    ])
}

/// Frames with each fault, between sound ones, on an index that can take reports and on one that
/// can take none.
fn refused_frame_calls() -> Vec<Vec<u8>> {
    let sound = report_frame(&[(b"a", 1)]);
    let one = query_frame(Call::OneTerm, 0, &[b"a"]);
    let all = query_frame(Call::AllTerms, 0, &[b"a", b"b"]);
    let mut reports = Vec::new();
    let mut queries = Vec::new();
    for (blocks, entries) in [(2, 4), (0, 0)] {
        let mut calls = Calls::on(blocks, entries, 3).frame(Call::Report, &sound);
        for frame in faulty_report_frames() {
            calls = calls.frame(Call::Report, &frame);
        }
        calls = calls.frame(Call::OneTerm, &one).frame(Call::Report, &sound);
        reports.push(calls.payload);
        let mut calls = Calls::on(blocks, entries, 3).frame(Call::Report, &sound);
        for (call, frame) in [(Call::OneTerm, &one), (Call::AllTerms, &all)] {
            for changed in faulty_query_frames(frame) {
                calls = calls.frame(call, &changed);
            }
            calls = calls.frame(call, frame);
        }
        queries.push(calls.payload);
    }
    let mut kinds = Calls::on(2, 4, 3);
    for call in [Call::Report, Call::OneTerm, Call::AllTerms] {
        for frame in [&sound, &one, &all, &framed(&[4])] {
            kinds = kinds.frame(call, frame);
        }
    }
    [reports, queries, vec![kinds.payload]].concat()
}

/// Reports with refusals 1 to 7, some of them with a sound line before the fault.
fn faulty_report_frames() -> Vec<Vec<u8>> {
    vec![
        vec![],
        vec![0x01, 0x00, 0x01],
        vec![0x02, 0x00, 0x01, 0x01],
        vec![0x01, 0x00, 0x02, 0x01],
        vec![0x01, 0x10, 0x01, 0x01],
        framed(&[0x02]),
        framed(&[0x01, 1, b'b']),
        report_frame(&[(b"b", 1), (b"", 1)]),
        report_frame(&[(b"b", 1), (b"c c", 1)]),
        report_frame(&[(&[b'b'; 37], 1)]),
        report_frame(&[(b"b", 1), (b"c", 0)]),
        report_frame(&[(b"b", 1), (b"c", 1), (b"B", 1)]),
    ]
}

/// A query with refusals 1 to 5.
fn faulty_query_frames(frame: &[u8]) -> Vec<Vec<u8>> {
    let body = &frame[3..];
    let mut other_version = frame.to_vec();
    other_version[0] = 0x00;
    let mut barred = frame.to_vec();
    barred[9] = 0x7F;
    vec![
        frame[..3].to_vec(),
        other_version,
        joined(&[frame, &[0]]),
        framed(&[0x01]),
        framed(&body[..4]),
        framed(&body[..5]),
        framed(&joined(&[body, &[2, b'x']])),
        barred,
    ]
}

/// Terms that meet in the table. By 8, `c`, `fo` and `hi` leave 2, and `foo` and `foob` leave 7, so
/// that a search goes from the last slot to the first.
fn slot_calls() -> Vec<Vec<u8>> {
    let meeting: [(&[u8], u32); 4] = [(b"fo", 1), (b"c", 2), (b"hi", 3), (b"foob", 4)];
    let from_last: [(&[u8], u32); 4] = [(b"foob", 1), (b"foo", 2), (b"e", 3), (b"f", 4)];
    let letters = b"abcdefghijklm";
    let twelve: Vec<(&[u8], u32)> = letters[..12]
        .chunks(1)
        .map(|letter| (letter, u32::from(letter[0])))
        .collect();
    let full = |blocks, entries| {
        Calls::on(blocks, entries, 3)
            .report(&twelve[..7])
            .report(&twelve[5..])
            .report(&[(b"m", 1)])
            .report(&[(b"l", 1), (b"A", 1)])
            .all(0, &[b"F", b"G"])
            .one(0, b"m")
    };
    let front: [(&[u8], u32); 3] = [(b"Aa", 1), (b"a", 2), (b"aAA", 3)];
    payloads_of([
        Calls::on(5, 8, 3)
            .report(&meeting)
            .report(&meeting[1..])
            .one(0, b"hi")
            .one(0, b"c"),
        Calls::on(5, 8, 3)
            .report(&from_last)
            .report(&from_last[..2])
            .one(2, b"foo")
            .one(0, b"E"),
        Calls::on(5, 9, 3)
            .report(&from_last)
            .report(&meeting)
            .all(0, &[b"foob", b"fo"]),
        full(12, 24),
        full(12, 23),
        full(11, 24),
        Calls::on(4, 11, 3)
            .report(&front)
            .report(&front[..1])
            .one(0, b"AA")
            .all(1, &[b"a", b"aaa"]),
    ])
}

/// Six reports: `a` in all, `b` in the even ones, `c` in report 5.
fn six_reports(calls: Calls) -> Calls {
    calls
        .report(&[(b"a", 1)])
        .report(&[(b"a", 3), (b"b", 4)])
        .report(&[(b"a", 130)])
        .report(&[(b"b", 131), (b"a", 16_386)])
        .report(&[(b"a", 16_387), (b"c", u32::MAX)])
        .report(&[(b"a", u32::MAX - 1), (b"B", 268_435_458)])
}

/// Listings from each start.
fn start_number_calls() -> Vec<Vec<u8>> {
    let mut one = six_reports(Calls::on(3, 6, 9));
    let mut all = one.clone();
    for start in [0, 1, 2, 3, 5, 6, 7, 8, 256, u32::MAX] {
        one = one.one(start, b"a");
        all = all.all(start, &[b"a", b"b"]);
    }
    payloads_of([one, all])
}

/// Lists of each length, with fewer, as many and more places than there are reports.
fn list_length_calls() -> Vec<Vec<u8>> {
    let mut payloads = Vec::new();
    for places in [0, 1, 2, 3, 6, 7, 255] {
        let calls = six_reports(Calls::on(3, 6, places))
            .one(0, b"a")
            .one(2, b"a")
            .one(6, b"a")
            .one(7, b"a")
            .all(0, &[b"b"])
            .all(3, &[b"a", b"b"])
            .all(0, &[b"a", b"c"])
            .one(0, b"x");
        payloads.push(calls.payload);
    }
    payloads
}

/// Queries for several terms, some of them unknown or named twice.
fn all_terms_calls() -> Vec<Vec<u8>> {
    let named_twice = six_reports(Calls::on(3, 6, 4))
        .all(0, &[b"b", b"b"])
        .all(0, &[b"c", b"A", b"C", b"a"])
        .all(0, &[b"b", b"a", b"B", b"A", b"b", b"a", b"B", b"A"])
        .all(0, &[b"x", b"x"]);
    let unknown = six_reports(Calls::on(3, 6, 4))
        .all(0, &[b"x", b"a"])
        .all(0, &[b"a", b"x"])
        .all(0, &[b"b", b"x", b"c"])
        .all(0, &[b"b", b"c"])
        .all(0, &[b"aa"])
        .one(0, b"ab");
    let eight: Vec<&[u8]> = NINE_TERMS[..8].to_vec();
    let lines: Vec<(&[u8], u32)> = eight.iter().map(|term| (*term, 1)).collect();
    let many = Calls::on(9, 16, 3)
        .report(&lines)
        .report(&lines[1..])
        .report(&lines)
        .report(&lines[..7])
        .report(&lines)
        .all(0, &eight)
        .all(2, &eight[1..])
        .all(0, &NINE_TERMS);
    payloads_of([named_twice, unknown, many])
}

/// Calls after a second start. The blocks keep what they held until they are taken again.
fn restart_calls() -> Vec<Vec<u8>> {
    let long_before = Calls::on(3, 4, 4)
        .reports(12, &[(LONG_TERM, 130)])
        .start()
        .one(0, LONG_TERM)
        .report(&[(b"s", 1)])
        .report(&[(b"s", 2), (LONG_TERM, 3)])
        .one(0, b"s");
    let full_before = Calls::on(2, 4, 4)
        .report(&[(b"a", 1), (b"b", 1)])
        .report(&[(b"c", 1)])
        .start()
        .report(&[(b"c", 1)])
        .report(&[(b"c", 2), (b"a", 3)])
        .report(&[(b"b", 3)])
        .all(0, &[b"a", b"c"]);
    let ended = six_reports(Calls::on(3, 6, 4)).start();
    payloads_of([long_before, full_before, ended])
}

/// Drawn calls, mostly reports, on drawn memory with few terms.
fn drawn_calls() -> Vec<Vec<u8>> {
    let mut draws = Draws::new(0x0707_2026);
    let mut payloads = Vec::new();
    for _ in 0..8 {
        let blocks = draws.between(1, 12) as u16;
        let entries = draws.between(2, 24) as u16;
        let mut calls = Calls::on(blocks, entries, draws.below(7) as u8);
        let words: Vec<Vec<u8>> = (0..draws.between(1, 5))
            .map(|_| drawn_word(&mut draws))
            .collect();
        for number in 0..draws.between(20, 34) {
            calls = drawn_call(&mut draws, calls, &words, number as u64);
        }
        payloads.push(calls.payload);
    }
    payloads
}

/// A term of 1 to 4 or of 30 to 36 bytes.
fn drawn_word(draws: &mut Draws) -> Vec<u8> {
    let length = match draws.below(4) {
        0 => draws.between(30, 36),
        _ => draws.between(1, 4),
    };
    draws.term(length)
}

/// Adds a drawn call. A report may have one term twice, and seldom a frame has a changed byte.
fn drawn_call(draws: &mut Draws, calls: Calls, words: &[Vec<u8>], number: u64) -> Calls {
    let call = match draws.below(9) {
        0 => Call::OneTerm,
        1 => Call::AllTerms,
        2 if draws.below(6) == 0 => return calls.start(),
        _ => Call::Report,
    };
    let most = if call == Call::OneTerm {
        1
    } else {
        words.len().min(3)
    };
    let first = draws.between(0, words.len() - 1);
    let terms = words
        .iter()
        .cycle()
        .skip(first)
        .take(draws.between(1, most));
    let terms: Vec<&[u8]> = terms.map(|word| &word[..]).collect();
    let mut frame = match call {
        Call::Report => {
            let lines = terms.iter().map(|term| (*term, draws.posting().count()));
            report_frame(&lines.collect::<Vec<_>>())
        }
        _ => query_frame(call, draws.below(number + 1) as u32, &terms),
    };
    if draws.below(25) == 0 {
        change(draws, &mut frame);
    }
    calls.frame(call, &frame)
}

#[cfg(test)]
mod tests;
