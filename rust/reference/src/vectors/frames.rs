//! Questions of sort 5, on frames, and their answers.

use super::{change, hex, joined, without_repeats, NINE_TERMS};
use crate::compose::{framed, query_body, report_body};
use crate::draws::Draws;
use crate::frames::{self, Call, Meaning};

/// Sort 5: frames with several faults at once, frames at each edge of each rule, long frames and
/// drawn ones.
pub fn frame_questions() -> Vec<Vec<u8>> {
    let mut payloads = Vec::new();
    payloads.extend(faulty_frames());
    payloads.extend(desk_frames());
    payloads.extend(header_frames());
    payloads.extend(length_field_frames());
    payloads.extend(kind_frames());
    payloads.extend(cut_frames());
    payloads.extend(term_number_frames());
    payloads.extend(byte_after_terms_frames());
    payloads.extend(term_length_frames());
    payloads.extend(barred_byte_frames());
    payloads.extend(count_frames());
    payloads.extend(repeat_frames());
    payloads.extend(start_frames());
    payloads.extend(long_frames());
    payloads.extend(drawn_frames());
    without_repeats(payloads)
}

/// The payload of a question of sort 5.
fn frame_payload(call: Call, frame: &[u8]) -> Vec<u8> {
    joined(&[&[call.kind()], frame])
}

/// The payload of a question of sort 5 whose frame has this body and is sound up to its body.
fn body_payload(call: Call, body: &[u8]) -> Vec<u8> {
    frame_payload(call, &framed(body))
}

/// A set of refusals that a frame is made to give cause for. Bit n of the number stands for refusal
/// n.
#[derive(Clone, Copy)]
struct Faults(u8);

impl Faults {
    /// All sets of refusals from `first` to `last`.
    fn all_sets(first: u8, last: u8) -> impl Iterator<Item = Faults> {
        (0..1u8 << (last - first + 1)).map(move |bits| Faults(bits << first))
    }

    /// Whether the refusal of this number belongs to the set.
    fn has(self, number: u8) -> bool {
        self.0 >> number & 1 == 1
    }

    /// Whether a frame with this set is asked for, where `last` is the last refusal it can have.
    /// All sets without refusal 1 are; with it, only those of one, of two and of all refusals.
    fn is_asked(self, last: u8) -> bool {
        let size = (1..=last).filter(|number| self.has(*number)).count();
        !self.has(1) || size <= 2 || size == usize::from(last)
    }
}

/// Frames with sets of the faults that each kind of frame can have.
fn faulty_frames() -> Vec<Vec<u8>> {
    let mut payloads = Vec::new();
    for faults in Faults::all_sets(1, 7).filter(|faults| faults.is_asked(7)) {
        payloads.push(faulty_report(faults, false));
    }
    for faults in Faults::all_sets(4, 7) {
        payloads.push(faulty_report(faults, true));
    }
    for call in [Call::OneTerm, Call::AllTerms] {
        for faults in Faults::all_sets(1, 5).filter(|faults| faults.is_asked(5)) {
            payloads.push(faulty_query(call, faults));
        }
    }
    payloads
}

/// A report with these faults. The fault with the higher number stands in the earlier line, or in
/// the later line if `turned` is set.
fn faulty_report(faults: Faults, turned: bool) -> Vec<u8> {
    let repeated: &[u8] = if faults.has(7) { b"ZN" } else { b"y" };
    let count = if faults.has(6) { 0 } else { 3 };
    let spaced: &[u8] = if faults.has(5) { b"p 7" } else { b"p17" };
    let mut lines = vec![(&b"zn"[..], 4), (repeated, 1), (b"q", count), (spaced, 9)];
    if turned {
        lines.reverse();
    }
    let mut body = report_body(&lines);
    if faults.has(4) {
        body.pop();
    }
    finished(Call::Report, faults, body)
}

/// A query with these faults.
fn faulty_query(call: Call, faults: Faults) -> Vec<u8> {
    let term: &[u8] = if faults.has(5) { b"\x7FZn" } else { b"fZn" };
    let mut body = query_body(call, 2, &[term]);
    if faults.has(4) {
        body.push(1);
    }
    finished(call, faults, body)
}

/// The question with this body, and with faults 1 to 3 if they are in the set: another version, a
/// length field that is 1 too large or too small, and a kind that belongs to no call.
fn finished(call: Call, faults: Faults, mut body: Vec<u8>) -> Vec<u8> {
    if faults.has(3) {
        body[0] = 0x04;
    }
    let mut frame = framed(&body);
    if faults.has(2) {
        frame[2] ^= 1;
    }
    if faults.has(1) {
        frame[0] = 0x02;
    }
    frame_payload(call, &frame)
}

/// The frames that document 01 gives as input of the desk program.
fn desk_frames() -> Vec<Vec<u8>> {
    let one = query_body(Call::OneTerm, 0, &[b"zn"]);
    let all = query_body(Call::AllTerms, 0, &[b"zn", b"p17"]);
    vec![
        body_payload(Call::Report, &report_body(&[(b"zn", 3), (b"P17", 1)])),
        body_payload(Call::Report, &report_body(&[(b"zn", 4)])),
        body_payload(Call::OneTerm, &one),
        body_payload(Call::AllTerms, &all),
    ]
}

/// Frames that are too short, and frames of other versions.
fn header_frames() -> Vec<Vec<u8>> {
    let mut payloads = Vec::new();
    for call in [Call::Report, Call::OneTerm, Call::AllTerms] {
        payloads.push(frame_payload(call, &[]));
        payloads.push(frame_payload(call, &[0x01, 0x00, 0x00]));
    }
    let frames: [&[u8]; 8] = [
        &[0x01],
        &[0x01, 0x00],
        &[0x01, 0x00, 0x01],
        &[0xFF, 0xFF, 0xFF],
        &[0x00, 0x00, 0x01, 0x01],
        &[0x81, 0x00, 0x01, 0x01],
        &[0x10, 0x00, 0x01, 0x01],
        &[0x02, 0xFF, 0xFF, 0x09],
    ];
    payloads.extend(frames.map(|frame| frame_payload(Call::Report, frame)));
    payloads
}

/// Frames with a length field that is not the number of bytes after it.
fn length_field_frames() -> Vec<Vec<u8>> {
    let frames: [&[u8]; 10] = [
        &[0x01, 0x00, 0x00, 0x01],
        &[0x01, 0x00, 0x00, 0x02],
        &[0x01, 0x00, 0x02, 0x01],
        &[0x01, 0x00, 0x01, 0x01, 0x01],
        &[0x01, 0x00, 0x01, 0x01, 0x00],
        &[0x01, 0x01, 0x00, 0x01],
        &[0x01, 0x10, 0x00, 0x01],
        &[0x01, 0x10, 0x01, 0x01],
        &[0x01, 0xFF, 0xFF, 0x01],
        &[0x01, 0x01, 0x01, 0x01],
    ];
    frames
        .iter()
        .map(|frame| frame_payload(Call::Report, frame))
        .collect()
}

/// Bodies of nothing but the kind, and whole bodies brought to another call.
fn kind_frames() -> Vec<Vec<u8>> {
    let mut payloads = Vec::new();
    for call in [Call::Report, Call::OneTerm, Call::AllTerms] {
        for kind in [0x00, 0x01, 0x02, 0x03, 0x04, 0x81, 0xFF] {
            payloads.push(body_payload(call, &[kind]));
        }
        payloads.push(body_payload(call, &report_body(&[(b"a", 1)])));
        payloads.push(body_payload(call, &query_body(Call::OneTerm, 1, &[b"a"])));
        payloads.push(body_payload(call, &query_body(Call::AllTerms, 1, &[b"a"])));
    }
    payloads
}

/// Bodies of each kind cut at each place, and length bytes that pass the end of the body.
fn cut_frames() -> Vec<Vec<u8>> {
    let report = report_body(&[(b"Ab", 16_909_060), (b"c", 5)]);
    let one = query_body(Call::OneTerm, 0x0A0B_0C0D, &[b"xY"]);
    let all = query_body(Call::AllTerms, 3, &[b"xY", b"z"]);
    let mut payloads = Vec::new();
    for (call, body) in [
        (Call::Report, report),
        (Call::OneTerm, one),
        (Call::AllTerms, all),
    ] {
        for length in 1..=body.len() {
            payloads.push(body_payload(call, &body[..length]));
        }
        for length_byte in [37, 255] {
            let long = joined(&[&body, &[length_byte], &[b'a'; 20]]);
            payloads.push(body_payload(call, &long));
        }
    }
    payloads
}

/// Queries with no term, the most terms allowed, and more.
fn term_number_frames() -> Vec<Vec<u8>> {
    let mut payloads = Vec::new();
    for call in [Call::OneTerm, Call::AllTerms] {
        for number in [0, 1, 2, 7, 8, 9] {
            let body = query_body(call, 1, &NINE_TERMS[..number]);
            payloads.push(body_payload(call, &body));
        }
    }
    let mut barred = query_body(Call::AllTerms, 1, &NINE_TERMS);
    barred[6] = 0x20;
    payloads.push(body_payload(Call::AllTerms, &barred));
    payloads.push(body_payload(Call::AllTerms, &barred[..barred.len() - 2]));
    let forty = query_body(Call::AllTerms, 1, &[&b"a"[..]; 40]);
    payloads.push(body_payload(Call::AllTerms, &forty));
    payloads
}

/// Queries with one byte after the last term that is allowed.
fn byte_after_terms_frames() -> Vec<Vec<u8>> {
    let mut payloads = Vec::new();
    for (call, number) in [(Call::OneTerm, 1), (Call::AllTerms, 8)] {
        let body = query_body(call, 1, &NINE_TERMS[..number]);
        for after in [0x00, 0x01, b'a', 0xFF] {
            payloads.push(body_payload(call, &joined(&[&body, &[after]])));
        }
    }
    payloads
}

/// Terms of lengths around the limits, with enough bytes after the length byte.
fn term_length_frames() -> Vec<Vec<u8>> {
    let mut payloads = Vec::new();
    for length in [0, 1, 35, 36, 37, 255] {
        let term = &[b'T'; 255][..length];
        payloads.push(body_payload(Call::Report, &report_body(&[(term, 7)])));
        for call in [Call::OneTerm, Call::AllTerms] {
            payloads.push(body_payload(call, &query_body(call, 7, &[term])));
        }
    }
    let empty_last = report_body(&[(b"a", 1), (b"", 0)]);
    payloads.push(body_payload(Call::Report, &empty_last));
    let empty_twice = report_body(&[(b"", 1), (b"", 1)]);
    payloads.push(body_payload(Call::Report, &empty_twice));
    let empty_second = query_body(Call::AllTerms, 0, &[b"a", b"", b"b"]);
    payloads.push(body_payload(Call::AllTerms, &empty_second));
    payloads
}

/// Terms with a barred byte, and with the allowed bytes next to the barred ones.
fn barred_byte_frames() -> Vec<Vec<u8>> {
    let mut payloads = Vec::new();
    for byte in [0x00, 0x20, 0x21, 0x7E, 0x7F, 0x80, 0xFF] {
        let term = [b'A', byte];
        let report = report_body(&[(b"a", 1), (&term, 1)]);
        let one = query_body(Call::OneTerm, 1, &[&term]);
        let all = query_body(Call::AllTerms, 1, &[b"a", &term]);
        payloads.push(body_payload(Call::Report, &report));
        payloads.push(body_payload(Call::OneTerm, &one));
        payloads.push(body_payload(Call::AllTerms, &all));
    }
    payloads
}

/// Counts around their limits, and counts of 0 at different lines.
fn count_frames() -> Vec<Vec<u8>> {
    let mut payloads = Vec::new();
    for count in [0, 1, 255, 256, 65_536, 16_777_216, 1 << 31, u32::MAX] {
        payloads.push(body_payload(Call::Report, &report_body(&[(b"n", count)])));
    }
    for place in 0..3 {
        let mut lines: [(&[u8], u32); 3] = [(b"a", 1), (b"b", 2), (b"c", 3)];
        lines[place].1 = 0;
        payloads.push(body_payload(Call::Report, &report_body(&lines)));
    }
    payloads
}

/// Reports and queries in which a term stands twice, or in which two terms are close to each other.
fn repeat_frames() -> Vec<Vec<u8>> {
    let lists: [&[&[u8]]; 10] = [
        &[b"a", b"a"],
        &[b"a", b"A"],
        &[b"Zn", b"b", b"c", b"d", b"zN"],
        &[b"b", b"a", b"c", b"a"],
        &[b"x", b"X", b"x"],
        &[b"a", b"aa"],
        &[b"ab", b"ba"],
        &[b"@", b"`"],
        &[b"[", b"{"],
        &[b"!", b"\"", b"0", b"1", b"P", b"q"],
    ];
    let mut payloads = Vec::new();
    for terms in lists {
        let lines: Vec<(&[u8], u32)> = terms.iter().map(|term| (*term, 2)).collect();
        payloads.push(body_payload(Call::Report, &report_body(&lines)));
        let query = query_body(Call::AllTerms, 4, terms);
        payloads.push(body_payload(Call::AllTerms, &query));
    }
    payloads
}

/// Queries with different starts.
fn start_frames() -> Vec<Vec<u8>> {
    let mut payloads = Vec::new();
    for start in [0, 1, 16_909_060, u32::MAX] {
        for call in [Call::OneTerm, Call::AllTerms] {
            payloads.push(body_payload(call, &query_body(call, start, &[b"Start"])));
        }
    }
    payloads
}

/// Frames around the longest body.
fn long_frames() -> Vec<Vec<u8>> {
    let sound = long_report(31, 1);
    let mut short_length = framed(&sound);
    short_length[2] = short_length[2].wrapping_sub(1);
    let mut other_version = framed(&long_report(32, 1));
    other_version[0] = 0x00;
    let mut cut = sound.clone();
    cut[4_096 - 36] += 1;
    let mut query = sound.clone();
    query[0] = Call::AllTerms.kind();
    vec![
        body_payload(Call::Report, &sound),
        body_payload(Call::Report, &long_report(32, 1)),
        body_payload(Call::Report, &long_report(31, 0)),
        body_payload(Call::Report, &with_repeat(&sound)),
        body_payload(Call::Report, &cut),
        body_payload(Call::AllTerms, &query),
        frame_payload(Call::Report, &short_length),
        frame_payload(Call::Report, &other_version),
    ]
}

/// A report of 100 lines. The first 99 have drawn terms of 36 bytes and take 41 bytes each. The
/// last has a term of `length` bytes and this count. With a length of 31 the body has 4,096 bytes.
fn long_report(length: usize, count: u32) -> Vec<u8> {
    let mut draws = Draws::new(0x0505_4096);
    let terms: Vec<Vec<u8>> = (0..99).map(|_| draws.term(36)).collect();
    let mut lines: Vec<(&[u8], u32)> = terms.iter().map(|term| (&term[..], 1)).collect();
    let last = vec![b'l'; length];
    lines.push((&last, count));
    report_body(&lines)
}

/// The long report with the term of line 1, in capitals, put in the place of that of line 99.
fn with_repeat(body: &[u8]) -> Vec<u8> {
    let mut changed = body.to_vec();
    let line_99 = 1 + 98 * 41;
    let capitals = body[2..2 + 36].to_ascii_uppercase();
    changed[line_99 + 1..line_99 + 1 + 36].copy_from_slice(&capitals);
    changed
}

/// Drawn frames, some of them sound and most of them with one change.
fn drawn_frames() -> Vec<Vec<u8>> {
    let mut draws = Draws::new(0x0505_2026);
    let mut payloads = Vec::new();
    for call in [Call::Report, Call::OneTerm, Call::AllTerms] {
        for _ in 0..3 {
            payloads.push(body_payload(call, &drawn_body(&mut draws, call)));
        }
        for _ in 0..5 {
            let mut body = drawn_body(&mut draws, call);
            change(&mut draws, &mut body);
            payloads.push(body_payload(call, &body));
        }
        for _ in 0..3 {
            let mut frame = framed(&drawn_body(&mut draws, call));
            change(&mut draws, &mut frame);
            payloads.push(frame_payload(call, &frame));
        }
    }
    payloads
}

/// A sound body for this call, except that a report may by chance have one term twice.
fn drawn_body(draws: &mut Draws, call: Call) -> Vec<u8> {
    let number = match call {
        Call::OneTerm => 1,
        _ => draws.between(1, 6),
    };
    let terms: Vec<Vec<u8>> = (0..number).map(|_| drawn_term(draws)).collect();
    let terms: Vec<&[u8]> = terms.iter().map(|term| &term[..]).collect();
    match call {
        Call::Report => {
            let lines: Vec<(&[u8], u32)> = terms
                .into_iter()
                .map(|term| (term, draws.number()))
                .collect();
            report_body(&lines)
        }
        _ => query_body(call, draws.number(), &terms),
    }
}

/// A term of 1 to 12 bytes.
fn drawn_term(draws: &mut Draws) -> Vec<u8> {
    let length = draws.between(1, 12);
    draws.term(length)
}

/// The answer to a question of sort 5.
pub fn frame_answer(payload: &[u8]) -> String {
    let call = Call::of_kind(payload[0]).expect("a question of sort 5 names a kind from 1 to 3");
    let frame = &payload[1..];
    let meaning = match frames::read(call, frame) {
        Ok(Meaning::Report(lines)) => {
            let lines = lines
                .iter()
                .map(|line| format!(" {}:{}", hex(&line.term), line.count));
            format!("lines{}", lines.collect::<String>())
        }
        Ok(Meaning::Query { start, terms }) => {
            let terms = terms.iter().map(|term| format!(" {}", hex(term)));
            format!("start {start} terms{}", terms.collect::<String>())
        }
        Err(refusal) => format!("refused {}", refusal.number()),
    };
    format!("frame {} {} {meaning}", call.kind(), hex(frame))
}

#[cfg(test)]
mod tests {
    use super::*;

    #[test]
    fn answers_of_sort_5() {
        assert_eq!(frame_answer(&[1]), "frame 1 - refused 1");
        assert_eq!(frame_answer(&[1, 1, 0, 1, 1]), "frame 1 01000101 lines");
        assert_eq!(frame_answer(&[2, 1, 0, 1, 1]), "frame 2 01000101 refused 3");
        let report = report_body(&[(b"zn", 3), (b"P17", 1)]);
        assert_eq!(
            frame_answer(&body_payload(Call::Report, &report)),
            "frame 1 01001001027a6e000000030350313700000001 lines 7a6e:3 703137:1"
        );
        let one = query_body(Call::OneTerm, u32::MAX, &[b"zn"]);
        assert_eq!(
            frame_answer(&body_payload(Call::OneTerm, &one)),
            "frame 2 01000802ffffffff027a6e start 4294967295 terms 7a6e"
        );
        let all = query_body(Call::AllTerms, 0, &[b"zn", b"p17"]);
        assert_eq!(
            frame_answer(&body_payload(Call::AllTerms, &all)),
            "frame 3 01000c0300000000027a6e03703137 start 0 terms 7a6e 703137"
        );
    }

    /// The number of the refusal in the answer to a question of sort 5, or 0 if there is none.
    fn refusal_number(payload: &[u8]) -> u8 {
        let answer = frame_answer(payload);
        match answer.split_once(" refused ") {
            Some((_, number)) => number.parse().expect("a number stands after the word"),
            None => 0,
        }
    }

    #[test]
    fn of_several_faults_the_lowest_is_named() {
        let lowest = |faults: Faults| (1..=7).find(|number| faults.has(*number)).unwrap_or(0);
        for faults in Faults::all_sets(1, 7) {
            assert_eq!(
                refusal_number(&faulty_report(faults, false)),
                lowest(faults)
            );
            assert_eq!(refusal_number(&faulty_report(faults, true)), lowest(faults));
        }
        for faults in Faults::all_sets(1, 5) {
            assert_eq!(
                refusal_number(&faulty_query(Call::OneTerm, faults)),
                lowest(faults)
            );
            assert_eq!(
                refusal_number(&faulty_query(Call::AllTerms, faults)),
                lowest(faults)
            );
        }
    }

    #[test]
    fn sets_of_faults() {
        assert_eq!(Faults::all_sets(1, 7).count(), 128);
        assert_eq!(Faults::all_sets(4, 7).count(), 16);
        let last = Faults::all_sets(4, 5).last().expect("four sets");
        assert_eq!(
            [3, 4, 5, 6].map(|number| last.has(number)),
            [false, true, true, false]
        );
    }

    #[test]
    fn long_frames_have_the_expected_refusals() {
        let payloads = long_frames();
        let numbers: Vec<u8> = payloads
            .iter()
            .map(|payload| refusal_number(payload))
            .collect();
        assert_eq!(numbers, [0, 2, 6, 7, 4, 4, 2, 1]);
        // 1 for the call, 3 before the body, and the body.
        assert_eq!(payloads[0].len(), 1 + 3 + 4_096);
        assert_eq!(payloads[1].len(), 1 + 3 + 4_097);
    }

    #[test]
    fn sort_5_asks_for_every_refusal_of_every_kind() {
        let payloads = frame_questions();
        for kind in 1..=3 {
            let last = if kind == 1 { 7 } else { 5 };
            for number in 0..=last {
                let asked = payloads
                    .iter()
                    .filter(|payload| payload[0] == kind && refusal_number(payload) == number)
                    .count();
                assert!(asked >= 8, "kind {kind}, refusal {number}: {asked}");
            }
        }
    }
}
