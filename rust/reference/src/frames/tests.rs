//! Tests of reading frames and of each refusal of a frame.

use super::*;

/// A frame with this body, its length field and the version.
fn framed(body: &[u8]) -> Vec<u8> {
    let length = u16::try_from(body.len()).expect("a short body");
    [&[0x01], &length.to_be_bytes()[..], body].concat()
}

fn line(term: &[u8], count: u32) -> Line {
    Line {
        term: term.to_vec(),
        count,
    }
}

fn assert_report(frame: &[u8], lines: &[Line]) {
    let meaning = Meaning::Report(lines.to_vec());
    assert_eq!(read(Call::Report, frame), Ok(meaning), "{frame:02X?}");
}

fn assert_query(call: Call, frame: &[u8], start: u32, terms: &[&[u8]]) {
    let terms = terms.iter().map(|term| term.to_vec()).collect();
    let meaning = Meaning::Query { start, terms };
    assert_eq!(read(call, frame), Ok(meaning), "{frame:02X?}");
}

fn assert_refused(call: Call, frame: &[u8], number: u8) {
    let refusal = read(call, frame).map_err(Refusal::number);
    assert_eq!(refusal, Err(number), "{frame:02X?}");
}

#[test]
fn numbers_of_refusals() {
    let refusals = [
        Refusal::Header,
        Refusal::Length,
        Refusal::Kind,
        Refusal::Fields,
        Refusal::Term,
        Refusal::Count,
        Refusal::Repeat,
    ];
    assert_eq!(refusals.map(Refusal::number), [1, 2, 3, 4, 5, 6, 7]);
}

#[test]
fn calls_and_kinds() {
    assert_eq!(Call::of_kind(0), None);
    assert_eq!(Call::of_kind(4), None);
    assert_eq!(Call::of_kind(0x81), None);
    for (kind, call) in [(1, Call::Report), (2, Call::OneTerm), (3, Call::AllTerms)] {
        assert_eq!(Call::of_kind(kind), Some(call));
        assert_eq!(call.kind(), kind);
    }
}

/// The four frames that document 01 gives as input of the desk program.
#[test]
fn frames_of_the_desk_program() {
    let frame = [
        0x01, 0x00, 0x10, 0x01, 0x02, 0x7A, 0x6E, 0x00, 0x00, 0x00, 0x03, 0x03, 0x50, 0x31, 0x37,
        0x00, 0x00, 0x00, 0x01,
    ];
    assert_report(&frame, &[line(b"zn", 3), line(b"p17", 1)]);
    let frame = [
        0x01, 0x00, 0x08, 0x01, 0x02, 0x7A, 0x6E, 0x00, 0x00, 0x00, 0x04,
    ];
    assert_report(&frame, &[line(b"zn", 4)]);
    let frame = [
        0x01, 0x00, 0x08, 0x02, 0x00, 0x00, 0x00, 0x00, 0x02, 0x7A, 0x6E,
    ];
    assert_query(Call::OneTerm, &frame, 0, &[b"zn"]);
    let frame = [
        0x01, 0x00, 0x0C, 0x03, 0x00, 0x00, 0x00, 0x00, 0x02, 0x7A, 0x6E, 0x03, 0x70, 0x31, 0x37,
    ];
    assert_query(Call::AllTerms, &frame, 0, &[b"zn", b"p17"]);
}

#[test]
fn a_report_may_have_no_lines() {
    assert_report(&[0x01, 0x00, 0x01, 0x01], &[]);
}

#[test]
fn refusal_1_for_short_frames_whatever_they_hold() {
    for call in [Call::Report, Call::OneTerm, Call::AllTerms] {
        assert_refused(call, &[], 1);
        assert_refused(call, &[0x01], 1);
        assert_refused(call, &[0x01, 0x00], 1);
        assert_refused(call, &[0x01, 0x00, 0x00], 1);
        assert_refused(call, &[0x01, 0xFF, 0xFF], 1);
    }
}

#[test]
fn refusal_1_for_other_versions() {
    assert_refused(Call::Report, &[0x00, 0x00, 0x01, 0x01], 1);
    assert_refused(Call::Report, &[0x02, 0x00, 0x01, 0x01], 1);
    assert_refused(Call::Report, &[0x81, 0x00, 0x01, 0x01], 1);
    // The length field and the kind are wrong too.
    assert_refused(Call::Report, &[0x02, 0xFF, 0xFF, 0x09], 1);
}

#[test]
fn refusal_2_for_wrong_lengths() {
    assert_refused(Call::Report, &[0x01, 0x00, 0x00, 0x01], 2);
    assert_refused(Call::Report, &[0x01, 0x00, 0x02, 0x01], 2);
    assert_refused(Call::Report, &[0x01, 0x00, 0x01, 0x01, 0x01], 2);
    // The length field with its bytes the other way round.
    assert_refused(Call::Report, &[0x01, 0x01, 0x00, 0x01], 2);
    // The kind is wrong too.
    assert_refused(Call::Report, &[0x01, 0x00, 0x02, 0x02], 2);
}

#[test]
fn longest_body() {
    // 1 for the kind, 99 lines of 1 + 36 + 4 and one of 1 + 31 + 4: 1 + 4,059 + 36 = 4,096.
    let body = long_report(31);
    assert_eq!(body.len(), 4_096);
    let meaning = read(Call::Report, &framed(&body));
    assert!(matches!(meaning, Ok(Meaning::Report(lines)) if lines.len() == 100));
    // One byte more, in lines that are sound.
    let body = long_report(32);
    assert_eq!(body.len(), 4_097);
    assert_refused(Call::Report, &framed(&body), 2);
}

/// A body with 99 lines of 36 bytes that end in their number, and a last line of `last` bytes.
fn long_report(last: usize) -> Vec<u8> {
    let mut body = vec![0x01];
    for number in 0..99 {
        body.push(36);
        body.extend(format!("{number:036}").bytes());
        body.extend([0, 0, 0, 1]);
    }
    body.push(last as u8);
    body.extend(vec![b'x'; last]);
    body.extend([0, 0, 0, 1]);
    body
}

#[test]
fn refusal_3_for_other_kinds() {
    let report = framed(&[0x01]);
    assert_refused(Call::OneTerm, &report, 3);
    assert_refused(Call::AllTerms, &report, 3);
    let query = framed(&[0x02, 0, 0, 0, 0, 1, b'a']);
    assert_refused(Call::Report, &query, 3);
    assert_refused(Call::AllTerms, &query, 3);
    for kind in [0x00, 0x04, 0x81, 0xFF] {
        assert_refused(Call::Report, &framed(&[kind]), 3);
    }
    // The fields that would follow kind 02 are cut, but the kind is judged first.
    assert_refused(Call::Report, &framed(&[0x02, 0]), 3);
}

#[test]
fn refusal_4_for_cut_lines() {
    // A whole line, then a line cut at each place.
    let body = [0x01, 1, b'a', 0, 0, 0, 1, 2, b'b', b'c', 0, 0, 0, 1];
    assert_report(&framed(&body), &[line(b"a", 1), line(b"bc", 1)]);
    assert_report(&framed(&body[..7]), &[line(b"a", 1)]);
    for length in 8..14 {
        assert_refused(Call::Report, &framed(&body[..length]), 4);
    }
}

#[test]
fn refusal_4_for_cut_queries() {
    let body = [0x02, 0, 0, 0, 1, 2, b'b', b'c'];
    assert_query(Call::OneTerm, &framed(&body), 1, &[b"bc"]);
    for length in 1..8 {
        assert_refused(Call::OneTerm, &framed(&body[..length]), 4);
    }
    let body = [0x03, 0, 0, 0, 1, 1, b'a', 2, b'b', b'c'];
    assert_query(Call::AllTerms, &framed(&body), 1, &[b"a", b"bc"]);
    assert_query(Call::AllTerms, &framed(&body[..7]), 1, &[b"a"]);
    for length in [1, 2, 3, 4, 5, 6, 8, 9] {
        assert_refused(Call::AllTerms, &framed(&body[..length]), 4);
    }
}

#[test]
fn refusal_4_for_bytes_after_the_one_term() {
    assert_refused(Call::OneTerm, &framed(&[0x02, 0, 0, 0, 0, 1, b'a', 0]), 4);
    assert_refused(Call::OneTerm, &framed(&[0x02, 0, 0, 0, 0, 1, b'a', 9]), 4);
    let second_term = [0x02, 0, 0, 0, 0, 1, b'a', 1, b'b'];
    assert_refused(Call::OneTerm, &framed(&second_term), 4);
}

#[test]
fn refusal_4_for_nine_terms() {
    let eight = [&[0x03, 0, 0, 0, 0][..], &[1, b'a'].repeat(8)].concat();
    assert_query(Call::AllTerms, &framed(&eight), 0, &[&b"a"[..]; 8]);
    let nine = [&eight[..], &[1, b'b']].concat();
    assert_refused(Call::AllTerms, &framed(&nine), 4);
    // A barred byte in the first of nine terms: the number of terms is judged first.
    let mut barred = nine.clone();
    barred[6] = b' ';
    assert_refused(Call::AllTerms, &framed(&barred), 4);
    barred.truncate(eight.len());
    assert_refused(Call::AllTerms, &framed(&barred), 5);
}

#[test]
fn refusal_5_for_lengths_of_terms() {
    for (length, sound) in [(0, false), (1, true), (36, true), (37, false), (255, false)] {
        let term = vec![b't'; usize::from(length)];
        let report = [&[0x01, length][..], &term, &[0, 0, 0, 1]].concat();
        let one = [&[0x02, 0, 0, 0, 0, length][..], &term].concat();
        let all = [&[0x03, 0, 0, 0, 0, length][..], &term].concat();
        if sound {
            assert_report(&framed(&report), &[line(&term, 1)]);
            assert_query(Call::OneTerm, &framed(&one), 0, &[&term]);
            assert_query(Call::AllTerms, &framed(&all), 0, &[&term]);
        } else {
            assert_refused(Call::Report, &framed(&report), 5);
            assert_refused(Call::OneTerm, &framed(&one), 5);
            assert_refused(Call::AllTerms, &framed(&all), 5);
        }
    }
}

#[test]
fn refusal_5_for_barred_bytes() {
    for barred in [0x00, 0x20, 0x7F, 0x80, 0xFF] {
        let report = [0x01, 2, b'a', barred, 0, 0, 0, 1];
        assert_refused(Call::Report, &framed(&report), 5);
        let one = [0x02, 0, 0, 0, 0, 2, b'a', barred];
        assert_refused(Call::OneTerm, &framed(&one), 5);
        let all = [0x03, 0, 0, 0, 0, 1, b'b', 2, b'a', barred];
        assert_refused(Call::AllTerms, &framed(&all), 5);
    }
}

#[test]
fn lengths_cut_the_body_before_they_are_judged() {
    // A first line of no bytes, then a cut line.
    assert_refused(Call::Report, &framed(&[0x01, 0, 0, 0, 0, 1, 1]), 4);
    // A length of 255 with 5 bytes after it.
    assert_refused(Call::Report, &framed(&[0x01, 255, b'a', 0, 0, 0, 1]), 4);
}

#[test]
fn counts_and_refusal_6() {
    let body = [0x01, 1, b'a', 0, 0, 0, 0];
    assert_refused(Call::Report, &framed(&body), 6);
    for (field, count) in [
        ([0, 0, 0, 1], 1),
        ([0, 0, 1, 0], 256),
        ([1, 0, 0, 0], 16_777_216),
        ([1, 2, 3, 4], 16_909_060),
        ([0xFF; 4], 4_294_967_295),
    ] {
        let body = [&[0x01, 1, b'a'][..], &field].concat();
        assert_report(&framed(&body), &[line(b"a", count)]);
    }
}

#[test]
fn refusal_7_for_terms_that_fold_to_one() {
    let same = [0x01, 1, b'a', 0, 0, 0, 1, 1, b'a', 0, 0, 0, 1];
    assert_refused(Call::Report, &framed(&same), 7);
    let capital = [0x01, 1, b'a', 0, 0, 0, 1, 1, b'A', 0, 0, 0, 1];
    assert_refused(Call::Report, &framed(&capital), 7);
    // First and last of three lines.
    let far = [
        0x01, 1, b'Z', 0, 0, 0, 1, 1, b'a', 0, 0, 0, 1, 1, b'z', 0, 0, 0, 1,
    ];
    assert_refused(Call::Report, &framed(&far), 7);
    // The bytes @ and ` differ in the same bit as A and a, but they are not letters.
    let others = [0x01, 1, b'@', 0, 0, 0, 1, 1, b'`', 0, 0, 0, 1];
    assert_report(&framed(&others), &[line(b"@", 1), line(b"`", 1)]);
    // One term is the front of the other.
    let front = [0x01, 1, b'a', 0, 0, 0, 1, 2, b'a', b'a', 0, 0, 0, 1];
    assert_report(&framed(&front), &[line(b"a", 1), line(b"aa", 1)]);
}

#[test]
fn a_query_may_name_a_term_twice() {
    let body = [0x03, 0, 0, 0, 7, 1, b'a', 1, b'A'];
    assert_query(Call::AllTerms, &framed(&body), 7, &[b"a", b"a"]);
}

#[test]
fn starts() {
    for (field, start) in [
        ([0, 0, 0, 0], 0),
        ([0, 0, 0, 1], 1),
        ([1, 2, 3, 4], 16_909_060),
        ([0xFF; 4], 4_294_967_295),
    ] {
        let body = [&[0x02][..], &field, &[1, b'Q']].concat();
        assert_query(Call::OneTerm, &framed(&body), start, &[b"q"]);
    }
}

#[test]
fn each_refusal_is_judged_over_all_lines_before_the_next() {
    // Lines 1 and 2 have one term, line 3 has a count of 0, line 4 a barred byte, line 5 is
    // cut.
    let mut body = vec![0x01, 1, b'a', 0, 0, 0, 1, 1, b'a', 0, 0, 0, 1];
    assert_refused(Call::Report, &framed(&body), 7);
    body.extend([1, b'b', 0, 0, 0, 0]);
    assert_refused(Call::Report, &framed(&body), 6);
    body.extend([1, b' ', 0, 0, 0, 1]);
    assert_refused(Call::Report, &framed(&body), 5);
    body.push(1);
    assert_refused(Call::Report, &framed(&body), 4);
    assert_refused(Call::OneTerm, &framed(&body), 3);
    let mut frame = framed(&body);
    frame.push(0);
    assert_refused(Call::OneTerm, &frame, 2);
    frame[0] = 0;
    assert_refused(Call::OneTerm, &frame, 1);
}
