//! The frame builders: against the reference's frames, and the limits against what the library takes.

use reference::compose::{query_frame, report_frame};
use reference::frames::Call;
use report_index::frame::{self, MAX_BODY, MAX_TERM, MAX_TERMS, TERM_BYTES};
use report_index::{Index, Refusal};

fn index() -> Index {
    Index::new(2_000, 4_000)
}

#[test]
fn frames_are_those_of_the_reference() {
    let lines: [(&[u8], u32); 3] = [(b"zn", 3), (b"P17", u32::MAX), (b"", 0)];
    for number in 0..=lines.len() {
        let lines = &lines[..number];
        assert_eq!(frame::report(lines), Ok(report_frame(lines)));
    }
    for from in [0, 1, u32::MAX] {
        let expected = query_frame(Call::OneTerm, from, &[b"zn"]);
        assert_eq!(frame::one(from, "zn"), Ok(expected));
        let expected = query_frame(Call::AllTerms, from, &[b"zn", b"P17"]);
        assert_eq!(frame::all(from, &["zn", "P17"]), Ok(expected));
    }
}

#[test]
fn the_longest_term() {
    let (fits, over) = ("x".repeat(MAX_TERM), "x".repeat(MAX_TERM + 1));
    assert_eq!(index().report(&frame::report(&[(fits, 1)]).unwrap()), Ok(1));
    let refused = index().report(&frame::report(&[(over, 1)]).unwrap());
    assert_eq!(refused, Err(Refusal::Term));
}

#[test]
fn the_bytes_of_a_term() {
    for byte in 0..=u8::MAX {
        let taken = index().report(&frame::report(&[([byte], 1)]).unwrap());
        let expected = if TERM_BYTES.contains(&byte) {
            Ok(1)
        } else {
            Err(Refusal::Term)
        };
        assert_eq!(taken, expected, "byte {byte:02X}");
    }
}

#[test]
fn the_longest_body() {
    // A kind, then lines of 5 bytes beside the term: 409 lines of 10 bytes, and one of 5 or 6.
    let mut lines: Vec<(String, u32)> = (0..409).map(|line| (format!("{line:05}"), 1)).collect();
    lines.push(("".to_string(), 1));
    let frame = frame::report(&lines).unwrap();
    assert_eq!(frame.len(), frame::START_BYTES + MAX_BODY);
    assert_eq!(index().report(&frame), Err(Refusal::Term));
    lines.pop();
    assert_eq!(index().report(&frame::report(&lines).unwrap()), Ok(1));
    lines.push(("x".to_string(), 1));
    assert_eq!(frame::report(&lines), Err(Refusal::Length));
}

#[test]
fn the_most_terms_of_a_query() {
    let terms = ["zn"; MAX_TERMS + 1];
    let most = frame::all(0, &terms[..MAX_TERMS]).unwrap();
    assert!(index().list_all(&most, &mut []).is_ok());
    let over = frame::all(0, &terms).unwrap();
    assert_eq!(index().list_all(&over, &mut []), Err(Refusal::Fields));
    let none = frame::all::<&str>(0, &[]).unwrap();
    assert_eq!(index().list_all(&none, &mut []), Err(Refusal::Fields));
}

#[test]
fn what_no_frame_can_say() {
    let long = "x".repeat(256);
    assert_eq!(frame::report(&[(&long, 0)]), Err(Refusal::Term));
    assert_eq!(frame::one(0, &long), Err(Refusal::Term));
    assert_eq!(frame::all(0, &[&long]), Err(Refusal::Term));
    assert_eq!(frame::all(0, &[&long; 9]), Err(Refusal::Fields));
    assert_eq!(frame::all(0, &[&long; 16]), Err(Refusal::Length));
    assert_eq!(frame::report(&[(&long, 0); 16]), Err(Refusal::Length));
    // A term of 255 bytes can be said, and the library refuses it.
    let said = frame::report(&[("x".repeat(255), 1)]).unwrap();
    assert_eq!(index().report(&said), Err(Refusal::Term));
}
