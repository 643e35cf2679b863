//! Making frames for questions and tests.
//!
//! Nothing here judges what it is given, so that frames with faults can be made too. The form of a
//! frame is that of the section "Frames" of document 01.

use crate::frames::Call;

/// The frame of a report with these lines.
pub fn report_frame(lines: &[(&[u8], u32)]) -> Vec<u8> {
    framed(&report_body(lines))
}

/// The frame of a query.
pub fn query_frame(call: Call, start: u32, terms: &[&[u8]]) -> Vec<u8> {
    framed(&query_body(call, start, terms))
}

/// A frame with this body, the version and the right length field.
pub fn framed(body: &[u8]) -> Vec<u8> {
    let length = u16::try_from(body.len()).expect("a body has at most 65,535 bytes");
    [&[0x01], &length.to_be_bytes()[..], body].concat()
}

/// A length byte and the term.
pub fn term_field(term: &[u8]) -> Vec<u8> {
    let length = u8::try_from(term.len()).expect("a length byte is at most 255");
    [&[length], term].concat()
}

/// The body of a report.
pub fn report_body(lines: &[(&[u8], u32)]) -> Vec<u8> {
    let mut body = vec![Call::Report.kind()];
    for (term, count) in lines {
        body.extend(term_field(term));
        body.extend(count.to_be_bytes());
    }
    body
}

/// The body of a query.
pub fn query_body(call: Call, start: u32, terms: &[&[u8]]) -> Vec<u8> {
    let mut body = vec![call.kind()];
    body.extend(start.to_be_bytes());
    for term in terms {
        body.extend(term_field(term));
    }
    body
}

#[cfg(test)]
mod tests {
    use super::*;

    /// The frames that document 01 gives as input of the desk program.
    #[test]
    fn frames_of_the_desk_program() {
        let frame = [
            0x01, 0x00, 0x10, 0x01, 0x02, 0x7A, 0x6E, 0x00, 0x00, 0x00, 0x03, 0x03, 0x50, 0x31,
            0x37, 0x00, 0x00, 0x00, 0x01,
        ];
        assert_eq!(report_frame(&[(b"zn", 3), (b"P17", 1)]), frame);
        let frame = [
            0x01, 0x00, 0x08, 0x02, 0x00, 0x00, 0x00, 0x00, 0x02, 0x7A, 0x6E,
        ];
        assert_eq!(query_frame(Call::OneTerm, 0, &[b"zn"]), frame);
        let frame = [
            0x01, 0x00, 0x0C, 0x03, 0x00, 0x00, 0x00, 0x00, 0x02, 0x7A, 0x6E, 0x03, 0x70, 0x31,
            0x37,
        ];
        assert_eq!(query_frame(Call::AllTerms, 0, &[b"zn", b"p17"]), frame);
    }
}
