//! Questions of sort 4, on terms, and their answers.

use super::{hex, without_repeats};
use crate::draws::Draws;
use crate::terms;

/// Sort 4: every byte alone, strings of many lengths, capitals, barred bytes at different places,
/// and drawn strings.
pub fn term_questions() -> Vec<Vec<u8>> {
    let mut payloads: Vec<Vec<u8>> = (0..=255).map(|byte| vec![byte]).collect();
    for length in [0, 2, 35, 36, 37, 38, 72, 255, 256, 257, 292] {
        payloads.push(vec![b'q'; length]);
    }
    payloads.extend(terms_with_capitals());
    payloads.extend(terms_with_barred_bytes());
    payloads.extend(drawn_terms());
    without_repeats(payloads)
}

/// Terms with capitals and with the bytes next to the letters.
fn terms_with_capitals() -> Vec<Vec<u8>> {
    let terms: [&[u8]; 10] = [
        b"ABCDEFGHIJKLMNOPQRSTUVWXYZ",
        b"abcdefghijklmnopqrstuvwxyz",
        b"AbCdEfGhIjKlMnOpQrStUvWxYz0123456789",
        b"ABCDEFGHIJKLMNOPQRSTUVWXYZ0123456789!",
        b"@AZ[",
        b"`az{",
        b"P17",
        b"p17",
        b"ZN",
        b"!\"#$%&'()*+,-./:;<=>?@[\\]^_`{|}~",
    ];
    terms.iter().map(|term| term.to_vec()).collect()
}

/// Strings of 3 and of 36 bytes with one barred byte at the front, in the middle and at the end.
fn terms_with_barred_bytes() -> Vec<Vec<u8>> {
    let mut strings = Vec::new();
    for barred in [0x00, 0x20, 0x7F, 0x80, 0xC1, 0xFF] {
        for length in [3, 36] {
            for place in [0, length / 2, length - 1] {
                let mut string = vec![b'K'; length];
                string[place] = barred;
                strings.push(string);
            }
        }
    }
    strings
}

/// Drawn strings: allowed bytes in 1 to 39 places, then any bytes in few places.
fn drawn_terms() -> Vec<Vec<u8>> {
    let mut draws = Draws::new(0x0404_2026);
    let mut strings = Vec::new();
    for _ in 0..30 {
        let length = draws.between(1, 39);
        strings.push(draws.term(length));
    }
    for _ in 0..10 {
        let length = draws.between(2, 5);
        strings.push(draws.bytes(length));
    }
    strings
}

/// The answer to a question of sort 4.
pub fn term_answer(payload: &[u8]) -> String {
    match terms::fold_term(payload) {
        Some(folded) => format!(
            "term {} {} {:08x}",
            hex(payload),
            hex(&folded),
            terms::fnv1a(&folded)
        ),
        None => format!("term {} refused", hex(payload)),
    }
}

#[cfg(test)]
mod tests {
    use super::*;
    use crate::vectors::tests::refused;

    #[test]
    fn answers_of_sort_4() {
        assert_eq!(term_answer(b""), "term - refused");
        assert_eq!(term_answer(b"A"), "term 41 61 e40c292c");
        assert_eq!(
            term_answer(b"FooBar"),
            "term 466f6f426172 666f6f626172 bf9cf968"
        );
        assert_eq!(term_answer(b"a b"), "term 612062 refused");
    }

    #[test]
    fn sort_4_asks_every_byte_alone() {
        let payloads = term_questions();
        for byte in 0..=255 {
            assert!(payloads.contains(&vec![byte]));
        }
    }

    #[test]
    fn sort_4_asks_for_terms_and_others() {
        let payloads: Vec<Vec<u8>> = term_questions()
            .into_iter()
            .filter(|payload| payload.len() > 1)
            .collect();
        let refused = refused(&payloads, term_answer);
        assert!(refused >= 40, "{refused} refused");
        assert!(
            payloads.len() - refused >= 40,
            "{} of {} refused",
            refused,
            payloads.len()
        );
    }
}
