//! Questions of sorts 2 and 3, on the codes of postings and on decoding them, and their answers.

use super::{hex, joined, number_at, without_repeats};
use crate::draws::Draws;
use crate::postings::{self, Posting, LARGEST_FIRST, LARGEST_SECOND};

/// The gaps and counts of the postings that document 01 marks.
const MARKED_POSTINGS: [(u32, u32); 10] = [
    (1, 1),
    (5, 3),
    (32, 3),
    (33, 1),
    (1, 4),
    (31, 4),
    (32, 4),
    (1, 130),
    (1, 131),
    (u32::MAX, u32::MAX),
];

/// Postings with the other marked cases in them: 12,345 as a first value and as a second value, and
/// the gap of 10 with which report 11 opens a block.
const POSTINGS_OF_OTHER_MARKED_CASES: [(u32, u32); 3] = [(3_087, 1), (1, 12_348), (10, 1)];

/// The powers of 128 at which a value of a posting takes one byte more.
const POWERS_OF_128: [u32; 4] = [128, 16_384, 2_097_152, 268_435_456];

/// Sort 2: the marked postings, those at each change of a code's length, and drawn ones.
pub fn code_questions() -> Vec<Vec<u8>> {
    let mut pairs = MARKED_POSTINGS.to_vec();
    pairs.extend(POSTINGS_OF_OTHER_MARKED_CASES);
    pairs.extend(pairs_around_lengths());
    let mut draws = Draws::new(0x0202_2026);
    for _ in 0..40 {
        let posting = draws.posting();
        pairs.push((posting.gap(), posting.count()));
    }
    let payloads = pairs
        .into_iter()
        .map(|(gap, count)| code_payload(gap, count))
        .collect();
    without_repeats(payloads)
}

/// The payload of a question of sort 2.
pub(super) fn code_payload(gap: u32, count: u32) -> Vec<u8> {
    joined(&[&gap.to_be_bytes(), &count.to_be_bytes()])
}

/// Gaps and counts for which a value lies just below, at or just above a power of 128 or its
/// greatest value.
fn pairs_around_lengths() -> Vec<(u32, u32)> {
    let mut pairs = Vec::new();
    for gap in gaps_around_lengths() {
        for count in [1, 2, 3, 4, u32::MAX] {
            pairs.push((gap, count));
        }
    }
    for count in counts_around_lengths() {
        for gap in [1, 31, 32, u32::MAX] {
            pairs.push((gap, count));
        }
    }
    pairs
}

/// A gap of 128^k / 4 with count 3 gives the value 128^k - 1, and with a count of 4 or more the
/// first value 128^k. The gap one larger with count 1 gives 128^k + 1.
fn gaps_around_lengths() -> Vec<u32> {
    let mut gaps = vec![1, 2];
    for power in POWERS_OF_128 {
        gaps.extend([power / 4 - 1, power / 4, power / 4 + 1]);
    }
    gaps.extend([u32::MAX - 1, u32::MAX]);
    gaps
}

/// A count of 128^k + 3 gives the second value 128^k.
fn counts_around_lengths() -> Vec<u32> {
    let mut counts = vec![5];
    for power in POWERS_OF_128 {
        counts.extend([power + 2, power + 3]);
    }
    counts.push(u32::MAX - 1);
    counts
}

/// The answer to a question of sort 2.
pub fn code_answer(payload: &[u8]) -> String {
    let gap = number_at(payload, 0);
    let count = number_at(payload, 4);
    let posting =
        Posting::new(gap, count).expect("a question of sort 2 has a gap and a count of 1 or more");
    format!("code {gap} {count} {}", hex(&postings::code(posting)))
}

/// Sort 3: sound codes with other bytes after them, and byte strings that are close to codes.
pub fn decode_questions() -> Vec<Vec<u8>> {
    let mut payloads = vec![Vec::new()];
    payloads.extend(null_strings());
    for (gap, count) in MARKED_POSTINGS {
        payloads.extend(changed_codes(gap, count));
    }
    payloads.extend(first_value_strings());
    payloads.extend(second_value_strings());
    payloads.extend(padded_strings());
    payloads.extend(flagged_strings());
    payloads.extend(overlong_strings());
    payloads.extend(drawn_strings());
    without_repeats(payloads)
}

/// Strings with null bytes where a value should begin.
fn null_strings() -> Vec<Vec<u8>> {
    vec![
        vec![0x00],
        vec![0x00, 0x00],
        vec![0x00, 0x01],
        vec![0x00, 0x04, 0x01],
        vec![0x04, 0x00],
        vec![0x04, 0x00, 0x01],
        vec![0x80, 0x01, 0x00],
        vec![0x01, 0x00, 0x00],
    ]
}

/// The code of a posting: whole, cut at each place, with bytes after it, and with a null byte added
/// to a value.
fn changed_codes(gap: u32, count: u32) -> Vec<Vec<u8>> {
    let posting = Posting::new(gap, count).expect("marked postings have no 0");
    let code = postings::code(posting);
    let mut strings = vec![code.clone()];
    for length in 1..code.len() {
        strings.push(code[..length].to_vec());
    }
    for after in [&[0x00][..], &[0x01], &[0xFF], &[0x84, 0x01]] {
        strings.push(joined(&[&code, after]));
    }
    for place in 0..code.len() {
        if code[place] < 0x80 {
            strings.push(with_null_after(&code, place));
        }
    }
    strings
}

/// The code with the last byte of a value, at `place`, flagged and a null byte added after it.
fn with_null_after(code: &[u8], place: usize) -> Vec<u8> {
    joined(&[
        &code[..place],
        &[code[place] | 0x80, 0x00],
        &code[place + 1..],
    ])
}

/// First values around the limits and around each change of length, with and without a second
/// value.
fn first_value_strings() -> Vec<Vec<u8>> {
    let mut strings = Vec::new();
    let mut values = vec![1, 2, 3, 4, 5];
    values.extend(values_around_lengths());
    values.extend(LARGEST_FIRST - 2..=LARGEST_FIRST + 4);
    for value in values {
        let code = postings::code_value(value);
        strings.push(joined(&[&code, &[0x01]]));
        if value % 4 == 0 {
            strings.push(code);
        }
    }
    strings
}

/// Second values around the limits and around each change of length, after the least and the
/// largest first value that needs one.
fn second_value_strings() -> Vec<Vec<u8>> {
    let mut values = vec![1, 2];
    values.extend(values_around_lengths());
    values.extend(LARGEST_SECOND - 1..=LARGEST_SECOND + 4);
    let mut strings = Vec::new();
    for value in values {
        strings.push(joined(&[&[0x04], &postings::code_value(value)]));
    }
    for value in [0, 1, LARGEST_SECOND, LARGEST_SECOND + 1] {
        strings.push(joined(&[
            &postings::code_value(LARGEST_FIRST),
            &postings::code_value(value),
        ]));
    }
    strings
}

/// Values just below, at and just above each power of 128, from one byte to ten.
fn values_around_lengths() -> Vec<u64> {
    let mut values = Vec::new();
    for power in POWERS_OF_128.map(u64::from) {
        values.extend([power - 1, power, power + 1]);
    }
    let six_bytes = 1 << 35;
    values.extend([
        six_bytes - 1,
        six_bytes,
        six_bytes + 1,
        128 * six_bytes,
        u64::MAX,
    ]);
    values
}

/// Values in more bytes than they need, up to six, as a first value and as a second value.
fn padded_strings() -> Vec<Vec<u8>> {
    let mut strings = Vec::new();
    for length in [2, 3, 5, 6] {
        for value in [0x01, 0x04, 0x7F] {
            let padded = padded(value, length);
            strings.push(joined(&[&padded, &[0x01]]));
            strings.push(joined(&[&[0x04], &padded]));
        }
    }
    strings
}

/// A value below 128 in `length` bytes, of which the last is null.
fn padded(value: u8, length: usize) -> Vec<u8> {
    let mut bytes = vec![0x80; length];
    bytes[0] = value | 0x80;
    bytes[length - 1] = 0x00;
    bytes
}

/// Runs of bytes with the top bit set, some without an end and some with one.
fn flagged_strings() -> Vec<Vec<u8>> {
    let mut strings = Vec::new();
    for length in [1, 4, 5, 9, 10, 18, 64] {
        for byte in [0x80, 0xFF] {
            let run = vec![byte; length];
            strings.push(joined(&[&run, &[0x01]]));
            strings.push(joined(&[&run, &[0x00]]));
            strings.push(run);
        }
    }
    strings
}

/// Values far over the limits, as a first value and as a second value. All of them would pass for 1
/// if their highest bits were lost: those from bit 34, 35 or 64 on, for example.
fn overlong_strings() -> Vec<Vec<u8>> {
    let mut strings = vec![vec![0x81, 0x80, 0x80, 0x80, 0x40]];
    for length in [6, 9, 10, 11, 20] {
        for last in [0x01, 0x02] {
            let mut value = vec![0x80; length];
            value[0] = 0x81;
            value[length - 1] = last;
            strings.push(joined(&[&[0x04], &value]));
            strings.push(value);
        }
    }
    strings
}

/// Drawn strings: any bytes; then codes of drawn postings with bytes after them; then such codes
/// cut short.
fn drawn_strings() -> Vec<Vec<u8>> {
    let mut draws = Draws::new(0x0303_2026);
    let mut strings = Vec::new();
    for _ in 0..25 {
        let length = draws.between(2, 12);
        strings.push(draws.bytes(length));
    }
    for _ in 0..20 {
        let code = postings::code(draws.posting());
        let length = draws.between(0, 4);
        strings.push(joined(&[&code, &draws.bytes(length)]));
    }
    for _ in 0..10 {
        let mut code = postings::code(draws.posting());
        code.pop();
        strings.push(code);
    }
    strings
}

/// The answer to a question of sort 3.
pub fn decode_answer(payload: &[u8]) -> String {
    match postings::decode(payload) {
        Some((posting, length)) => {
            format!(
                "decode {} {} {} {length}",
                hex(payload),
                posting.gap(),
                posting.count()
            )
        }
        None => format!("decode {} refused", hex(payload)),
    }
}

#[cfg(test)]
mod tests {
    use super::*;
    use crate::vectors::tests::refused;

    #[test]
    fn answers_of_sort_2() {
        assert_eq!(code_answer(&[0, 0, 0, 1, 0, 0, 0, 1]), "code 1 1 01");
        assert_eq!(
            code_answer(&[0, 0, 0, 1, 0, 0, 0, 131]),
            "code 1 131 048001"
        );
        assert_eq!(
            code_answer(&[0xFF; 8]),
            "code 4294967295 4294967295 fcffffff3ffcffffff0f"
        );
        // 12,345 as a first value, as a second value, and the b-gap of report 11.
        assert_eq!(
            code_answer(&[0, 0, 0x0C, 0x0F, 0, 0, 0, 1]),
            "code 3087 1 b960"
        );
        assert_eq!(
            code_answer(&[0, 0, 0, 1, 0, 0, 0x30, 0x3C]),
            "code 1 12348 04b960"
        );
        assert_eq!(code_answer(&[0, 0, 0, 10, 0, 0, 0, 1]), "code 10 1 25");
    }

    #[test]
    fn answers_of_sort_3() {
        assert_eq!(decode_answer(&[]), "decode - refused");
        assert_eq!(decode_answer(&[0x13, 0x99]), "decode 1399 5 3 1");
        assert_eq!(decode_answer(&[0x80, 0x01, 0x01]), "decode 800101 32 4 3");
        assert_eq!(decode_answer(&[0x81, 0x00]), "decode 8100 refused");
    }

    #[test]
    fn sort_2_asks_for_every_length_of_both_values() {
        // 5 lengths of a value that stands alone; 5 lengths of a first value and 5 of a second make
        // 2 to 10 bytes.
        let lengths: Vec<usize> = code_questions()
            .iter()
            .map(|payload| postings::code(posting_of_question(payload)).len())
            .collect();
        for length in 1..=10 {
            assert!(lengths.contains(&length), "no code of {length} bytes");
        }
    }

    fn posting_of_question(payload: &[u8]) -> Posting {
        Posting::new(number_at(payload, 0), number_at(payload, 4)).expect("no 0 is asked")
    }

    #[test]
    fn sort_3_asks_for_sound_and_refused_strings() {
        let payloads = decode_questions();
        let refused = refused(&payloads, decode_answer);
        assert!(refused >= 80, "{refused} refused");
        assert!(
            payloads.len() - refused >= 80,
            "{} of {} refused",
            refused,
            payloads.len()
        );
    }
}
