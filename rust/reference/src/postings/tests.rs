//! Tests of coding and decoding postings.

use super::*;

/// The ten postings that document 01 marks, with their bytes.
const MARKED: [(u32, u32, &[u8]); 10] = [
    (1, 1, &[0x01]),
    (5, 3, &[0x13]),
    (32, 3, &[0x7F]),
    (33, 1, &[0x81, 0x01]),
    (1, 4, &[0x04, 0x01]),
    (31, 4, &[0x7C, 0x01]),
    (32, 4, &[0x80, 0x01, 0x01]),
    (1, 130, &[0x04, 0x7F]),
    (1, 131, &[0x04, 0x80, 0x01]),
    (
        4_294_967_295,
        4_294_967_295,
        &[0xFC, 0xFF, 0xFF, 0xFF, 0x3F, 0xFC, 0xFF, 0xFF, 0xFF, 0x0F],
    ),
];

fn posting(gap: u32, count: u32) -> Posting {
    Posting::new(gap, count).expect("gap and count are not 0")
}

fn assert_decodes(bytes: &[u8], gap: u32, count: u32, length: usize) {
    assert_eq!(
        decode(bytes),
        Some((posting(gap, count), length)),
        "bytes {bytes:02X?}"
    );
}

fn assert_refused(bytes: &[u8]) {
    assert_eq!(decode(bytes), None, "bytes {bytes:02X?}");
}

#[test]
fn marked_postings_are_coded() {
    for (gap, count, bytes) in MARKED {
        assert_eq!(code(posting(gap, count)), bytes, "gap {gap}, count {count}");
    }
}

#[test]
fn marked_postings_are_decoded() {
    for (gap, count, bytes) in MARKED {
        assert_decodes(bytes, gap, count, bytes.len());
    }
}

#[test]
fn marked_single_value() {
    // 12,345 = 96 x 128 + 57; 57 is 39 hexadecimal, B9 with the top bit; 96 is 60 hexadecimal.
    assert_eq!(code_value(12_345), [0xB9, 0x60]);
}

#[test]
fn a_gap_or_count_of_0_is_no_posting() {
    assert_eq!(Posting::new(0, 1), None);
    assert_eq!(Posting::new(1, 0), None);
    assert_eq!(Posting::new(0, 0), None);
}

#[test]
fn limits_are_those_of_the_document() {
    assert_eq!(LARGEST_FIRST, 17_179_869_180);
    assert_eq!(LARGEST_SECOND, 4_294_967_292);
}

#[test]
fn length_of_a_value_by_its_bit_length() {
    // The least and the greatest value of each bit length from 1 to 34. Seven bits go into a
    // byte.
    let lengths = [(7, 1), (14, 2), (21, 3), (28, 4), (34, 5)];
    let mut bits = 1;
    for (last_bits, bytes) in lengths {
        while bits <= last_bits {
            let least = 1u64 << (bits - 1);
            assert_eq!(code_value(least).len(), bytes, "value {least}");
            let greatest = 2 * least - 1;
            assert_eq!(code_value(greatest).len(), bytes, "value {greatest}");
            bits += 1;
        }
    }
    assert_eq!(code_value(0).len(), 1);
}

#[test]
fn values_around_each_power_of_128() {
    assert_eq!(code_value(127), [0x7F]);
    assert_eq!(code_value(128), [0x80, 0x01]);
    assert_eq!(code_value(16_383), [0xFF, 0x7F]);
    assert_eq!(code_value(16_384), [0x80, 0x80, 0x01]);
    assert_eq!(code_value(2_097_151), [0xFF, 0xFF, 0x7F]);
    assert_eq!(code_value(2_097_152), [0x80, 0x80, 0x80, 0x01]);
    assert_eq!(code_value(268_435_455), [0xFF, 0xFF, 0xFF, 0x7F]);
    assert_eq!(code_value(268_435_456), [0x80, 0x80, 0x80, 0x80, 0x01]);
}

#[test]
fn counts_below_4_share_the_value_with_the_gap() {
    // (7 - 1) x 4 + 2 = 26 = 1A hexadecimal.
    assert_eq!(code(posting(7, 2)), [0x1A]);
    // (4,096 - 1) x 4 + 3 = 16,383, the last value of two bytes.
    assert_eq!(code(posting(4_096, 3)), [0xFF, 0x7F]);
    // (4,097 - 1) x 4 + 1 = 16,385 = 1 x 16,384 + 0 x 128 + 1.
    assert_eq!(code(posting(4_097, 1)), [0x81, 0x80, 0x01]);
    // (4,294,967,295 - 1) x 4 + 3 = 17,179,869,179, one below the largest first value FC FF FF
    // FF 3F.
    assert_eq!(
        code(posting(4_294_967_295, 3)),
        [0xFB, 0xFF, 0xFF, 0xFF, 0x3F]
    );
}

#[test]
fn counts_from_4_on_take_a_second_value() {
    // 10 x 4 = 40 = 28 hexadecimal, then 5 - 3 = 2.
    assert_eq!(code(posting(10, 5)), [0x28, 0x02]);
    // 4,095 x 4 = 16,380 = 127 x 128 + 124, then 16,386 - 3 = 16,383.
    assert_eq!(code(posting(4_095, 16_386)), [0xFC, 0x7F, 0xFF, 0x7F]);
    // 4,096 x 4 = 16,384, then 16,387 - 3 = 16,384.
    assert_eq!(
        code(posting(4_096, 16_387)),
        [0x80, 0x80, 0x01, 0x80, 0x80, 0x01]
    );
}

#[test]
fn bytes_after_a_posting_are_not_looked_at() {
    assert_decodes(&[0x13, 0x00], 5, 3, 1);
    assert_decodes(&[0x13, 0xFF], 5, 3, 1);
    assert_decodes(&[0x81, 0x01, 0x80], 33, 1, 2);
    assert_decodes(&[0x04, 0x01, 0x00], 1, 4, 2);
    assert_decodes(&[0x04, 0x80, 0x01, 0x80, 0x80], 1, 131, 3);
}

#[test]
fn cut_codes_are_refused() {
    assert_refused(&[]);
    assert_refused(&[0x81]);
    assert_refused(&[0x04]);
    assert_refused(&[0x04, 0x80]);
    assert_refused(&[0x80, 0x01]);
    assert_refused(&[0xFC, 0xFF, 0xFF, 0xFF]);
    assert_refused(&[0xFC, 0xFF, 0xFF, 0xFF, 0x3F, 0xFC, 0xFF, 0xFF, 0xFF]);
}

#[test]
fn codes_that_are_not_shortest_are_refused() {
    // 1 with a null byte too many, as a first value and as a second value.
    assert_refused(&[0x81, 0x00]);
    assert_refused(&[0x04, 0x81, 0x00]);
    // 4 with a null byte too many, then a sound second value.
    assert_refused(&[0x84, 0x00, 0x01]);
    // 1 in five bytes and in six.
    assert_refused(&[0x81, 0x80, 0x80, 0x80, 0x00]);
    assert_refused(&[0x81, 0x80, 0x80, 0x80, 0x80, 0x00]);
    // 0 in two bytes.
    assert_refused(&[0x80, 0x00]);
}

#[test]
fn null_bytes_are_refused_where_a_value_begins() {
    assert_refused(&[0x00]);
    assert_refused(&[0x00, 0x01]);
    assert_refused(&[0x04, 0x00]);
    assert_refused(&[0x04, 0x00, 0x01]);
}

#[test]
fn first_values_at_their_limit() {
    // 17,179,869,179 = 4,294,967,294 x 4 + 3: gap 4,294,967,295, count 3.
    assert_decodes(&[0xFB, 0xFF, 0xFF, 0xFF, 0x3F], 4_294_967_295, 3, 5);
    // 17,179,869,180 = 4,294,967,295 x 4: a second value follows.
    assert_decodes(&[0xFC, 0xFF, 0xFF, 0xFF, 0x3F, 0x01], 4_294_967_295, 4, 6);
    // 17,179,869,181 to 17,179,869,184.
    assert_refused(&[0xFD, 0xFF, 0xFF, 0xFF, 0x3F]);
    assert_refused(&[0xFE, 0xFF, 0xFF, 0xFF, 0x3F]);
    assert_refused(&[0xFF, 0xFF, 0xFF, 0xFF, 0x3F]);
    assert_refused(&[0x80, 0x80, 0x80, 0x80, 0x40, 0x01]);
    // The largest value of five bytes and the least of six.
    assert_refused(&[0xFF, 0xFF, 0xFF, 0xFF, 0x7F]);
    assert_refused(&[0x80, 0x80, 0x80, 0x80, 0x80, 0x01]);
}

#[test]
fn second_values_at_their_limit() {
    // 4,294,967,291 and 4,294,967,292 are in; 4,294,967,293 and 4,294,967,296 are out.
    assert_decodes(&[0x04, 0xFB, 0xFF, 0xFF, 0xFF, 0x0F], 1, 4_294_967_294, 6);
    assert_decodes(&[0x04, 0xFC, 0xFF, 0xFF, 0xFF, 0x0F], 1, 4_294_967_295, 6);
    assert_refused(&[0x04, 0xFD, 0xFF, 0xFF, 0xFF, 0x0F]);
    assert_refused(&[0x04, 0x80, 0x80, 0x80, 0x80, 0x10]);
    assert_refused(&[0x04, 0x80, 0x80, 0x80, 0x80, 0x80, 0x01]);
}

#[test]
fn long_runs_of_flagged_bytes_are_refused() {
    let mut bytes = vec![0xFF; 80];
    assert_refused(&bytes);
    bytes.push(0x01);
    assert_refused(&bytes);
    bytes.insert(0, 0x04);
    assert_refused(&bytes);
    // Shifted past 64 bits, these bytes could be mistaken for the value 1.
    assert_refused(&[
        0x81, 0x80, 0x80, 0x80, 0x80, 0x80, 0x80, 0x80, 0x80, 0x80, 0x01,
    ]);
}

#[test]
fn decoding_gives_back_what_coding_wrote() {
    for gap in 1..=300 {
        for count in 1..=300 {
            let bytes = code(posting(gap, count));
            assert_decodes(&bytes, gap, count, bytes.len());
        }
    }
}

#[test]
fn all_strings_of_two_bytes() {
    let mut of_one_byte = 0;
    let mut of_two_bytes = 0;
    for bytes in (0..=255u8).flat_map(|first| (0..=255u8).map(move |second| [first, second])) {
        let Some((posting, length)) = decode(&bytes) else {
            continue;
        };
        assert_eq!(code(posting), bytes[..length]);
        match length {
            1 => of_one_byte += 1,
            2 => of_two_bytes += 1,
            _ => panic!("length {length} for {bytes:02X?}"),
        }
    }
    // 1 to 127 without the 31 that 4 divides, each with any byte after it.
    assert_eq!(of_one_byte, 96 * 256);
    // The 31 with a second value of 1 to 127; and 128 to 16,383 without the 4,064 that 4
    // divides.
    assert_eq!(of_two_bytes, 31 * 127 + 16_256 - 4_064);
}
