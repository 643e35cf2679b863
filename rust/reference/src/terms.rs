//! Terms and their hash, after the last paragraph of the section "Frames" and the section "Finding
//! a term" of document 01.

/// The most bytes that a term has.
pub const LONGEST_TERM: usize = 36;

/// The hash of no bytes.
const OFFSET_BASIS: u32 = 2_166_136_261;

/// What the hash is multiplied by after each byte.
const PRIME: u32 = 16_777_619;

/// The byte that stands for `byte` in a folded term, or nothing if no term may hold `byte`
/// ("Frames").
///
/// Allowed are the bytes 21 to 7E, hexadecimal. Of these only the capitals change.
pub fn fold_byte(byte: u8) -> Option<u8> {
    match byte {
        b'A'..=b'Z' => Some(byte - b'A' + b'a'),
        0x21..=0x7E => Some(byte),
        _ => None,
    }
}

/// The folded form of a term, or nothing if `bytes` are not a term: there must be 1 to 36 bytes and
/// none of them barred ("Frames").
pub fn fold_term(bytes: &[u8]) -> Option<Vec<u8>> {
    if bytes.is_empty() || bytes.len() > LONGEST_TERM {
        return None;
    }
    bytes.iter().map(|byte| fold_byte(*byte)).collect()
}

/// FNV-1a in 32 bits, over the bytes as they stand ("Finding a term"). The index takes it over
/// folded bytes.
pub fn fnv1a(bytes: &[u8]) -> u32 {
    let mut hash = OFFSET_BASIS;
    for byte in bytes {
        hash = (hash ^ u32::from(*byte)).wrapping_mul(PRIME);
    }
    hash
}

/// Byte strings and their 32-bit FNV-1a hashes as published in the test suite of the FNV reference
/// code (`test_fnv.c`). They were not worked out with [`fnv1a`].
pub const PUBLISHED_FNV: [(&[u8], u32); 109] = [
    (b"", 0x811c9dc5),
    (b"a", 0xe40c292c),
    (b"b", 0xe70c2de5),
    (b"c", 0xe60c2c52),
    (b"d", 0xe10c2473),
    (b"e", 0xe00c22e0),
    (b"f", 0xe30c2799),
    (b"fo", 0x6222e842),
    (b"foo", 0xa9f37ed7),
    (b"foob", 0x3f5076ef),
    (b"fooba", 0x39aaa18a),
    (b"foobar", 0xbf9cf968),
    (b"\0", 0x050c5d1f),
    (b"a\0", 0x2b24d044),
    (b"b\0", 0x9d2c3f7f),
    (b"c\0", 0x7729c516),
    (b"d\0", 0xb91d6109),
    (b"e\0", 0x931ae6a0),
    (b"f\0", 0x052255db),
    (b"fo\0", 0xbef39fe6),
    (b"foo\0", 0x6150ac75),
    (b"foob\0", 0x9aab3a3d),
    (b"fooba\0", 0x519c4c3e),
    (b"foobar\0", 0x0c1c9eb8),
    (b"ch", 0x5f299f4e),
    (b"cho", 0xef8580f3),
    (b"chon", 0xac297727),
    (b"chong", 0x4546b9c0),
    (b"chongo", 0xbd564e7d),
    (b"chongo ", 0x6bdd5c67),
    (b"chongo w", 0xdd77ed30),
    (b"chongo wa", 0xf4ca9683),
    (b"chongo was", 0x4aeb9bd0),
    (b"chongo was ", 0xe0e67ad0),
    (b"chongo was h", 0xc2d32fa8),
    (b"chongo was he", 0x7f743fb7),
    (b"chongo was her", 0x6900631f),
    (b"chongo was here", 0xc59c990e),
    (b"chongo was here!", 0x448524fd),
    (b"chongo was here!\n", 0xd49930d5),
    (b"ch\0", 0x1c85c7ca),
    (b"cho\0", 0x0229fe89),
    (b"chon\0", 0x2c469265),
    (b"chong\0", 0xce566940),
    (b"chongo\0", 0x8bdd8ec7),
    (b"chongo \0", 0x34787625),
    (b"chongo w\0", 0xd3ca6290),
    (b"chongo wa\0", 0xddeaf039),
    (b"chongo was\0", 0xc0e64870),
    (b"chongo was \0", 0xdad35570),
    (b"chongo was h\0", 0x5a740578),
    (b"chongo was he\0", 0x5b004d15),
    (b"chongo was her\0", 0x6a9c09cd),
    (b"chongo was here\0", 0x2384f10a),
    (b"chongo was here!\0", 0xda993a47),
    (b"chongo was here!\n\0", 0x8227df4f),
    (b"cu", 0x4c298165),
    (b"cur", 0xfc563735),
    (b"curd", 0x8cb91483),
    (b"curds", 0x775bf5d0),
    (b"curds ", 0xd5c428d0),
    (b"curds a", 0x34cc0ea3),
    (b"curds an", 0xea3b4cb7),
    (b"curds and", 0x8e59f029),
    (b"curds and ", 0x2094de2b),
    (b"curds and w", 0xa65a0ad4),
    (b"curds and wh", 0x9bbee5f4),
    (b"curds and whe", 0xbe836343),
    (b"curds and whey", 0x22d5344e),
    (b"curds and whey\n", 0x19a1470c),
    (b"hi", 0x683af69a),
    (b"hi\0", 0xaed2346e),
    (b"hello", 0x4f9f2cab),
    (b"hello\0", 0x02935131),
    (b"\xff\0\0\x01", 0xc48fb86d),
    (b"\x01\0\0\xff", 0x2269f369),
    (b"\xff\0\0\x02", 0xc18fb3b4),
    (b"\x02\0\0\xff", 0x50ef1236),
    (b"\xff\0\0\x03", 0xc28fb547),
    (b"\x03\0\0\xff", 0x96c3bf47),
    (b"\xff\0\0\x04", 0xbf8fb08e),
    (b"\x04\0\0\xff", 0xf3e4d49c),
    (b"@QND", 0x32179058),
    (b"DNQ@", 0x280bfee6),
    (b"@QNJ", 0x30178d32),
    (b"JNQ@", 0x21addaf8),
    (b"@QNT", 0x4217a988),
    (b"TNQ@", 0x772633d6),
    (b"127.0.0.1", 0x08a3d11e),
    (b"127.0.0.1\0", 0xb7e2323a),
    (b"127.0.0.2", 0x07a3cf8b),
    (b"127.0.0.2\0", 0x91dfb7d1),
    (b"127.0.0.3", 0x06a3cdf8),
    (b"127.0.0.3\0", 0x6bdd3d68),
    (b"64.81.78.68", 0x1d5636a7),
    (b"64.81.78.68\0", 0xd5b808e5),
    (b"64.81.78.74", 0x1353e852),
    (b"64.81.78.74\0", 0xbf16b916),
    (b"64.81.78.84", 0xa55b89ed),
    (b"64.81.78.84\0", 0x3c1a2017),
    (b"feedface", 0x0588b13c),
    (b"feedface\0", 0xf22f0174),
    (b"feedfacedaffdeed", 0xe83641e1),
    (b"feedfacedaffdeed\0", 0x6e69b533),
    (b"feedfacedeadbeef", 0xf1760448),
    (b"feedfacedeadbeef\0", 0x64c8bd58),
    (b"line 1\nline 2\nline 3", 0x97b4ea23),
    (b"chongo <Landon Curt Noll> /\\../\\", 0x9a4e92e6),
    (b"chongo <Landon Curt Noll> /\\../\\\0", 0xcfb14012),
];

#[cfg(test)]
mod tests {
    use super::*;

    #[test]
    fn published_hashes() {
        for (bytes, hash) in PUBLISHED_FNV {
            assert_eq!(fnv1a(bytes), hash, "bytes {bytes:02X?}");
        }
    }

    #[test]
    fn hash_of_one_byte_by_hand() {
        // The lowest byte of the offset basis is C5, and C5 xor 61 is A4, which leaves 81 1C 9D A4
        // hexadecimal.
        let product = 0x811C_9DA4_u64 * 16_777_619;
        assert_eq!(u64::from(fnv1a(b"a")), product % 4_294_967_296);
    }

    #[test]
    fn bytes_at_the_ends_of_the_allowed_range() {
        assert_eq!(fold_byte(0x00), None);
        assert_eq!(fold_byte(0x20), None);
        assert_eq!(fold_byte(0x21), Some(0x21));
        assert_eq!(fold_byte(0x7E), Some(0x7E));
        assert_eq!(fold_byte(0x7F), None);
        assert_eq!(fold_byte(0x80), None);
        assert_eq!(fold_byte(0xFF), None);
    }

    #[test]
    fn capitals_and_their_neighbours() {
        assert_eq!(fold_byte(b'@'), Some(b'@'));
        assert_eq!(fold_byte(b'A'), Some(b'a'));
        assert_eq!(fold_byte(b'M'), Some(b'm'));
        assert_eq!(fold_byte(b'Z'), Some(b'z'));
        assert_eq!(fold_byte(b'['), Some(b'['));
        assert_eq!(fold_byte(b'`'), Some(b'`'));
        assert_eq!(fold_byte(b'a'), Some(b'a'));
        assert_eq!(fold_byte(b'z'), Some(b'z'));
        assert_eq!(fold_byte(b'{'), Some(b'{'));
    }

    #[test]
    fn capitals_with_set_top_bit_are_barred() {
        // C1 is A with the top bit set.
        assert_eq!(fold_byte(0xC1), None);
        assert_eq!(fold_byte(0xDA), None);
    }

    #[test]
    fn number_of_allowed_and_changed_bytes() {
        let allowed = (0..=255u8)
            .filter(|byte| fold_byte(*byte).is_some())
            .count();
        let changed = (0..=255u8)
            .filter(|byte| fold_byte(*byte).is_some_and(|folded| folded != *byte))
            .count();
        // 7E - 21 + 1 = 5E hexadecimal = 94; 26 capitals.
        assert_eq!(allowed, 94);
        assert_eq!(changed, 26);
    }

    #[test]
    fn folding_changes_all_capitals() {
        let folded = fold_term(b"ABCDEFGHIJKLMNOPQRSTUVWXYZ");
        assert_eq!(folded.as_deref(), Some(&b"abcdefghijklmnopqrstuvwxyz"[..]));
        assert_eq!(fold_term(b"P17").as_deref(), Some(&b"p17"[..]));
        assert_eq!(fold_term(b"~!9Zz").as_deref(), Some(&b"~!9zz"[..]));
    }

    #[test]
    fn lengths_of_terms() {
        assert_eq!(fold_term(&[]), None);
        assert_eq!(fold_term(&[b'x'; 1]), Some(vec![b'x'; 1]));
        assert_eq!(fold_term(&[b'X'; 36]), Some(vec![b'x'; 36]));
        assert_eq!(fold_term(&[b'x'; 37]), None);
        assert_eq!(fold_term(&[b'x'; 256 + 5]), None);
    }

    #[test]
    fn one_barred_byte_is_enough() {
        assert_eq!(fold_term(b" ab"), None);
        assert_eq!(fold_term(b"a b"), None);
        assert_eq!(fold_term(b"ab\x7F"), None);
        assert_eq!(fold_term(b"ab\0"), None);
    }
}
