//! Questions of sort 1, on hashes, and their answers.

use super::{hex, without_repeats};
use crate::draws::Draws;
use crate::terms;

/// Sort 1: the published byte strings, then strings with other bytes and other lengths.
pub fn fnv_questions() -> Vec<Vec<u8>> {
    let mut payloads: Vec<Vec<u8>> = terms::PUBLISHED_FNV
        .iter()
        .map(|(bytes, _)| bytes.to_vec())
        .collect();
    payloads.push(vec![0x80]);
    payloads.push(vec![0xFF]);
    payloads.push(vec![0xFF; 7]);
    payloads.push(vec![0x00; 40]);
    payloads.push(b"FOOBAR".to_vec());
    payloads.push((0..=255).collect());
    let mut draws = Draws::new(0x0101_2026);
    for length in [1, 2, 3, 5, 8, 13, 21, 34, 36, 55, 89, 144, 300] {
        payloads.push(draws.bytes(length));
    }
    without_repeats(payloads)
}

/// The answer to a question of sort 1.
pub fn fnv_answer(payload: &[u8]) -> String {
    format!("fnv {} {:08x}", hex(payload), terms::fnv1a(payload))
}

#[cfg(test)]
mod tests {
    use super::*;

    #[test]
    fn answers_of_sort_1() {
        assert_eq!(fnv_answer(b""), "fnv - 811c9dc5");
        assert_eq!(fnv_answer(b"foobar"), "fnv 666f6f626172 bf9cf968");
        // A trailing null byte counts, and leading zeros of the hash are written.
        assert_eq!(fnv_answer(b"\0"), "fnv 00 050c5d1f");
    }

    #[test]
    fn sort_1_asks_all_published_strings() {
        let payloads = fnv_questions();
        for (bytes, _) in terms::PUBLISHED_FNV {
            assert!(payloads.iter().any(|payload| payload == bytes));
        }
    }
}
