//! The common CRC-32 (IEEE 802.3, the one of zlib and of Ethernet).

/// The polynomial, its bits in reverse.
const POLYNOMIAL: u32 = 0xEDB8_8320;

/// What each byte does to the lowest eight bits of a CRC.
const STEPS: [u32; 256] = steps();

const fn steps() -> [u32; 256] {
    let mut steps = [0; 256];
    let mut byte = 0;
    while byte < 256 {
        let mut rest = byte as u32;
        let mut bit = 0;
        while bit < 8 {
            rest = (rest >> 1) ^ if rest & 1 == 1 { POLYNOMIAL } else { 0 };
            bit += 1;
        }
        steps[byte] = rest;
        byte += 1;
    }
    steps
}

/// The CRC of some bytes and then these, where `crc` is that of the first. The CRC of no byte is 0.
pub fn go_on(crc: u32, bytes: &[u8]) -> u32 {
    let step = |rest: u32, byte: &u8| (rest >> 8) ^ STEPS[usize::from(rest as u8 ^ byte)];
    !bytes.iter().fold(!crc, step)
}

#[cfg(test)]
mod tests {
    use super::*;

    #[test]
    fn the_published_value() {
        assert_eq!(go_on(0, b"123456789"), 0xCBF4_3926);
    }

    #[test]
    fn going_on_is_taking_all_at_once() {
        for place in 0..=9 {
            let (first, second) = b"123456789".split_at(place);
            assert_eq!(go_on(go_on(0, first), second), 0xCBF4_3926);
        }
    }
}
