//! Coding and decoding one posting, after the section "Coding a posting" of document 01.
//!
//! A posting becomes one or two values, and each value becomes one to five bytes.

/// From this count on, a posting takes two values instead of one. The source document calls it F.
const F: u64 = 4;

/// The largest gap and the largest count.
const LARGEST: u64 = 4_294_967_295;

/// The largest first value that decoding accepts: that of the largest gap with a count of 4 or
/// more.
pub const LARGEST_FIRST: u64 = LARGEST * F;

/// The largest second value that decoding accepts: that of the largest count.
pub const LARGEST_SECOND: u64 = LARGEST - (F - 1);

/// The most bytes that a value within the limits takes: five groups of seven bits hold 35 bits, and
/// [`LARGEST_FIRST`] has 34.
const MOST_BYTES: usize = 5;

/// The bit of a byte that tells that another byte of the same value follows.
const MORE: u8 = 0x80;

/// A gap and a count, both from 1 to 4,294,967,295.
#[derive(Debug, Clone, Copy, PartialEq, Eq)]
pub struct Posting {
    gap: u32,
    count: u32,
}

impl Posting {
    /// The posting with this gap and count, or nothing if one of them is 0.
    pub fn new(gap: u32, count: u32) -> Option<Posting> {
        if gap == 0 || count == 0 {
            return None;
        }
        Some(Posting { gap, count })
    }

    /// The gap.
    pub fn gap(&self) -> u32 {
        self.gap
    }

    /// The count.
    pub fn count(&self) -> u32 {
        self.count
    }
}

/// The bytes of a posting ("Coding a posting").
///
/// A count of 1, 2 or 3 shares one value with the gap. That value is never divisible by 4. A larger
/// count leaves the first value divisible by 4 and goes into a second value.
pub fn code(posting: Posting) -> Vec<u8> {
    let gap = u64::from(posting.gap);
    let count = u64::from(posting.count);
    if count < F {
        return code_value((gap - 1) * F + count);
    }
    let mut bytes = code_value(gap * F);
    bytes.extend(code_value(count - (F - 1)));
    bytes
}

/// The bytes of one value: seven bits in each byte, the lowest seven first, the top bit set in all
/// bytes but the last ("Coding a posting").
///
/// It takes any value, also one that no posting has, so that codes outside the limits of decoding
/// can be made too.
pub fn code_value(value: u64) -> Vec<u8> {
    let mut bytes = Vec::new();
    let mut rest = value;
    while rest >= 128 {
        bytes.push((rest % 128) as u8 | MORE);
        rest /= 128;
    }
    bytes.push(rest as u8);
    bytes
}

/// The posting at the front of `bytes` and the number of bytes it takes, or nothing if no sound
/// posting stands there ("Coding a posting", the paragraph on decoding). Bytes after the posting
/// are not looked at.
pub fn decode(bytes: &[u8]) -> Option<(Posting, usize)> {
    let (first, first_length) = decode_value(bytes, LARGEST_FIRST)?;
    if first % F != 0 {
        let gap = first / F + 1;
        let count = first % F;
        return Some((posting_of(gap, count)?, first_length));
    }
    let (second, second_length) = decode_value(&bytes[first_length..], LARGEST_SECOND)?;
    let gap = first / F;
    let count = second + (F - 1);
    Some((posting_of(gap, count)?, first_length + second_length))
}

/// The posting with this gap and count, or nothing if one of them is 0 or does not fit in 32 bits.
fn posting_of(gap: u64, count: u64) -> Option<Posting> {
    Posting::new(u32::try_from(gap).ok()?, u32::try_from(count).ok()?)
}

/// The value at the front of `bytes` and the number of bytes it takes.
///
/// Nothing is given if the bytes end before the value does, if the value is not from 1 to
/// `largest`, or if the bytes are not the ones that coding this value gives.
fn decode_value(bytes: &[u8], largest: u64) -> Option<(u64, usize)> {
    let length = value_length(bytes)?;
    if length > MOST_BYTES {
        return None;
    }
    let value = value_of(&bytes[..length]);
    if value < 1 || value > largest {
        return None;
    }
    if code_value(value) != bytes[..length] {
        return None;
    }
    Some((value, length))
}

/// The number of bytes up to and with the first one whose top bit is 0, or nothing if there is no
/// such byte.
fn value_length(bytes: &[u8]) -> Option<usize> {
    bytes
        .iter()
        .position(|byte| byte & MORE == 0)
        .map(|place| place + 1)
}

/// The value of at most [`MOST_BYTES`] bytes: the lowest seven bits of each, the first byte being
/// the lowest group.
fn value_of(bytes: &[u8]) -> u64 {
    let mut value = 0;
    for byte in bytes.iter().rev() {
        value = value * 128 + u64::from(byte & !MORE);
    }
    value
}

#[cfg(test)]
mod tests;
