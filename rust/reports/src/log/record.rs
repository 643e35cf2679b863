//! One record of a log: its head, its bytes, and the CRC of each.

use super::crc;

/// The kind of a record that holds a report's frame.
pub const REPORT: u8 = 0x01;

/// From this kind on, records may be passed over by a program that does not know them.
pub const MAY_BE_PASSED: u8 = 0x80;

/// The flag of a record whose successor belongs to the same group.
pub const GROUP_GOES_ON: u8 = 0x01;

/// The bytes of a record's head: kind, flags, length, number, and their CRC.
pub const HEAD_BYTES: usize = 12;

/// The bytes that the head's CRC is taken over.
const BEFORE_CRC: usize = 8;

/// The bytes of a CRC.
pub const CRC_BYTES: usize = 4;

/// A record as it stands in a log.
#[derive(Debug, Clone, Copy, PartialEq, Eq)]
pub struct Record<'a> {
    /// What the record holds.
    pub kind: u8,
    /// Bit 0 says that the next record belongs to the same group. No other bit is in use.
    pub flags: u8,
    /// The number of the report.
    pub number: u32,
    /// The record's bytes; of a report, its frame.
    pub bytes: &'a [u8],
}

/// What stands at a place of a log where a record may begin.
#[derive(Debug, Clone, Copy, PartialEq, Eq)]
pub enum Found<'a> {
    /// The log's end.
    End,
    /// A sound record, with the CRC from which the next one goes on.
    Record(Record<'a>, u32),
    /// The beginning of a record that was never written to its end.
    Torn,
    /// Something else.
    Damaged,
}

impl Record<'_> {
    /// How many bytes the record takes in a log.
    pub fn length(&self) -> usize {
        HEAD_BYTES + self.bytes.len() + CRC_BYTES
    }

    /// Writes the record behind `log`, whose last CRC is `crc`; gives the new last CRC.
    ///
    /// A frame has at most 4,099 bytes, so that its length fits into two.
    pub fn write(&self, log: &mut Vec<u8>, crc: u32) -> u32 {
        let start = log.len();
        let length = u16::try_from(self.bytes.len()).expect("a record has at most 65,535 bytes");
        log.extend([self.kind, self.flags]);
        log.extend(length.to_be_bytes());
        log.extend(self.number.to_be_bytes());
        let crc = crc::go_on(crc, &log[start..]);
        log.extend(crc.to_be_bytes());
        let crc = crc::go_on(crc, self.bytes);
        log.extend(self.bytes);
        log.extend(crc.to_be_bytes());
        crc
    }
}

/// What stands at the beginning of `rest`, all bytes of a log from some place on. The last CRC before
/// them is `crc`.
///
/// A length is believed only when the CRC of its head is right. Without that, a flipped bit in a
/// length would look like a cut, and the next report would be written over reports that are held.
pub fn read(rest: &[u8], crc: u32) -> Found<'_> {
    if rest.is_empty() {
        return Found::End;
    }
    if rest.len() < HEAD_BYTES || rest.iter().all(|byte| *byte == 0) {
        return Found::Torn;
    }
    let (head, rest) = rest.split_at(HEAD_BYTES);
    let crc = crc::go_on(crc, &head[..BEFORE_CRC]);
    if head[BEFORE_CRC..] != crc.to_be_bytes() {
        return Found::Damaged;
    }
    let length = usize::from(u16::from_be_bytes([head[2], head[3]]));
    if rest.len() < length + CRC_BYTES {
        return Found::Torn;
    }
    let bytes = &rest[..length];
    let crc = crc::go_on(crc, bytes);
    if rest[length..][..CRC_BYTES] != crc.to_be_bytes() {
        return Found::Damaged;
    }
    let record = Record {
        kind: head[0],
        flags: head[1],
        number: u32::from_be_bytes([head[4], head[5], head[6], head[7]]),
        bytes,
    };
    Found::Record(record, crc)
}
