//! The head of a log: its first sixteen bytes.

use super::crc;

/// The first eight bytes of every log of this format.
pub const MAGIC: [u8; 8] = *b"reports1";

/// The last change request whose rules this program has. A log keeps the one it was begun under.
pub const RULES: u16 = 0;

/// The bytes of a head: the first eight, the change request, two null bytes, and their CRC.
pub const BYTES: usize = 16;

/// The bytes that the head's CRC is taken over.
const BEFORE_CRC: usize = 12;

/// What a head says.
#[derive(Debug, Clone, Copy, PartialEq, Eq)]
pub struct Head {
    /// The last change request whose rules the log was begun under.
    pub rules: u16,
    /// The head's CRC, from which that of the first record goes on.
    pub crc: u32,
}

/// What reading a head found, where it is none that this program reads.
#[derive(Debug, Clone, Copy, PartialEq, Eq)]
pub enum Fault {
    /// It is no head, or a damaged one.
    Damaged,
    /// It is sound, and of a format that this program does not know.
    Newer,
}

/// The head of a new log.
pub fn write() -> [u8; BYTES] {
    write_under(RULES)
}

/// The head of a log that was begun under this change request.
pub fn write_under(rules: u16) -> [u8; BYTES] {
    let mut head = [0; BYTES];
    head[..8].copy_from_slice(&MAGIC);
    head[8..10].copy_from_slice(&rules.to_be_bytes());
    let crc = crc::go_on(0, &head[..BEFORE_CRC]);
    head[BEFORE_CRC..].copy_from_slice(&crc.to_be_bytes());
    head
}

/// Reads the head of a log that begins with these bytes.
pub fn read(bytes: &[u8]) -> Result<Head, Fault> {
    let head: &[u8; BYTES] = bytes.first_chunk().ok_or(Fault::Damaged)?;
    let crc = crc::go_on(0, &head[..BEFORE_CRC]);
    if head[BEFORE_CRC..] != crc.to_be_bytes() {
        return Err(Fault::Damaged);
    }
    if head[..8] != MAGIC || head[10..12] != [0, 0] {
        return Err(Fault::Newer);
    }
    let rules = u16::from_be_bytes([head[8], head[9]]);
    Ok(Head { rules, crc })
}

#[cfg(test)]
mod tests {
    use super::*;

    #[test]
    fn a_head_is_read_back() {
        let head = write();
        assert_eq!(head[..12], *b"reports1\0\0\0\0");
        let crc = u32::from_be_bytes(head[12..].try_into().unwrap());
        assert_eq!(read(&head), Ok(Head { rules: RULES, crc }));
    }

    #[test]
    fn a_cut_or_changed_head_is_damaged() {
        for length in 0..BYTES {
            assert_eq!(read(&write()[..length]), Err(Fault::Damaged));
        }
        for bit in 0..BYTES * 8 {
            let mut head = write();
            head[bit / 8] ^= 1 << (bit % 8);
            assert_eq!(read(&head), Err(Fault::Damaged), "bit {bit}");
        }
    }

    #[test]
    fn a_sound_head_of_another_format_is_newer() {
        for place in [7, 10, 11] {
            let mut head = write();
            head[place] += 1;
            let crc = crc::go_on(0, &head[..12]);
            head[12..].copy_from_slice(&crc.to_be_bytes());
            assert_eq!(read(&head), Err(Fault::Newer));
        }
        // A later change request is no other format.
        let mut head = write();
        head[9] = 14;
        let crc = crc::go_on(0, &head[..12]);
        head[12..].copy_from_slice(&crc.to_be_bytes());
        assert_eq!(read(&head), Ok(Head { rules: 14, crc }));
    }
}
