//! The log: the file that keeps the frames of all reports taken. docs/FORMAT.md lays it out.
//!
//! | module | what |
//! |---|---|
//! | [`crc`] | the CRC-32 that each head and each record ends with |
//! | [`head`] | the first sixteen bytes |
//! | [`record`] | one record |
//! | [`append`] | writing records so that they are there for certain, or taking them back |
//!
//! [`Log`] reads a log, from its beginning or from where it stopped, and says how it ends.

pub mod append;
pub mod crc;
pub mod head;
pub mod record;

use crate::frames::{self, Frames};
use record::{Found, Record, CRC_BYTES, GROUP_GOES_ON, MAY_BE_PASSED, REPORT};

/// How a log ends.
#[derive(Debug, Clone, Copy, PartialEq, Eq)]
pub enum Finding {
    /// With a whole record, the last of its group.
    Sound,
    /// With what was written of a group before its writing was broken off, and so never answered.
    Torn {
        /// Where the whole groups end.
        byte: u64,
        /// How many bytes stand behind them.
        bytes: u64,
    },
    /// From this byte on stands something that was never written by this program.
    Damaged {
        /// Where the record begins that does not fit.
        byte: u64,
    },
    /// From this byte on stands something sound that only a later program knows.
    Newer {
        /// Where it begins.
        byte: u64,
    },
    /// What was read before is there no longer.
    Changed,
}

/// What was read of a log: its whole groups. A record alone is a group too.
#[derive(Debug, Clone)]
pub struct Log {
    /// Where the whole groups end; 0 where not even the head was read.
    end: u64,
    /// The last CRC before that.
    crc: u32,
    rules: u16,
    frames: Frames,
    finding: Finding,
}

impl Default for Log {
    fn default() -> Log {
        Log {
            end: 0,
            crc: 0,
            rules: 0,
            frames: Frames::default(),
            finding: Finding::Damaged { byte: 0 },
        }
    }
}

impl Log {
    /// Where the whole groups end.
    pub fn end(&self) -> u64 {
        self.end
    }

    /// The last change request whose rules the log was begun under.
    pub fn rules(&self) -> u16 {
        self.rules
    }

    /// The frames of the reports held.
    pub fn frames(&self) -> &Frames {
        &self.frames
    }

    /// How the log ended when it was last read.
    pub fn finding(&self) -> Finding {
        self.finding
    }

    /// From which byte on [`Log::read_on`] wants the log: from the last CRC on that was read before.
    pub fn read_from(&self) -> u64 {
        self.end.saturating_sub(CRC_BYTES as u64)
    }

    /// Reads on from where reading stopped. The last CRC stands for everything before it: where it
    /// is another now, the log is not the one that was read before.
    pub fn read_on(&mut self, bytes: &[u8]) {
        self.finding = match self.pass_known(bytes) {
            Ok(known) => self.read_groups(&bytes[known..]),
            Err(finding) => finding,
        };
    }

    /// How many of the bytes are known already: the head, where it is read now, or the last CRC.
    fn pass_known(&mut self, bytes: &[u8]) -> Result<usize, Finding> {
        if self.end > 0 {
            let same = bytes.starts_with(&self.crc.to_be_bytes());
            return same.then_some(CRC_BYTES).ok_or(Finding::Changed);
        }
        let head = head::read(bytes).map_err(|fault| match fault {
            head::Fault::Damaged => Finding::Damaged { byte: 0 },
            head::Fault::Newer => Finding::Newer { byte: 0 },
        })?;
        (self.rules, self.crc) = (head.rules, head.crc);
        self.end = head::BYTES as u64;
        Ok(head::BYTES)
    }

    /// Takes in one group after another.
    fn read_groups(&mut self, mut rest: &[u8]) -> Finding {
        loop {
            match self.read_group(rest) {
                Ok(0) => return Finding::Sound,
                Ok(length) => rest = &rest[length..],
                Err(finding) => return finding,
            }
        }
    }

    /// Takes in the group at the beginning of `rest` and gives its length; 0 at the log's end.
    fn read_group(&mut self, rest: &[u8]) -> Result<usize, Finding> {
        let mut group = Frames::default();
        let (mut length, mut crc) = (0, self.crc);
        loop {
            let byte = self.end + length as u64;
            let record = match record::read(&rest[length..], crc) {
                Found::End if length == 0 => return Ok(0),
                Found::End | Found::Torn => {
                    let (byte, bytes) = (self.end, rest.len() as u64);
                    return Err(Finding::Torn { byte, bytes });
                }
                Found::Damaged => return Err(Finding::Damaged { byte }),
                Found::Record(record, next) => {
                    crc = next;
                    record
                }
            };
            self.take_in(&record, &mut group, byte)?;
            length += record.length();
            if record.flags & GROUP_GOES_ON == 0 {
                self.frames.append(&group);
                self.end += length as u64;
                self.crc = crc;
                return Ok(length);
            }
        }
    }

    /// Takes a sound record into its group, or says why it does not belong here.
    fn take_in(&self, record: &Record, group: &mut Frames, byte: u64) -> Result<(), Finding> {
        if record.flags & !GROUP_GOES_ON != 0 {
            return Err(Finding::Newer { byte });
        }
        match record.kind {
            REPORT if frames::is_unknown(record.bytes) => Err(Finding::Newer { byte }),
            REPORT if record.number as usize != self.frames.len() + group.len() + 1 => {
                Err(Finding::Damaged { byte })
            }
            REPORT => {
                group.push(record.bytes);
                Ok(())
            }
            MAY_BE_PASSED.. => Ok(()),
            _ => Err(Finding::Newer { byte }),
        }
    }
}
