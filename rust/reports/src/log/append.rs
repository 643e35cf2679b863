//! Writing reports behind a log: either they are there for certain, or they are taken back.

use std::io;

use super::record::{Record, GROUP_GOES_ON, REPORT};
use super::{Finding, Log};
use crate::disk::Disk;
use crate::frames::Frames;

/// Why reports were not written.
#[derive(Debug)]
pub enum NotKept {
    /// Writing or syncing failed, and the log is for certain as it was before.
    TakenBack(io::Error),
    /// Writing or syncing failed, and so did taking back: the reports may be there or not.
    Unknown(io::Error),
}

impl Log {
    /// Writes these frames as the next reports and comes back when they are there for certain. As a
    /// group they are held all or none, whatever happens meanwhile; one by one, the first of them may
    /// be held without the others.
    ///
    /// The log has been read to its end and is sound.
    pub fn append(
        &mut self,
        disk: &mut dyn Disk,
        frames: &Frames,
        as_group: bool,
    ) -> Result<(), NotKept> {
        if frames.is_empty() {
            return Ok(());
        }
        let (records, crc) = self.records(frames, as_group);
        let written = disk.append(self.end, &records);
        if let Err(error) = written.and_then(|()| disk.sync()) {
            return Err(match self.take_back(disk) {
                Ok(()) => NotKept::TakenBack(error),
                Err(_) => NotKept::Unknown(error),
            });
        }
        self.frames.append(frames);
        self.end += records.len() as u64;
        self.crc = crc;
        Ok(())
    }

    /// Cuts a torn end off.
    pub fn mend(&mut self, disk: &mut dyn Disk) -> io::Result<()> {
        self.take_back(disk)?;
        self.finding = Finding::Sound;
        Ok(())
    }

    /// Leaves the whole groups alone.
    fn take_back(&self, disk: &mut dyn Disk) -> io::Result<()> {
        disk.cut(self.end)?;
        disk.sync()
    }

    /// The records of these frames, and the last CRC.
    fn records(&self, frames: &Frames, as_group: bool) -> (Vec<u8>, u32) {
        let mut records = Vec::new();
        let mut crc = self.crc;
        for (place, frame) in frames.iter().enumerate() {
            let last = place + 1 == frames.len();
            let record = Record {
                kind: REPORT,
                flags: if as_group && !last { GROUP_GOES_ON } else { 0 },
                // The library numbered the report, so that the number has 32 bits.
                number: (self.frames.len() + place + 1) as u32,
                bytes: frame,
            };
            crc = record.write(&mut records, crc);
        }
        (records, crc)
    }
}
