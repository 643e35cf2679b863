//! What a log asks of the place where it is kept.

use std::io;

/// A place for the bytes of one log. Nothing that was written is there for certain before a sync.
pub trait Disk {
    /// All bytes from this place on; none where fewer are there.
    fn read(&mut self, from: u64) -> io::Result<Vec<u8>>;

    /// Writes these bytes behind the first `end` bytes, which are all that are there.
    fn append(&mut self, end: u64, bytes: &[u8]) -> io::Result<()>;

    /// Leaves the first `end` bytes alone.
    fn cut(&mut self, end: u64) -> io::Result<()>;

    /// Comes back when all that was written and cut before is there for certain.
    fn sync(&mut self) -> io::Result<()>;
}
