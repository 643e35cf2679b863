//! What stands for FTS5 where SQLite is not installed: nothing is measured.

use crate::rounds::Times;
use crate::workload::{Queries, Workload};

/// No index.
#[derive(Default)]
pub struct Fts;

/// No texts.
pub struct Texts;

impl Texts {
    /// None.
    pub fn of_reports(_workload: &Workload) -> Texts {
        Texts
    }

    /// None.
    pub fn of_queries(_workload: &Workload, _queries: &Queries) -> Texts {
        Texts
    }
}

impl Fts {
    /// Says that FTS5 is left out.
    pub fn new() -> Fts {
        println!("SQLite was not found when this program was built, so FTS5 is left out.");
        println!("(Debian has it as libsqlite3-dev.)\n");
        Fts
    }

    /// Nothing.
    pub fn ingest(&mut self, _texts: &Texts, _times: &mut Times) {}

    /// Nothing.
    pub fn merge(&mut self) {}

    /// Nothing.
    pub fn list(
        &mut self,
        _texts: &Texts,
        _numbers: &mut [u32],
        _found: usize,
        _times: &mut Times,
    ) {
    }
}
