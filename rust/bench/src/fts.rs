//! SQLite FTS5 on the same workload, where SQLite is installed.

use crate::rounds::Times;
use crate::sqlite::Index;
use crate::workload::{Queries, Workload};
use std::ffi::CString;

/// FTS5 with an index of its own.
pub struct Fts {
    index: Index,
}

/// Texts to be taken or asked for, made before the clock starts.
pub struct Texts(Vec<CString>);

impl Texts {
    /// The texts of all reports.
    pub fn of_reports(workload: &Workload) -> Texts {
        let text = |places: &Vec<u32>| joined(workload, places, "", " ");
        Texts(workload.reports.iter().map(text).collect())
    }

    /// The texts of queries.
    pub fn of_queries(workload: &Workload, queries: &Queries) -> Texts {
        let text = |places: &Vec<u32>| joined(workload, places, "\"", " AND ");
        Texts(queries.places.iter().map(text).collect())
    }
}

impl Fts {
    /// An empty index.
    pub fn new() -> Fts {
        Fts {
            index: Index::new(),
        }
    }

    /// Takes all reports into a new index, in one transaction: one round.
    pub fn ingest(&mut self, texts: &Texts, times: &mut Times) {
        self.index = Index::new();
        times.take(|| {
            for (number, text) in (1..).zip(&texts.0) {
                self.index.add(number, text);
            }
            self.index.commit();
        });
    }

    /// Merges all parts of the index, off the clock, so that queries are at their fastest.
    pub fn merge(&mut self) {
        self.index.optimize();
    }

    /// Lists all queries: one round. They must find so many reports.
    pub fn list(&mut self, texts: &Texts, numbers: &mut [u32], found: usize, times: &mut Times) {
        let mut filled = 0;
        times.take(|| {
            for text in &texts.0 {
                filled += self.index.list(text, numbers);
            }
        });
        assert_eq!(filled, found, "FTS5 lists another number of reports");
    }
}

impl Default for Fts {
    fn default() -> Fts {
        Fts::new()
    }
}

/// The terms at these places in quotes, with a text between them.
fn joined(workload: &Workload, places: &[u32], quote: &str, between: &str) -> CString {
    let quoted = |place: &u32| format!("{quote}{}{quote}", workload.terms[*place as usize]);
    let terms: Vec<String> = places.iter().map(quoted).collect();
    CString::new(terms.join(between)).expect("terms have no null byte")
}
