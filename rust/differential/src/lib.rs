//! Brings the same drawn calls to the proved library, to the reference and, where a list of calls
//! begins with a start and nothing is damaged, to the plain ledger. After each call every answer,
//! lent byte, table entry, counter and list place is compared, and the guards around the memory lent
//! to the library are looked at.
//!
//! | module | what |
//! |---|---|
//! | [`calls`] | the four calls as values, so that an implementation can be chosen |
//! | [`cases`] | one case for each seed: memory, a list of calls, damage between them |
//! | [`memory`] | arena, table and counters of an index, and damage done to them |
//! | [`sides`] | bringing one call to the implementation under test (the proved library, or another), to the reference or to the ledger |
//! | [`guarded`] | slices with guards around them |
//! | [`tally`] | which answers were met, and which never |

#![forbid(unsafe_code)]
#![warn(missing_docs)]

pub mod calls;
pub mod cases;
pub mod guarded;
pub mod memory;
pub mod sides;
pub mod tally;
