//! The command that tries everything that a file can be asked.

use std::collections::HashMap;

use report_index::{frame, Index};

use super::{Answer, Call, Surroundings};
use crate::failure::Failure;
use crate::frames;
use crate::store::Store;
use crate::words::{in_threes, text};

/// The numbers of the reports with a term, and its count in each.
type Postings = (Vec<u32>, Vec<u32>);

/// Reads every byte and every CRC, has the library take every report again, and lists every term
/// back: each list has to be what the log says, no report fewer and none more.
pub fn verify(
    store: &mut Store,
    _call: &Call,
    _around: &mut Surroundings,
) -> Result<Answer, Failure> {
    store.keep()?;
    store.read_again()?;
    let postings = postings(store);
    let index = store.index()?;
    for (term, postings) in &postings {
        list_back(index, term, postings)?;
    }
    let (terms, reports) = (postings.len(), store.log().frames().len());
    let numbers = [reports as u64, terms as u64, store.log().end()].map(in_threes);
    let [reports, terms, bytes] = numbers;
    Ok(Answer::line(format!(
        "sound: {reports} reports, {terms} terms, {bytes} bytes"
    )))
}

/// Where each term stands, as the log has it. Small and capital letters are the same.
fn postings(store: &Store) -> HashMap<Vec<u8>, Postings> {
    let mut postings: HashMap<Vec<u8>, Postings> = HashMap::new();
    for (number, frame) in (1..).zip(store.log().frames().iter()) {
        for (term, count) in frames::lines(frame).unwrap_or_default() {
            let (numbers, counts) = postings.entry(term.to_ascii_lowercase()).or_default();
            numbers.push(number);
            counts.push(count);
        }
    }
    postings
}

/// Fails unless the library lists exactly these reports for the term.
fn list_back(index: &Index, term: &[u8], (numbers, counts): &Postings) -> Result<(), Failure> {
    let fail = |what: &str| {
        let term = text(term);
        Failure::Fatal(format!("the library's list of \"{term}\" {what}"))
    };
    let frame = frame::one(0, term).map_err(|refusal| fail(refusal.words()))?;
    let mut listed = (vec![0; numbers.len()], vec![0; counts.len()]);
    let answer = index.list_one(&frame, &mut listed.0, &mut listed.1);
    let answer = answer.map_err(|refusal| fail(refusal.words()))?;
    if answer.more || answer.filled != numbers.len() {
        return Err(fail("has not as many reports as the log"));
    }
    if listed != (numbers.clone(), counts.clone()) {
        return Err(fail("is not that of the log"));
    }
    Ok(())
}

#[cfg(test)]
mod tests {
    use super::*;

    #[test]
    fn a_list_that_is_not_that_of_the_log_is_told() {
        let mut index = Index::new(100, 100);
        for count in [3, 4] {
            let report = frame::report(&[("zn", count)]).unwrap();
            index.report(&report).unwrap();
        }
        let verified = |numbers: &[u32], counts: &[u32]| {
            list_back(&index, b"zn", &(numbers.to_vec(), counts.to_vec()))
        };
        assert_eq!(verified(&[1, 2], &[3, 4]), Ok(()));
        for (numbers, counts) in [
            (&[1][..], &[3][..]),
            (&[1, 2, 3], &[3, 4, 5]),
            (&[1, 3], &[3, 4]),
            (&[1, 2], &[3, 5]),
            (&[], &[]),
        ] {
            let told = verified(numbers, counts).map_err(|failure| failure.exit());
            assert_eq!(told, Err(5), "{numbers:?}, {counts:?}");
        }
    }
}
