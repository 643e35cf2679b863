//! The commands that list reports.

use report_index::{frame, Listed, Refusal};

use super::{Answer, Call, Surroundings};
use crate::failure::Failure;
use crate::refused::Brought;
use crate::store::Store;
use crate::words;

/// Lists the reports with a term: number, tab, count.
pub fn find(store: &mut Store, call: &Call, _around: &mut Surroundings) -> Result<Answer, Failure> {
    let query = Query::read(store, call)?;
    let frame = frame::one(query.from, &query.terms[0]);
    let frame = frame.map_err(|refusal| query.refused(refusal))?;
    let index = store.index()?;
    let places = query.places(index.counters.reports);
    let (mut numbers, mut counts) = (vec![0; places], vec![0; places]);
    let listed = index.list_one(&frame, &mut numbers, &mut counts);
    let listed = listed.map_err(|refusal| query.refused(refusal))?;
    let pairs = numbers.iter().zip(&counts);
    let line = |(number, count)| format!("{number}\t{count}");
    query.answer(listed, &numbers, pairs.map(line))
}

/// Lists the reports with all of several terms.
pub fn all(store: &mut Store, call: &Call, _around: &mut Surroundings) -> Result<Answer, Failure> {
    let query = Query::read(store, call)?;
    let frame = frame::all(query.from, &query.terms);
    let frame = frame.map_err(|refusal| query.refused(refusal))?;
    let index = store.index()?;
    let mut numbers = vec![0; query.places(index.counters.reports)];
    let listed = index.list_all(&frame, &mut numbers);
    let listed = listed.map_err(|refusal| query.refused(refusal))?;
    query.answer(listed, &numbers, numbers.iter().map(u32::to_string))
}

/// What is asked for.
struct Query {
    terms: Vec<Vec<u8>>,
    from: u32,
    limit: Option<u32>,
    /// The most bytes of the library's memory, for refusals.
    memory: u64,
}

impl Query {
    fn read(store: &Store, call: &Call) -> Result<Query, Failure> {
        let places = 1..;
        let terms = places.zip(&call.words);
        let terms: Result<_, Failure> = terms
            .map(|(place, word)| words::term(place, word))
            .collect();
        Ok(Query {
            terms: terms?,
            from: call.number("--from")?.unwrap_or(1),
            limit: call.number("--limit")?,
            memory: store.memory(),
        })
    }

    fn refused(&self, refusal: Refusal) -> Failure {
        Brought::Query(&self.terms).refused(refusal, self.memory)
    }

    /// How many places the lists need: one for each report that can be listed.
    fn places(&self, reports: u32) -> usize {
        let past_start = reports.saturating_sub(self.from.max(1) - 1);
        past_start.min(self.limit.unwrap_or(u32::MAX)) as usize
    }

    /// The first lines, as many as were filled.
    fn answer(
        &self,
        listed: Listed,
        numbers: &[u32],
        lines: impl Iterator<Item = String>,
    ) -> Result<Answer, Failure> {
        if listed.filled == 0 && !listed.more {
            return Err(Failure::Nothing);
        }
        let mut answer = Answer::new();
        lines.take(listed.filled).for_each(|line| answer.push(line));
        if listed.more {
            let last = numbers[..listed.filled].last();
            answer.more = Some(last.map_or(self.from.max(1), |last| last + 1));
        }
        Ok(answer)
    }
}
