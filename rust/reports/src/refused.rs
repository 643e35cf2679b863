//! What a refusal is about: the word, the rule, and the limit as the library has it.

use report_index::frame::{MAX_BODY, MAX_REPORTS, MAX_TERM, MAX_TERMS, TERM_BYTES};
use report_index::Refusal;

use crate::failure::Failure;
use crate::words::{in_threes, shown};

/// What was brought to the library.
#[derive(Debug, Clone, Copy)]
pub enum Brought<'a> {
    /// A report with these lines.
    Report(&'a [(Vec<u8>, u32)]),
    /// A query with these terms.
    Query(&'a [Vec<u8>]),
}

/// How many characters of a term that is too long are shown.
const SHOWN: usize = 8;

impl Brought<'_> {
    /// The failure for a refusal of this, where the memory may have `memory` bytes.
    pub fn refused(&self, refusal: Refusal, memory: u64) -> Failure {
        let told = match refusal {
            Refusal::Length => self.too_long(),
            Refusal::Fields => self.wrong_number_of_terms(),
            Refusal::Term => self.wrong_term(),
            Refusal::Count => self.null_count(),
            Refusal::Repeat => self.repeated_term(),
            Refusal::Reports => Some(format!(
                "{} reports are held, and no number is left",
                in_threes(MAX_REPORTS.into())
            )),
            Refusal::Terms | Refusal::Room => Some(format!(
                "the memory of {} bytes is full; --memory gives more",
                in_threes(memory)
            )),
            _ => None,
        };
        Failure::Refused {
            number: refusal.number(),
            text: told.unwrap_or_else(|| refusal.words().to_string()),
        }
    }

    /// The terms, in the order of the words.
    fn terms(&self) -> Vec<&[u8]> {
        match self {
            Brought::Report(lines) => lines.iter().map(|(term, _)| &term[..]).collect(),
            Brought::Query(terms) => terms.iter().map(|term| &term[..]).collect(),
        }
    }

    fn too_long(&self) -> Option<String> {
        // A report has its kind, and for each line the term's length and a count of four bytes; a
        // query has its kind, a start of four bytes, and for each term its length.
        let (name, fixed, each) = match self {
            Brought::Report(_) => ("report", 1, 5),
            Brought::Query(_) => ("query", 5, 1),
        };
        let terms = self.terms();
        let bytes = fixed + terms.iter().map(|term| each + term.len()).sum::<usize>();
        Some(format!(
            "the {name} has {} bytes in a frame; a {name} has at most {}",
            in_threes(bytes as u64),
            in_threes(MAX_BODY as u64)
        ))
    }

    fn wrong_number_of_terms(&self) -> Option<String> {
        let named = self.terms().len();
        let wrong = !(1..=MAX_TERMS).contains(&named);
        wrong.then(|| format!("{named} terms are named; a query has 1 to {MAX_TERMS}"))
    }

    fn wrong_term(&self) -> Option<String> {
        let told = |(place, term): (usize, &&[u8])| {
            let rule = wrong(term)?;
            Some(format!("{}, {rule}", word(place, term)))
        };
        self.terms().iter().enumerate().find_map(told)
    }

    fn null_count(&self) -> Option<String> {
        let Brought::Report(lines) = self else {
            return None;
        };
        let place = lines.iter().position(|(_, count)| *count == 0)?;
        let word = word(place, &lines[place].0);
        Some(format!("{word}, has the count 0; a count is at least 1"))
    }

    fn repeated_term(&self) -> Option<String> {
        let terms = self.terms();
        let earlier = |place: usize| {
            let same = |other: &&[u8]| other.eq_ignore_ascii_case(terms[place]);
            Some((place, terms[..place].iter().position(same)?))
        };
        let (place, earlier) = (0..terms.len()).find_map(earlier)?;
        let (repeated, first) = (word(place, terms[place]), word(earlier, terms[earlier]));
        Some(format!("{repeated}, is the same term as {first}"))
    }
}

/// Which rule on terms this one breaks.
fn wrong(term: &[u8]) -> Option<String> {
    if term.is_empty() {
        return Some("has 0 bytes; a term has at least 1".to_string());
    }
    if term.len() > MAX_TERM {
        return Some(format!(
            "has {} bytes; a term has at most {MAX_TERM}",
            in_threes(term.len() as u64)
        ));
    }
    let barred = term.iter().find(|byte| !TERM_BYTES.contains(byte))?;
    let (least, greatest) = (TERM_BYTES.start(), TERM_BYTES.end());
    Some(format!(
        "has the byte {barred:02X}; the bytes of a term are {least:02X} to {greatest:02X}"
    ))
}

/// A word for a message. Places count from 0, words from 1.
fn word(place: usize, term: &[u8]) -> String {
    let longest = if term.len() > MAX_TERM {
        SHOWN
    } else {
        MAX_TERM
    };
    let text: String = term.iter().copied().map(char::from).collect();
    format!("word {}, \"{}\"", place + 1, shown(&text, longest))
}

#[cfg(test)]
mod tests {
    use super::*;

    fn told(refusal: Refusal, lines: &[(&str, u32)]) -> String {
        let lines: Vec<(Vec<u8>, u32)> = lines
            .iter()
            .map(|(term, count)| (term.as_bytes().to_vec(), *count))
            .collect();
        let brought = Brought::Report(&lines);
        brought.refused(refusal, 1 << 30).to_string()
    }

    #[test]
    fn each_refusal_names_its_word_and_rule() {
        let long = "nitrate-nitrogen-of-the-second-horizon-xy";
        let cases = [
            (
                Refusal::Term,
                vec![("zn", 1), (long, 1)],
                "refused (5): word 2, \"nitrate-…\", has 41 bytes; a term has at most 36",
            ),
            (
                Refusal::Term,
                vec![("", 1)],
                "refused (5): word 1, \"\", has 0 bytes; a term has at least 1",
            ),
            (
                Refusal::Term,
                vec![("a\nb", 1)],
                "refused (5): word 1, \"a\u{FFFD}b\", has the byte 0A; the bytes of a term are 21 to 7E",
            ),
            (
                Refusal::Count,
                vec![("zn", 1), ("cu", 0)],
                "refused (6): word 2, \"cu\", has the count 0; a count is at least 1",
            ),
            (
                Refusal::Repeat,
                vec![("zn", 1), ("cu", 1), ("ZN", 1)],
                "refused (7): word 3, \"ZN\", is the same term as word 1, \"zn\"",
            ),
            (
                Refusal::Length,
                vec![("zn", 1); 600],
                "refused (2): the report has 4,201 bytes in a frame; a report has at most 4,096",
            ),
            (
                Refusal::Room,
                vec![("zn", 1)],
                "refused (12): the memory of 1,073,741,824 bytes is full; --memory gives more",
            ),
            (
                Refusal::Reports,
                vec![("zn", 1)],
                "refused (9): 4,294,967,295 reports are held, and no number is left",
            ),
        ];
        for (refusal, lines, expected) in cases {
            assert_eq!(told(refusal, &lines), expected);
        }
    }

    #[test]
    fn a_rule_that_is_not_known_here_is_told_in_the_words_of_the_library() {
        let expected = format!("refused (5): {}", Refusal::Term.words());
        assert_eq!(told(Refusal::Term, &[("zn", 1)]), expected);
        let expected = format!("refused (10): {}", Refusal::Damage.words());
        assert_eq!(told(Refusal::Damage, &[("zn", 1)]), expected);
    }

    #[test]
    fn a_query_names_too_many_terms() {
        let terms = vec![b"zn".to_vec(); 9];
        let failure = Brought::Query(&terms).refused(Refusal::Fields, 0);
        let expected = "refused (4): 9 terms are named; a query has 1 to 8";
        assert_eq!(failure.to_string(), expected);
    }
}
