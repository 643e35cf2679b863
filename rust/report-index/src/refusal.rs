//! Why a call is refused.

use std::error::Error;
use std::fmt;

/// Why a call is refused. The numbers are those of document 01, "Where each refusal is checked"; of
/// several that apply the one with the lowest number is given.
#[derive(Debug, Clone, Copy, PartialEq, Eq, Hash)]
#[non_exhaustive]
pub enum Refusal {
    /// 1: The frame has fewer than 4 bytes, or its version is not 1.
    Header,
    /// 2: The frame's length field is over 4,096 or is not the number of bytes that follow it.
    Length,
    /// 3: The frame's kind belongs to another call or to none.
    Kind,
    /// 4: A field ends outside the frame's body, or a query names too few or too many terms.
    Fields,
    /// 5: A term does not have 1 to 36 bytes, or has a barred byte.
    Term,
    /// 6: A count is 0.
    Count,
    /// 7: Two lines of a report have the same term, small and capital letters being the same.
    Repeat,
    /// 8: The counters cannot belong to an arena and a table of these lengths.
    Counters,
    /// 9: All 4,294,967,295 report numbers are taken.
    Reports,
    /// 10: What stands in the arena or in the table is damaged.
    Damage,
    /// 11: The table is too short for the report's new terms.
    Terms,
    /// 12: The arena is too short for the blocks that the report needs.
    Room,
    /// 13: A line could not be written after the lines before it were. Only damage can bring this about.
    Writing,
    /// A refusal with a number that this wrapper has no name for: the library is a later one.
    Unknown(u8),
}

impl Refusal {
    /// All refusals that have a name, by rising number.
    pub const ALL: [Refusal; 13] = [
        Refusal::Header,
        Refusal::Length,
        Refusal::Kind,
        Refusal::Fields,
        Refusal::Term,
        Refusal::Count,
        Refusal::Repeat,
        Refusal::Counters,
        Refusal::Reports,
        Refusal::Damage,
        Refusal::Terms,
        Refusal::Room,
        Refusal::Writing,
    ];

    /// The number that document 01 gives to the refusal, 1 to 13; that of the library, where the
    /// refusal has no name here.
    pub fn number(self) -> u8 {
        if let Refusal::Unknown(number) = self {
            return number;
        }
        let place = Refusal::ALL.iter().position(|refusal| *refusal == self);
        place.map_or(0, |place| place as u8 + 1)
    }

    /// The refusal with this number, or nothing if there is none with a name.
    pub fn of_number(number: u8) -> Option<Refusal> {
        let place = usize::from(number).checked_sub(1)?;
        Refusal::ALL.get(place).copied()
    }

    /// What went wrong, in plain words.
    pub fn words(self) -> &'static str {
        match self {
            Refusal::Header => {
                "the frame has fewer than 4 bytes, or its first byte, the version, is not 1"
            }
            Refusal::Length => {
                "the frame's length field is over 4,096 or is not the number of bytes that \
                 follow it"
            }
            Refusal::Kind => "the frame is not of the kind that this call takes",
            Refusal::Fields => {
                "a field runs past the end of the frame, or the number of terms named is not \
                 allowed"
            }
            Refusal::Term => {
                "a term must have 1 to 36 bytes, and each of them must be a visible ASCII \
                 character"
            }
            Refusal::Count => "a line of the report has a count of 0",
            Refusal::Repeat => "two lines of the report have the same term",
            Refusal::Counters => {
                "the counters do not belong to an arena and a table of these lengths"
            }
            Refusal::Reports => {
                "the index holds 4,294,967,295 reports already and can number no more"
            }
            Refusal::Damage => "the arena or the table is damaged",
            Refusal::Terms => {
                "the table has no room for the new terms of this report: at most half of its \
                 entries may be filled"
            }
            Refusal::Room => "the arena has no room for the blocks that this report needs",
            Refusal::Writing => {
                "the arena or the table is damaged; the lines before the damage were written \
                 and the report was not numbered"
            }
            Refusal::Unknown(_) => "the library is a later one, whose refusals are not known here",
        }
    }
}

impl fmt::Display for Refusal {
    fn fmt(&self, text: &mut fmt::Formatter<'_>) -> fmt::Result {
        write!(text, "refusal {}: {}", self.number(), self.words())
    }
}

impl Error for Refusal {}

#[cfg(test)]
mod tests {
    use super::*;

    #[test]
    fn numbers_go_there_and_back() {
        for (number, refusal) in (1..).zip(Refusal::ALL) {
            assert_eq!(refusal.number(), number);
            assert_eq!(Refusal::of_number(number), Some(refusal));
        }
        assert_eq!(Refusal::of_number(0), None);
        assert_eq!(Refusal::of_number(14), None);
        assert_eq!(Refusal::of_number(255), None);
        assert_eq!(Refusal::Unknown(14).number(), 14);
    }

    #[test]
    fn each_refusal_has_words_of_its_own() {
        let unknown = Refusal::Unknown(14);
        let refusals = Refusal::ALL.iter().chain([&unknown]);
        let texts: Vec<String> = refusals.map(Refusal::to_string).collect();
        for (place, text) in texts.iter().enumerate() {
            assert!(
                text.starts_with(&format!("refusal {}: ", place + 1)),
                "{text}"
            );
            assert!(!texts[..place].contains(text), "{text}");
        }
    }
}
