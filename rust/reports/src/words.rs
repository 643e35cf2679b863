//! Between text and the lines of a report.
//!
//! Text is UTF-8, and a character of a term is the byte that ISO 8859-1 gives to it: its number, where
//! that is below 256.

use report_index::frame::MAX_COUNT;

use crate::failure::Failure;
use crate::frames;

/// What stands for a byte that is no character of a word: a control character or a space. No term can
/// be written so, since it is no character of ISO 8859-1.
pub const NO_CHARACTER: char = '\u{FFFD}';

/// The words of a line of text. They are parted by spaces and tabs.
pub fn split(line: &[u8]) -> Result<Vec<String>, Failure> {
    let text = std::str::from_utf8(line)
        .map_err(|_| Failure::Usage("the line is not UTF-8".to_string()))?;
    let words = text.trim_end_matches(['\r', '\n']).split([' ', '\t']);
    Ok(words
        .filter(|word| !word.is_empty())
        .map(str::to_string)
        .collect())
}

/// A line of a report: `zn=3` is the term "zn" with count 3, and `P17` is `P17=1`. The count stands
/// behind the last `=`.
pub fn line(place: usize, word: &str) -> Result<(Vec<u8>, u32), Failure> {
    let Some((term, count)) = word.rsplit_once('=') else {
        return Ok((term(place, word)?, 1));
    };
    let Some(count) = number(count) else {
        return Err(Failure::Usage(format!(
            "word {place}, \"{}\": behind the last = stands no number from 0 to {}",
            shown(word, LONGEST_SHOWN),
            in_threes(MAX_COUNT.into())
        )));
    };
    Ok((self::term(place, term)?, count))
}

/// The bytes of a term.
pub fn term(place: usize, word: &str) -> Result<Vec<u8>, Failure> {
    if word.is_ascii() {
        return Ok(word.as_bytes().to_vec());
    }
    let bytes: Result<Vec<u8>, _> = word.chars().map(u8::try_from).collect();
    bytes.map_err(|_| {
        Failure::Usage(format!(
            "word {place}, \"{}\", has a character that is not in ISO 8859-1",
            shown(word, LONGEST_SHOWN)
        ))
    })
}

/// A number from 0 to 4,294,967,295, in digits alone.
pub fn number(word: &str) -> Option<u32> {
    let digits = !word.is_empty() && word.bytes().all(|byte| byte.is_ascii_digit());
    digits.then(|| word.parse().ok()).flatten()
}

/// A term as text.
pub fn text(term: &[u8]) -> String {
    let visible = |byte: &u8| !matches!(byte, 0x00..=0x20 | 0x7F..=0x9F);
    let character = |byte| {
        if visible(byte) {
            char::from(*byte)
        } else {
            NO_CHARACTER
        }
    };
    term.iter().map(character).collect()
}

/// A held report as the line that takes it again: `report zn=3 P17=1`. A term that begins with `--`
/// stands behind a `--`, so that it is no option. There is none where the frame's fields do not fit
/// into it.
pub fn report(frame: &[u8]) -> Option<String> {
    let lines = frames::lines(frame)?;
    let mut line = "report".to_string();
    if lines.iter().any(|(term, _)| term.starts_with(b"--")) {
        line.push_str(" --");
    }
    for (term, count) in lines {
        line.push_str(&format!(" {}={count}", text(term)));
    }
    Some(line)
}

/// A number with its digits in threes.
pub fn in_threes(number: u64) -> String {
    let digits = number.to_string();
    let mut text = String::new();
    for (place, digit) in digits.chars().enumerate() {
        if place > 0 && (digits.len() - place).is_multiple_of(3) {
            text.push(',');
        }
        text.push(digit);
    }
    text
}

/// A word for a message: its first characters, with control characters replaced.
pub fn shown(word: &str, longest: usize) -> String {
    let visible = |character: char| match character {
        character if character.is_control() => NO_CHARACTER,
        character => character,
    };
    let mut text: String = word.chars().map(visible).take(longest).collect();
    if word.chars().nth(longest).is_some() {
        text.push('…');
    }
    text
}

/// How many characters of a word that is not understood a message shows.
const LONGEST_SHOWN: usize = 40;

#[cfg(test)]
mod tests {
    use super::*;
    use report_index::frame;

    #[test]
    fn words_are_parted_by_spaces_and_tabs() {
        assert_eq!(
            split(b" report\tzn=3  P17 \r\n").unwrap(),
            ["report", "zn=3", "P17"]
        );
        assert_eq!(split(b" \t").unwrap(), [""; 0]);
        // A space that does not break is a character of a term; the library judges it.
        assert_eq!(split("a\u{A0}b".as_bytes()).unwrap(), ["a\u{A0}b"]);
        assert!(split(b"zn\xFF").is_err());
    }

    #[test]
    fn counts_stand_behind_the_last_sign() {
        let taken = |word| line(1, word).unwrap();
        assert_eq!(taken("zn=3"), (b"zn".to_vec(), 3));
        assert_eq!(taken("zn"), (b"zn".to_vec(), 1));
        assert_eq!(taken("a=b=07"), (b"a=b".to_vec(), 7));
        assert_eq!(taken("=0"), (b"".to_vec(), 0));
        assert_eq!(taken("zn=4294967295"), (b"zn".to_vec(), u32::MAX));
        for word in [
            "zn=",
            "zn=x",
            "zn=3=y",
            "zn=-1",
            "zn=+1",
            "zn=4294967296",
            "zn=1 ",
        ] {
            assert!(matches!(line(1, word), Err(Failure::Usage(_))), "{word}");
        }
    }

    #[test]
    fn a_character_is_a_byte() {
        assert_eq!(term(1, "Müller").unwrap(), b"M\xFCller");
        assert_eq!(text(b"M\xFCller"), "Müller");
        assert!(matches!(term(1, "Dvořák"), Err(Failure::Usage(_))));
        for byte in 0..=u8::MAX {
            let text = text(&[byte]);
            let back = term(1, &text).ok();
            let control = byte <= 0x20 || (0x7F..=0x9F).contains(&byte);
            assert_eq!(back, (!control).then_some(vec![byte]), "{byte:02X}");
        }
    }

    #[test]
    fn a_held_report_is_the_line_that_takes_it_again() {
        let text_of = |lines: &[(&str, u32)]| report(&frame::report(lines).unwrap()).unwrap();
        assert_eq!(text_of(&[]), "report");
        assert_eq!(text_of(&[("zn", 3), ("P17", 1)]), "report zn=3 P17=1");
        assert_eq!(text_of(&[("a=b", 1)]), "report a=b=1");
        assert_eq!(text_of(&[("--expect", 2)]), "report -- --expect=2");
        assert_eq!(report(b"\x01\x00\x02\x01\x05"), None);
    }

    #[test]
    fn digits_in_threes() {
        let numbers = [0, 36, 999, 1_000, 4_294_967_295];
        let texts = numbers.map(in_threes);
        assert_eq!(texts, ["0", "36", "999", "1,000", "4,294,967,295"]);
    }
}
