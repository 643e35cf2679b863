//! Lines of text, as many at a time as are there.

use std::io::{self, ErrorKind, Read};

/// The most bytes of a line. A report has far fewer, in any spelling.
pub const LONGEST_LINE: usize = 1 << 20;

/// How many bytes are asked for at a time.
const PIECE: usize = 64 * 1_024;

/// A line without its end.
#[derive(Debug, Clone, PartialEq, Eq)]
pub enum Line {
    /// The bytes of the line.
    Text(Vec<u8>),
    /// It had more than [`LONGEST_LINE`] bytes, which were passed over.
    TooLong,
}

/// The lines of an input.
pub struct Lines<R> {
    input: R,
    /// What was read behind the last line given.
    rest: Vec<u8>,
    /// Whether `rest` ends in a line that is too long, whose first bytes were thrown away.
    too_long: bool,
    ended: bool,
}

impl<R: Read> Lines<R> {
    /// The lines of this input.
    pub fn new(input: R) -> Lines<R> {
        Lines {
            input,
            rest: Vec::new(),
            too_long: false,
            ended: false,
        }
    }

    /// The lines that are there, at least one; none at the end of the input.
    pub fn waiting(&mut self) -> io::Result<Vec<Line>> {
        let mut lines = Vec::new();
        while lines.is_empty() && !self.ended {
            self.read_piece()?;
            self.take_lines(&mut lines);
        }
        Ok(lines)
    }

    /// Reads what is there, and waits where nothing is.
    fn read_piece(&mut self) -> io::Result<()> {
        let before = self.rest.len();
        self.rest.resize(before + PIECE, 0);
        let read = loop {
            match self.input.read(&mut self.rest[before..]) {
                Err(error) if error.kind() == ErrorKind::Interrupted => {}
                read => break read,
            }
        };
        let length = *read.as_ref().unwrap_or(&0);
        self.rest.truncate(before + length);
        self.ended = read? == 0;
        Ok(())
    }

    /// Takes the whole lines out of what was read; at the end of the input the last one, too.
    fn take_lines(&mut self, lines: &mut Vec<Line>) {
        let whole = self.rest.iter().rposition(|byte| *byte == b'\n');
        let rest = self.rest.split_off(whole.map_or(0, |end| end + 1));
        let whole = std::mem::replace(&mut self.rest, rest);
        for line in whole.split_inclusive(|byte| *byte == b'\n') {
            self.give(&line[..line.len() - 1], lines);
        }
        if self.rest.len() > LONGEST_LINE {
            self.too_long = true;
            self.rest.clear();
        }
        if self.ended && (self.too_long || !self.rest.is_empty()) {
            let last = std::mem::take(&mut self.rest);
            self.give(&last, lines);
        }
    }

    fn give(&mut self, line: &[u8], lines: &mut Vec<Line>) {
        let too_long = std::mem::take(&mut self.too_long) || line.len() > LONGEST_LINE;
        lines.push(if too_long {
            Line::TooLong
        } else {
            Line::Text(line.to_vec())
        });
    }
}

#[cfg(test)]
mod tests {
    use super::*;

    /// An input that gives one piece at each reading.
    struct Pieces(Vec<Vec<u8>>);

    impl Read for Pieces {
        fn read(&mut self, bytes: &mut [u8]) -> io::Result<usize> {
            if self.0.is_empty() {
                return Ok(0);
            }
            let piece = self.0.remove(0);
            bytes[..piece.len()].copy_from_slice(&piece);
            Ok(piece.len())
        }
    }

    fn batches(pieces: &[&[u8]]) -> Vec<Vec<Line>> {
        let pieces = pieces.iter().map(|piece| piece.to_vec()).collect();
        let mut lines = Lines::new(Pieces(pieces));
        let mut batches = Vec::new();
        loop {
            let batch = lines.waiting().unwrap();
            if batch.is_empty() {
                return batches;
            }
            batches.push(batch);
        }
    }

    fn text(line: &str) -> Line {
        Line::Text(line.as_bytes().to_vec())
    }

    #[test]
    fn lines_that_are_there_come_together() {
        let found = batches(&[b"a\nb\nc", b"d", b"e\n\n", b"f"]);
        let expected = [
            vec![text("a"), text("b")],
            vec![text("cde"), text("")],
            vec![text("f")],
        ];
        assert_eq!(found, expected);
        assert_eq!(batches(&[]), [] as [Vec<Line>; 0]);
    }

    #[test]
    fn a_line_that_is_too_long_is_passed_over() {
        let piece = [b'x'; PIECE];
        let mut pieces = vec![&piece[..]; LONGEST_LINE / PIECE + 3];
        pieces.extend([&b"x\nb\n"[..], b"c"]);
        let expected = [vec![Line::TooLong, text("b")], vec![text("c")]];
        assert_eq!(batches(&pieces), expected);
        // A line of the greatest length is none.
        let mut pieces = vec![&piece[..]; LONGEST_LINE / PIECE];
        pieces.push(b"\n");
        assert_eq!(
            batches(&pieces),
            [vec![Line::Text(vec![b'x'; LONGEST_LINE])]]
        );
        pieces.pop();
        pieces.push(b"x");
        assert_eq!(batches(&pieces), [vec![Line::TooLong]]);
    }
}
