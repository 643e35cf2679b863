//! Frames of reports: many of them in one piece of memory, and the fields of one.

use report_index::frame::{REPORT, START_BYTES, VERSION};

/// Frames one behind the other. The first is that of report 1.
#[derive(Debug, Clone, Default, PartialEq, Eq)]
pub struct Frames {
    bytes: Vec<u8>,
    /// Where each frame ends.
    ends: Vec<usize>,
}

impl Frames {
    /// How many frames there are.
    pub fn len(&self) -> usize {
        self.ends.len()
    }

    /// Whether there is none.
    pub fn is_empty(&self) -> bool {
        self.ends.is_empty()
    }

    /// The frames one behind the other.
    pub fn bytes(&self) -> &[u8] {
        &self.bytes
    }

    /// Puts a frame behind the others.
    pub fn push(&mut self, frame: &[u8]) {
        self.bytes.extend(frame);
        self.ends.push(self.bytes.len());
    }

    /// Puts all of these frames behind the others.
    pub fn append(&mut self, frames: &Frames) {
        frames.iter().for_each(|frame| self.push(frame));
    }

    /// Forgets all frames.
    pub fn clear(&mut self) {
        self.bytes.clear();
        self.ends.clear();
    }

    /// The frame at this place, the first at 0.
    pub fn get(&self, place: usize) -> Option<&[u8]> {
        let end = *self.ends.get(place)?;
        let start = place.checked_sub(1).map_or(0, |before| self.ends[before]);
        Some(&self.bytes[start..end])
    }

    /// All frames, the first first.
    pub fn iter(&self) -> impl Iterator<Item = &[u8]> + Clone {
        (0..self.len()).filter_map(|place| self.get(place))
    }
}

/// Whether this program knows no frame of this kind. A frame too short to have a kind is not unknown:
/// the library refuses it.
pub fn is_unknown(frame: &[u8]) -> bool {
    let kind = frame.get(START_BYTES);
    kind.is_some_and(|kind| frame[0] != VERSION || *kind != REPORT)
}

/// The lines of a report's frame, a term and its count each. There are none where the frame's fields
/// do not fit into it.
pub fn lines(frame: &[u8]) -> Option<Vec<(&[u8], u32)>> {
    let mut rest = frame.get(START_BYTES + 1..)?;
    let mut lines = Vec::new();
    while let Some((length, behind)) = rest.split_first() {
        let (term, behind) = behind.split_at_checked(usize::from(*length))?;
        let (count, behind) = behind.split_first_chunk()?;
        lines.push((term, u32::from_be_bytes(*count)));
        rest = behind;
    }
    Some(lines)
}

#[cfg(test)]
mod tests {
    use super::*;
    use report_index::frame;

    #[test]
    fn frames_are_given_back() {
        let mut frames = Frames::default();
        assert_eq!((frames.len(), frames.get(0)), (0, None));
        for frame in [&b"one"[..], b"", b"three"] {
            frames.push(frame);
        }
        let held: Vec<&[u8]> = frames.iter().collect();
        assert_eq!(held, [&b"one"[..], b"", b"three"]);
        assert_eq!((frames.get(2), frames.get(3)), (Some(&b"three"[..]), None));
    }

    #[test]
    fn lines_are_those_that_were_built() {
        let lines_of = [("zn", 3), ("P17", u32::MAX)];
        let frame = frame::report(&lines_of).unwrap();
        let held: Vec<(&[u8], u32)> = vec![(b"zn", 3), (b"P17", u32::MAX)];
        assert_eq!(lines(&frame), Some(held));
        assert_eq!(lines(&frame[..frame.len() - 1]), None);
        assert_eq!(lines(b"\x01\x00\x01\x01"), Some(vec![]));
        assert_eq!(lines(b"\x01\x00\x01"), None);
    }

    #[test]
    fn unknown_frames() {
        assert!(!is_unknown(b""));
        assert!(!is_unknown(b"\x02\x00\x01"));
        assert!(!is_unknown(b"\x01\x00\x01\x01"));
        assert!(is_unknown(b"\x01\x00\x01\x04"));
        assert!(is_unknown(b"\x02\x00\x01\x01"));
    }
}
