//! The log on a disk that goes off at any of its calls and loses any sectors that were not synced, and
//! on one whose calls fail. Whatever was answered is held.

use std::io;

use reference::draws::Draws;
use reports::disk::Disk;
use reports::frames::Frames;
use reports::log::append::NotKept;
use reports::log::{head, Finding, Log};

/// How many courses are drawn for each size of sectors.
const COURSES: u64 = 3_000;

/// The sizes of a sector. Small ones part heads and records often.
const SECTORS: [usize; 4] = [1, 8, 64, 512];

/// A disk that goes off at one of its calls.
struct Failing {
    /// What is there for certain.
    synced: Vec<u8>,
    /// What a program reads.
    bytes: Vec<u8>,
    /// How many calls are answered.
    calls: u64,
    /// Whether calls fail for good after that; otherwise only one does.
    for_good: bool,
}

impl Failing {
    fn new(bytes: Vec<u8>, calls: u64, for_good: bool) -> Failing {
        Failing {
            synced: bytes.clone(),
            bytes,
            calls,
            for_good,
        }
    }

    /// Counts a call; tells whether it fails.
    fn fails(&mut self) -> bool {
        if self.calls == 0 {
            if !self.for_good {
                self.calls = u64::MAX;
            }
            return true;
        }
        self.calls -= 1;
        false
    }

    /// What is there when the disk is on again: of each sector what was synced or what was written
    /// since, and one of the two lengths or one between.
    fn left(&self, draws: &mut Draws, sector: usize) -> Vec<u8> {
        let lengths = [self.synced.len(), self.bytes.len()];
        let (short, long) = (lengths[0].min(lengths[1]), lengths[0].max(lengths[1]));
        let length = match draws.below(3) {
            0 => short,
            1 => long,
            _ => draws.between(short, long),
        };
        let at = |bytes: &[u8], place: usize| bytes.get(place).copied().unwrap_or(0);
        let mut left = Vec::new();
        while left.len() < length {
            let newer = draws.below(2) == 0;
            let bytes = if newer { &self.bytes } else { &self.synced };
            let end = (left.len() / sector + 1) * sector;
            (left.len()..end.min(length)).for_each(|place| left.push(at(bytes, place)));
        }
        left
    }
}

fn failed() -> io::Error {
    io::Error::other("the disk is off")
}

impl Disk for Failing {
    fn read(&mut self, from: u64) -> io::Result<Vec<u8>> {
        if self.fails() {
            return Err(failed());
        }
        Ok(self.bytes.get(from as usize..).unwrap_or_default().to_vec())
    }

    fn append(&mut self, end: u64, bytes: &[u8]) -> io::Result<()> {
        assert_eq!(self.bytes.len() as u64, end, "a write not at the end");
        if self.fails() {
            // Half of it is written.
            self.bytes.extend(&bytes[..bytes.len() / 2]);
            return Err(failed());
        }
        self.bytes.extend(bytes);
        Ok(())
    }

    fn cut(&mut self, end: u64) -> io::Result<()> {
        if self.fails() {
            return Err(failed());
        }
        self.bytes.truncate(end as usize);
        Ok(())
    }

    fn sync(&mut self) -> io::Result<()> {
        if self.fails() {
            // All of it may be there for certain, and the answer alone is lost.
            if !self.for_good {
                self.synced = self.bytes.clone();
            }
            return Err(failed());
        }
        self.synced = self.bytes.clone();
        Ok(())
    }
}

/// The reports of a course: what was answered, and the groups.
#[derive(Default)]
struct Course {
    /// The frames of all reports that were answered or that may be held.
    frames: Vec<Vec<u8>>,
    /// How many of them were answered.
    answered: usize,
    /// Where a group may end: numbers of reports held.
    ends: Vec<usize>,
}

/// Reads the log, mends it, and appends some reports; stops where the disk goes off.
fn write(course: &mut Course, disk: &mut dyn Disk, draws: &mut Draws) -> Result<(), ()> {
    let mut log = Log::default();
    log.read_on(&disk.read(log.read_from()).map_err(drop)?);
    if let Finding::Torn { .. } = log.finding() {
        log.mend(disk).map_err(drop)?;
    }
    assert_eq!(log.finding(), Finding::Sound);
    // What was written and not answered may be held, or it is gone for good.
    let held = log.frames().len();
    course.frames.truncate(held);
    course.answered = held;
    course.ends = vec![held];
    for _ in 0..draws.between(1, 4) {
        let as_group = draws.below(2) == 0;
        let mut frames = Frames::default();
        for _ in 0..draws.between(1, 3) {
            let length = draws.between(1, 36);
            let term = draws.term(length);
            let frame = report_index::frame::report(&[(term, draws.number())]).unwrap();
            frames.push(&frame);
            course.frames.push(frame);
            if !as_group {
                course.ends.push(course.frames.len());
            }
        }
        course.ends.push(course.frames.len());
        log.append(disk, &frames, as_group).map_err(drop)?;
        course.answered = course.frames.len();
    }
    Ok(())
}

/// Fails unless everything that was answered is held, and nothing that was never brought. Gives the
/// bytes to go on with.
fn check(course: &Course, bytes: Vec<u8>, name: &str) -> Vec<u8> {
    let mut log = Log::default();
    log.read_on(&bytes);
    let held: Vec<Vec<u8>> = log.frames().iter().map(<[u8]>::to_vec).collect();
    assert!(
        held.len() >= course.answered,
        "{name}: an answered report is gone"
    );
    assert!(
        course.frames.starts_with(&held),
        "{name}: other reports are held"
    );
    assert!(
        course.ends.contains(&held.len()),
        "{name}: a group is held in part"
    );
    match log.finding() {
        Finding::Sound | Finding::Torn { .. } => bytes,
        // A sector in the middle of what was never answered is gone. The sound part goes on.
        Finding::Damaged { .. } => bytes[..log.end() as usize].to_vec(),
        finding => panic!("{name}: {finding:?}"),
    }
}

#[test]
fn a_disk_that_goes_off_and_loses_sectors() {
    let mut damaged = 0;
    for sector in SECTORS {
        for seed in 1..=COURSES {
            let mut draws = Draws::new(seed.wrapping_mul(0x9E37_79B9_7F4A_7C15) | 1);
            let mut course = Course {
                ends: vec![0],
                ..Course::default()
            };
            let mut bytes = head::write().to_vec();
            for run in 1..=4 {
                let name = format!("sectors of {sector}, course {seed}, run {run}");
                let mut disk = Failing::new(bytes, draws.below(14), true);
                let done = write(&mut course, &mut disk, &mut draws);
                let left = match done {
                    // Nothing goes off: all of it is synced.
                    Ok(()) => disk.synced.clone(),
                    Err(()) => disk.left(&mut draws, sector),
                };
                let length = left.len();
                bytes = check(&course, left, &name);
                damaged += usize::from(bytes.len() < length);
            }
        }
    }
    assert!(damaged > 0, "no course lost a sector in the middle");
}

/// Each call in turn fails once, and the disk goes on: what was not kept is taken back, and what is
/// said of it is so.
#[test]
fn a_call_that_fails_once() {
    let frame = report_index::frame::report(&[("zn", 3)]).unwrap();
    let mut frames = Frames::default();
    frames.push(&frame);
    // Calls: read, append, sync, and after a failure cut, sync.
    for calls in 0..4 {
        let before = head::write().to_vec();
        let mut disk = Failing::new(before.clone(), calls, false);
        let mut log = Log::default();
        let read = disk.read(0);
        assert_eq!(read.is_err(), calls == 0);
        log.read_on(&read.unwrap_or_else(|_| before.clone()));
        let appended = log.append(&mut disk, &frames, false);
        match calls {
            1 | 2 => {
                assert!(
                    matches!(appended, Err(NotKept::TakenBack(_))),
                    "{appended:?}"
                );
                assert_eq!((disk.bytes, disk.synced), (before.clone(), before));
                assert_eq!(log.frames().len(), 0);
            }
            _ => {
                assert!(appended.is_ok());
                assert_eq!(disk.bytes, disk.synced);
                assert_eq!(log.frames().len(), 1);
            }
        }
    }
}

/// Where taking back fails too, nothing certain is said.
#[test]
fn calls_that_fail_for_good() {
    let mut frames = Frames::default();
    frames.push(&report_index::frame::report(&[("zn", 3)]).unwrap());
    for calls in 0..2 {
        let mut disk = Failing::new(head::write().to_vec(), calls, true);
        let mut log = Log::default();
        log.read_on(&head::write());
        let appended = log.append(&mut disk, &frames, false);
        assert!(matches!(appended, Err(NotKept::Unknown(_))), "{appended:?}");
        assert_eq!(log.frames().len(), 0);
    }
}
