//! The reports of one file: the log as far as it was read, and the index that its frames leave.
//!
//! A command is framed by [`Store::begin`], which opens, locks and reads on, and [`Store::end`]. What
//! it takes is judged by the library and stands in the index at once; [`Store::keep`] writes it, and
//! only then may it be answered.

use std::fmt::Display;
use std::io::{self, ErrorKind, Write};
use std::path::{Path, PathBuf};
use std::time::Duration;

use report_index::{Index, Refusal};

use crate::disk::Disk;
use crate::failure::Failure;
use crate::file::{create, with_ending, Access, LogFile};
use crate::frames::{self, Frames};
use crate::index::GrowingIndex;
use crate::log::append::NotKept;
use crate::log::{Finding, Log};
use crate::refused::Brought;
use crate::words::in_threes;

/// What a run of the program is told beside its file and its commands.
#[derive(Debug, Clone, Copy, PartialEq, Eq)]
pub struct Settings {
    /// How long the lock is waited for.
    pub wait: Duration,
    /// The most bytes of the library's memory.
    pub memory: u64,
}

impl Default for Settings {
    fn default() -> Settings {
        Settings {
            wait: Duration::from_secs(5),
            memory: 1 << 30,
        }
    }
}

/// The reports of one file.
#[derive(Debug)]
pub struct Store {
    path: PathBuf,
    settings: Settings,
    /// Open and locked, while a command runs.
    file: Option<LogFile>,
    /// Of the file that was read first.
    identity: Option<(u64, u64)>,
    log: Log,
    /// Reports that the index holds and the log does not yet.
    taken: Frames,
    /// The index of the log's frames, as far as it was needed, and then those taken.
    index: GrowingIndex,
    /// The torn end that was told last.
    told: Option<u64>,
}

impl Store {
    /// The reports of this file. Nothing is read yet.
    pub fn new(path: &Path, settings: Settings) -> Store {
        Store {
            path: path.to_path_buf(),
            settings,
            file: None,
            identity: None,
            log: Log::default(),
            taken: Frames::default(),
            index: GrowingIndex::new(settings.memory),
            told: None,
        }
    }

    /// The file.
    pub fn path(&self) -> &Path {
        &self.path
    }

    /// The log as it was read last.
    pub fn log(&self) -> &Log {
        &self.log
    }

    /// The most bytes of the library's memory.
    pub fn memory(&self) -> u64 {
        self.settings.memory
    }

    /// Opens and locks the file and reads on. A torn end is told on `errors`, and cut off where the
    /// command writes.
    pub fn begin(&mut self, access: Access, errors: &mut dyn Write) -> Result<(), Failure> {
        let mut file = self.open(access, errors)?;
        let bytes = file.read(self.log.read_from());
        self.log.read_on(&bytes.map_err(|error| self.fatal(error))?);
        if let Finding::Torn { byte, bytes } = self.log.finding() {
            let write = access == Access::Write;
            if write {
                self.cut_torn_end(&mut file, byte, errors)?;
            } else if self.told != Some(byte) {
                self.tell_torn_end(byte, bytes, errors);
            }
        }
        self.file = Some(file);
        Ok(())
    }

    /// Closes the file and frees the lock.
    pub fn end(&mut self) {
        self.file = None;
    }

    /// Fails where the log is damaged or only a later program knows it.
    pub fn check(&self) -> Result<(), Failure> {
        let path = self.path.display();
        let held = in_threes(self.log.frames().len() as u64);
        match self.log.finding() {
            Finding::Sound | Finding::Torn { .. } => Ok(()),
            Finding::Damaged { byte: 0 } => Err(Failure::Damaged(format!(
                "{path}: damaged at byte 0: it is no log of reports, or its head is damaged; \
                 recover NEW writes what is sound behind the head to a new file"
            ))),
            Finding::Damaged { byte } => Err(Failure::Damaged(format!(
                "{path}: damaged at byte {byte}; the last sound report is {held}; \
                 recover NEW writes the sound part to a new file"
            ))),
            Finding::Newer { byte } => Err(Failure::Damaged(format!(
                "{path}: written by a newer reports (byte {byte}, behind report {held})"
            ))),
            Finding::Changed => Err(Failure::Damaged(format!(
                "{path}: what was read before is there no longer; another program changed it"
            ))),
        }
    }

    /// The index of all reports held and taken. Fails where this library refuses a held one.
    pub fn index(&mut self) -> Result<&Index, Failure> {
        let (held, memory) = (self.log.frames(), self.settings.memory);
        self.index.give_memory(self.log.end());
        for place in self.index.reports()..held.len() {
            let frame = held.get(place).unwrap_or_default();
            match self.index.take(frame, held.iter().take(place)) {
                Ok(number) => expect_number(number, place + 1)?,
                Err(refusal) => return Err(held_refused(place + 1, frame, refusal, memory)),
            }
        }
        Ok(self.index.index())
    }

    /// The number of the next report.
    pub fn next(&self) -> usize {
        self.log.frames().len() + self.taken.len() + 1
    }

    /// Has a report judged and taken into the index, for [`Store::keep`] to write. `brought` is what
    /// the frame was made of.
    pub fn take(
        &mut self,
        frame: Result<Vec<u8>, Refusal>,
        brought: Brought,
    ) -> Result<u32, Failure> {
        self.index()?;
        let refused = |refusal| brought.refused(refusal, self.settings.memory);
        let frame = frame.map_err(refused)?;
        let earlier = self.log.frames().iter().chain(self.taken.iter());
        let number = self.index.take(&frame, earlier).map_err(refused)?;
        expect_number(number, self.next())?;
        self.taken.push(&frame);
        Ok(number)
    }

    /// The frames of all reports, those taken and not written too.
    pub fn frames(&self) -> impl Iterator<Item = &[u8]> + Clone {
        self.log.frames().iter().chain(self.taken.iter())
    }

    /// The frame at this place, the first at 0.
    pub fn frame(&self, place: usize) -> Option<&[u8]> {
        let held = self.log.frames();
        match place.checked_sub(held.len()) {
            None => held.get(place),
            Some(place) => self.taken.get(place),
        }
    }

    /// How many bytes the frames have that are taken and not written.
    pub fn taken_bytes(&self) -> usize {
        self.taken.bytes().len()
    }

    /// Writes what was taken and comes back when it is there for certain.
    pub fn keep(&mut self) -> Result<(), Failure> {
        self.write_taken(false)
    }

    /// Writes what was taken, all or none of it.
    pub fn keep_as_group(&mut self) -> Result<(), Failure> {
        self.write_taken(true)
    }

    /// Forgets what was taken and not written.
    pub fn forget_taken(&mut self) {
        if !self.taken.is_empty() {
            self.taken.clear();
            // It holds what was taken. The next one is made of the log alone.
            self.index = GrowingIndex::new(self.settings.memory);
        }
    }

    /// Reads the whole file again, from its first byte, and forgets what was read before.
    pub fn read_again(&mut self) -> Result<(), Failure> {
        let bytes = self.whole_file()?;
        self.log = Log::default();
        self.log.read_on(&bytes);
        self.index = GrowingIndex::new(self.settings.memory);
        self.check()
    }

    /// How many bytes the file has.
    pub fn length(&self) -> Result<u64, Failure> {
        let length = self.file().and_then(LogFile::length);
        length.map_err(|error| self.fatal(error))
    }

    /// Makes a file with these bytes that the same people may read.
    pub fn create_alike(&self, path: &Path, bytes: &[u8]) -> io::Result<()> {
        create(path, bytes, Some(self.file()?.permissions()?))
    }

    /// The open file.
    fn file(&self) -> io::Result<&LogFile> {
        let none = || io::Error::other("it is not open");
        self.file.as_ref().ok_or_else(none)
    }

    /// All bytes of the file.
    pub fn whole_file(&mut self) -> Result<Vec<u8>, Failure> {
        let none = || io::Error::other("it is not open");
        let file = self.file.as_mut().ok_or_else(none);
        let bytes = file.and_then(|file| file.read(0));
        bytes.map_err(|error| self.fatal(error))
    }

    /// Opens and locks the file, which has to be the one that was read before.
    fn open(&mut self, access: Access, errors: &mut dyn Write) -> Result<LogFile, Failure> {
        let wait = self.settings.wait;
        let waiting = || {
            tell(errors, "waiting for another program that uses the file");
        };
        let opened = LogFile::open(&self.path, access, wait, waiting);
        let opened = opened.map_err(|error| match error.kind() {
            ErrorKind::NotFound => self.fatal(format!(
                "there is no such file; reports {} new makes one",
                self.path.display()
            )),
            _ => self.fatal(error),
        })?;
        let Some(file) = opened else {
            return Err(self.fatal(format!(
                "another program had it locked for {} s; nothing was done",
                wait.as_secs_f64()
            )));
        };
        let identity = file.identity().map_err(|error| self.fatal(error))?;
        if *self.identity.get_or_insert(identity) != identity {
            return Err(self.fatal("it is another file than the one read before"));
        }
        Ok(file)
    }

    /// Keeps a copy of the file with its torn end and cuts this off.
    fn cut_torn_end(
        &mut self,
        file: &mut LogFile,
        byte: u64,
        errors: &mut dyn Write,
    ) -> Result<(), Failure> {
        let copied = self.copy_torn(file, byte);
        let copy = copied.map_err(|error| {
            self.fatal(format!(
                "torn at byte {byte}, and no copy can be kept: {error}"
            ))
        })?;
        let mended = self.log.mend(file);
        mended.map_err(|error| self.fatal(format!("the torn end cannot be cut off: {error}")))?;
        tell(
            errors,
            &format!(
                "{}: torn at byte {byte}; what was never answered is cut off, with a copy in {}",
                self.path.display(),
                copy.display()
            ),
        );
        Ok(())
    }

    /// Keeps a copy of the whole file. A copy that is there already is not made again, and another
    /// file of that name is left alone.
    fn copy_torn(&self, file: &mut LogFile, byte: u64) -> io::Result<PathBuf> {
        let bytes = file.read(0)?;
        for number in 1.. {
            let again = if number == 1 {
                String::new()
            } else {
                format!(".{number}")
            };
            let copy = with_ending(&self.path, &format!(".torn-{byte}{again}"));
            match create(&copy, &bytes, Some(file.permissions()?)) {
                Err(error) if error.kind() == ErrorKind::AlreadyExists => {
                    if std::fs::read(&copy).is_ok_and(|held| held == bytes) {
                        return Ok(copy);
                    }
                }
                created => return created.map(|()| copy),
            }
        }
        Err(ErrorKind::AlreadyExists.into())
    }

    fn tell_torn_end(&mut self, byte: u64, bytes: u64, errors: &mut dyn Write) {
        self.told = Some(byte);
        let path = self.path.display();
        tell(
            errors,
            &format!(
                "{path}: torn at byte {byte}; {} bytes that were never answered are left out",
                in_threes(bytes)
            ),
        );
    }

    fn write_taken(&mut self, as_group: bool) -> Result<(), Failure> {
        if self.taken.is_empty() {
            return Ok(());
        }
        let Some(file) = self.file.as_mut() else {
            return Err(self.fatal("it is not open"));
        };
        let first = self.log.frames().len() + 1;
        let written = self.log.append(file, &self.taken, as_group);
        written.map_err(|not_kept| {
            let last = first + self.taken.len() - 1;
            Failure::Fatal(not_kept_text(first, last, &not_kept))
        })?;
        self.taken.clear();
        Ok(())
    }

    /// A failure that every command on this file would meet.
    fn fatal(&self, why: impl Display) -> Failure {
        Failure::Fatal(format!("{}: {why}", self.path.display()))
    }
}

/// Writes a line on standard error. Where nobody reads it, nobody is told.
pub fn tell(errors: &mut dyn Write, text: &str) {
    let _ = writeln!(errors, "{text}");
}

/// Fails where the library gives another number than the log to a report.
fn expect_number(number: u32, expected: usize) -> Result<(), Failure> {
    if number as usize == expected {
        return Ok(());
    }
    let text = format!("the library answers {number} to report {expected}");
    Err(Failure::Fatal(text))
}

/// The failure where this library refuses a report that is held.
fn held_refused(number: usize, frame: &[u8], refusal: Refusal, memory: u64) -> Failure {
    let lines = frames::lines(frame).unwrap_or_default();
    let lines: Vec<(Vec<u8>, u32)> = lines
        .into_iter()
        .map(|(term, count)| (term.to_vec(), count))
        .collect();
    match Brought::Report(&lines).refused(refusal, memory) {
        Failure::Refused { number: rule, text } => Failure::Refused {
            number: rule,
            text: format!("the held report {number}: {text}"),
        },
        other => other,
    }
}

/// What is known of reports that could not be written.
fn not_kept_text(first: usize, last: usize, not_kept: &NotKept) -> String {
    let reports = if first == last {
        format!("report {first}")
    } else {
        format!("reports {first} to {last}")
    };
    match not_kept {
        NotKept::TakenBack(error) => format!("{reports}: not kept: {error}"),
        NotKept::Unknown(error) => {
            format!("{reports}: not known whether kept: see info ({error})")
        }
    }
}
