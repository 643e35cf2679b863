//! The file of a log: opening and locking it, and making a new one.

use std::ffi::OsString;
use std::fs::{self, File, OpenOptions, Permissions, TryLockError};
use std::io::{self, ErrorKind, Read, Seek, SeekFrom, Write};
use std::os::unix::fs::{MetadataExt, OpenOptionsExt};
use std::path::{Path, PathBuf};
use std::thread;
use std::time::{Duration, Instant};

use crate::disk::Disk;

/// How long to wait between two tries for the lock.
const PAUSE: Duration = Duration::from_millis(20);

/// How many names are tried for a file that is written beside another.
const MOST_TRIES: u32 = 1_000;

/// What a command does with the file.
#[derive(Debug, Clone, Copy, PartialEq, Eq)]
pub enum Access {
    /// It reads. Others may read meanwhile.
    Read,
    /// It reads and writes. All others wait.
    Write,
}

/// The file of a log, open and locked. The lock ends with it.
#[derive(Debug)]
pub struct LogFile {
    file: File,
}

impl LogFile {
    /// Opens the file and waits for the lock up to `wait`. `waiting` is called once, where the lock
    /// is not free at first. Gives nothing where it was not had.
    pub fn open(
        path: &Path,
        access: Access,
        wait: Duration,
        waiting: impl FnOnce(),
    ) -> io::Result<Option<LogFile>> {
        if !fs::metadata(path)?.is_file() {
            return Err(io::Error::other("it is no regular file"));
        }
        let write = access == Access::Write;
        let file = OpenOptions::new().read(true).write(write).open(path)?;
        let log = LogFile { file };
        if log.try_lock(access)? {
            return Ok(Some(log));
        }
        waiting();
        let begun = Instant::now();
        while begun.elapsed() < wait {
            thread::sleep(PAUSE.min(wait));
            if log.try_lock(access)? {
                return Ok(Some(log));
            }
        }
        Ok(None)
    }

    /// Takes the lock, if it is free.
    fn try_lock(&self, access: Access) -> io::Result<bool> {
        let tried = match access {
            Access::Read => self.file.try_lock_shared(),
            Access::Write => self.file.try_lock(),
        };
        match tried {
            Ok(()) => Ok(true),
            Err(TryLockError::WouldBlock) => Ok(false),
            Err(TryLockError::Error(error)) => Err(error),
        }
    }

    /// What tells this file from every other: its device and its number there.
    pub fn identity(&self) -> io::Result<(u64, u64)> {
        let about = self.file.metadata()?;
        Ok((about.dev(), about.ino()))
    }

    /// How many bytes the file has.
    pub fn length(&self) -> io::Result<u64> {
        Ok(self.file.metadata()?.len())
    }

    /// Who may read and write the file.
    pub fn permissions(&self) -> io::Result<Permissions> {
        Ok(self.file.metadata()?.permissions())
    }
}

impl Drop for LogFile {
    fn drop(&mut self) {
        // Closing would free the lock too, but not while a process that is being started has a copy
        // of all open files.
        let _ = self.file.unlock();
    }
}

impl Disk for LogFile {
    fn read(&mut self, from: u64) -> io::Result<Vec<u8>> {
        let mut bytes = Vec::new();
        self.file.seek(SeekFrom::Start(from))?;
        self.file.read_to_end(&mut bytes)?;
        Ok(bytes)
    }

    fn append(&mut self, end: u64, bytes: &[u8]) -> io::Result<()> {
        self.file.seek(SeekFrom::Start(end))?;
        self.file.write_all(bytes)
    }

    fn cut(&mut self, end: u64) -> io::Result<()> {
        self.file.set_len(end)
    }

    fn sync(&mut self) -> io::Result<()> {
        self.file.sync_all()
    }
}

/// Makes a file with these bytes, whole or not at all: written beside under another name, synced,
/// named, and the folder synced. A file that is there is never replaced. Where `permissions` are
/// given, nobody can read the new file who may not read the one that they come from.
pub fn create(path: &Path, bytes: &[u8], permissions: Option<Permissions>) -> io::Result<()> {
    let (beside, file) = open_beside(path, permissions.is_some())?;
    let written = write_whole(file, bytes, permissions);
    let named = written.and_then(|()| name(&beside, path));
    if named.is_err() {
        // What is left beside is of no use; the first error is the one to tell.
        let _ = fs::remove_file(&beside);
    }
    named?;
    sync_folder(path)
}

/// The path with this ending behind its last name.
pub fn with_ending(path: &Path, ending: &str) -> PathBuf {
    let mut name = OsString::from(path);
    name.push(ending);
    PathBuf::from(name)
}

/// Makes a file beside `path` under a name that is free; a private one, or one that is open to all
/// whom the system lets read new files.
fn open_beside(path: &Path, private: bool) -> io::Result<(PathBuf, File)> {
    let mode = if private { 0o600 } else { 0o666 };
    let mut tries = 0;
    loop {
        let beside = with_ending(path, &format!(".part-{}-{tries}", std::process::id()));
        let mut options = OpenOptions::new();
        options.write(true).create_new(true).mode(mode);
        match options.open(&beside) {
            Err(error) if error.kind() == ErrorKind::AlreadyExists && tries < MOST_TRIES => {
                tries += 1;
            }
            opened => return Ok((beside, opened?)),
        }
    }
}

/// Writes all of the file, for certain.
fn write_whole(mut file: File, bytes: &[u8], permissions: Option<Permissions>) -> io::Result<()> {
    if let Some(permissions) = permissions {
        file.set_permissions(permissions)?;
    }
    file.write_all(bytes)?;
    file.sync_all()
}

/// Gives the file its name, unless there is a file of that name. A second name and then the end of
/// the first, since renaming would replace a file that another program made just now; file systems
/// without second names have to do with a look before.
fn name(beside: &Path, path: &Path) -> io::Result<()> {
    match fs::hard_link(beside, path) {
        Ok(()) => fs::remove_file(beside),
        Err(error) if error.kind() == ErrorKind::AlreadyExists => Err(error),
        Err(_) if fs::symlink_metadata(path).is_ok() => Err(ErrorKind::AlreadyExists.into()),
        Err(_) => fs::rename(beside, path),
    }
}

/// Has the file's name kept for certain.
fn sync_folder(path: &Path) -> io::Result<()> {
    let folder = match path.parent() {
        Some(folder) if !folder.as_os_str().is_empty() => folder,
        _ => Path::new("."),
    };
    File::open(folder)?.sync_all()
}
