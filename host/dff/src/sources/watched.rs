//! A file that is read while others may write to it: what it was when it was opened is held against what it is later.

use crate::Fault;
use std::fs::{File, Metadata};
use std::io;
use std::os::unix::fs::{FileExt, MetadataExt};
use std::path::{Path, PathBuf};
use std::sync::Arc;
use std::time::{Duration, SystemTime, UNIX_EPOCH};

/// An open file, its path and what it was. Clones share the open file.
#[derive(Clone)]
pub struct Watched {
    file: Arc<File>,
    path: PathBuf,
    state: State,
}

/// Which file it is, by whatever name.
#[derive(Clone, Copy, Debug, PartialEq)]
pub struct Identity(u64, u64);

impl Identity {
    pub fn of(found: &Metadata) -> Identity {
        Identity(found.dev(), found.ino())
    }
}

/// Size and times. A write that leaves the size moves the times, if they are old enough.
#[derive(Clone, Copy, PartialEq)]
struct State {
    file: Identity,
    size: u64,
    modified: (i64, i64),
    changed: (i64, i64),
}

impl State {
    fn of(found: &Metadata) -> State {
        State {
            file: Identity::of(found),
            size: found.size(),
            modified: (found.mtime(), found.mtime_nsec()),
            changed: (found.ctime(), found.ctime_nsec()),
        }
    }

    /// How long to wait until a further write must move a time.
    fn wait(&self) -> Option<Duration> {
        let now = SystemTime::now().duration_since(UNIX_EPOCH).ok()?;
        [self.modified, self.changed].iter().filter_map(|time| young(*time, now)).max()
    }
}

/// File systems count time in steps of up to some milliseconds.
const STEP: Duration = Duration::from_millis(20);

/// What is left of the step that the time is in, if it is less than a step ago.
fn young((seconds, nanoseconds): (i64, i64), now: Duration) -> Option<Duration> {
    let time = Duration::new(u64::try_from(seconds).ok()?, u32::try_from(nanoseconds).ok()?);
    let age = now.checked_sub(time)?;
    STEP.checked_sub(age).filter(|left| !left.is_zero())
}

impl Watched {
    /// Watches an open file from now on.
    pub fn new(file: File, path: &Path) -> Result<Watched, Fault> {
        let failed = |error: &dyn std::fmt::Display| Fault::Source(format!("{}: {error}", path.display()));
        let mut found = file.metadata().map_err(|error| failed(&error))?;
        if !found.is_file() {
            return Err(failed(&"not a regular file"));
        }
        if let Some(wait) = State::of(&found).wait() {
            std::thread::sleep(wait);
            found = file.metadata().map_err(|error| failed(&error))?;
            if State::of(&found).wait().is_some() {
                return Err(failed(&"is being written; try again when it is complete"));
            }
        }
        Ok(Watched { file: Arc::new(file), path: path.to_path_buf(), state: State::of(&found) })
    }

    pub fn path(&self) -> &Path {
        &self.path
    }

    /// The open file.
    pub fn file(&self) -> &File {
        &self.file
    }

    pub fn identity(&self) -> Identity {
        self.state.file
    }

    pub fn size(&self) -> u64 {
        self.state.size
    }

    /// Fills the buffer from `offset` on. An error has the path in its text.
    pub fn read(&self, offset: u64, buffer: &mut [u8]) -> io::Result<()> {
        self.file.read_exact_at(buffer, offset).map_err(|error| {
            let why = match error.kind() {
                io::ErrorKind::UnexpectedEof => "is shorter than when it was opened".to_string(),
                _ => error.to_string(),
            };
            io::Error::new(error.kind(), format!("{}: {why}", self.path.display()))
        })
    }

    /// All of it.
    pub fn read_whole(&self) -> Result<Vec<u8>, Fault> {
        self.read_part(0, self.size())
    }

    /// So many bytes from `offset` on.
    pub fn read_part(&self, offset: u64, size: u64) -> Result<Vec<u8>, Fault> {
        let mut bytes = Vec::new();
        let size = usize::try_from(size).unwrap_or(usize::MAX);
        if bytes.try_reserve_exact(size).is_err() {
            return Err(Fault::Source(format!("{}: no memory for {size} bytes", self.path.display())));
        }
        bytes.resize(size, 0);
        self.read(offset, &mut bytes).map_err(|error| Fault::Source(error.to_string()))?;
        self.still_the_same()?;
        Ok(bytes)
    }

    pub fn still_the_same(&self) -> Result<(), Fault> {
        let failed = |error: &dyn std::fmt::Display| Fault::Source(format!("{}: {error}", self.path.display()));
        let found = self.file.metadata().map_err(|error| failed(&error))?;
        let state = State::of(&found);
        if state.size != self.state.size {
            let (was, is) = (self.state.size, state.size);
            return Err(failed(&format!("had {was} bytes and has {is} now: it was changed while it was read")));
        }
        if state == self.state { Ok(()) } else { Err(failed(&"was changed while it was read")) }
    }
}
