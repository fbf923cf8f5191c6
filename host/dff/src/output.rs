//! Files that get their name when they are complete and on the disk. Until then they have none, so that a run that
//! fails or is killed leaves nothing; where the file system cannot do that, they have a hidden name that is removed
//! on failure.

use crate::Fault;
use crate::folder::{Folder, Relative, into_std, told};
use crate::sources::watched::Identity;
use rustix::fd::AsFd;
use rustix::fs::{AtFlags, FallocateFlags, FileType, Mode, OFlags, RenameFlags};
use rustix::fs::{cwd, fallocate, linkat, openat, renameat, renameat_with, statat, unlinkat};
use rustix::io::Errno;
use std::fs::File;
use std::io::Write;
use std::os::fd::AsRawFd;
use std::path::{Path, PathBuf};

/// How much is written at once. For more, the system looks for large stretches of free memory, which may take longer
/// than the writing.
const AT_ONCE: usize = 1 << 16;

pub struct Output {
    folder: File,
    name: PathBuf,
    shown: String,
    force: bool,
    file: File,
    /// The hidden name that the file has meanwhile.
    hidden: Option<PathBuf>,
}

/// A fault if the file is there and may not be replaced, or is nothing that can be.
pub fn check_free(path: &Path, force: bool) -> Result<(), Fault> {
    match at(cwd(), path) {
        There::Nothing => Ok(()),
        There::Replaceable if force => Ok(()),
        there => Err(taken(&path.display().to_string(), there)),
    }
}

/// A fault if the path is `-`, by which other programs mean standard output.
pub fn check_named(path: &Path, kind: &str) -> Result<(), Fault> {
    if path.as_os_str() != "-" {
        return Ok(());
    }
    let words = "--output -: files are written whole and then get their name, so that standard output can't be one";
    Err(Fault::Manifest(format!("{words}\n  `./-` names a {kind} that is called so")))
}

/// What stands in the place of an output.
enum There {
    Nothing,
    /// A regular file, or a symbolic link to one or to nothing.
    Replaceable,
    /// A folder, a device, a pipe, or a symbolic link to such.
    Other,
}

fn at<F: AsFd + Copy>(folder: F, name: &Path) -> There {
    let kind = |flags| statat(folder, name, flags).map(|found| FileType::from_raw_mode(found.st_mode));
    match (kind(AtFlags::SYMLINK_NOFOLLOW), kind(AtFlags::empty())) {
        (Err(_), _) => There::Nothing,
        (Ok(FileType::RegularFile), _) => There::Replaceable,
        (Ok(FileType::Symlink), Ok(FileType::RegularFile) | Err(Errno::NOENT)) => There::Replaceable,
        _ => There::Other,
    }
}

fn taken(shown: &str, there: There) -> Fault {
    match there {
        There::Other => Fault::Output(format!("{shown}: not a regular file, so that it is not replaced")),
        _ => Fault::Output(format!("{shown}: is there already; --force replaces it")),
    }
}

/// A fault if the file is one of those that are read.
pub fn check_not_read(path: &Path, read: &[Identity]) -> Result<(), Fault> {
    match path.symlink_metadata() {
        Ok(found) if read.contains(&Identity::of(&found)) => {
            Err(Fault::Output(format!("{}: is read for this, so that it is not replaced", path.display())))
        }
        _ => Ok(()),
    }
}

impl Output {
    /// A new file for this path, whose folder must be there.
    pub fn create(path: &Path, force: bool) -> Result<Output, Fault> {
        check_free(path, force)?;
        let shown = path.display().to_string();
        let Some(name) = path.file_name().filter(|_| !shown.ends_with('/')) else {
            return Err(Fault::Output(format!("{shown}: does not name a file")));
        };
        let parent = path.parent().filter(|parent| !parent.as_os_str().is_empty()).unwrap_or(Path::new("."));
        let folder =
            Folder::open(parent).map_err(|errno| Fault::Output(format!("{}: {}", parent.display(), told(errno))))?;
        Output::inside(&folder, PathBuf::from(name), shown, force)
    }

    /// A new file beneath a folder; the folders between are made.
    pub fn create_beneath(root: &Folder, name: &Relative, force: bool) -> Result<Output, Fault> {
        let path = root.full(name);
        check_free(&path, force)?;
        let shown = path.display().to_string();
        let folder = root.folder_of(name, true).map_err(|closed| closed.output(&path))?;
        let Some(folder) = folder else {
            return Err(Fault::Output(format!("{shown}: its folder could not be made")));
        };
        Output::inside(&folder, PathBuf::from(name.split().0), shown, force)
    }

    fn inside(folder: &Folder, name: PathBuf, shown: String, force: bool) -> Result<Output, Fault> {
        let made = unnamed(folder.file()).and_then(|unnamed| match unnamed {
            Some(file) => Ok((file, None)),
            None => hidden(folder.file()).map(|(file, hidden)| (file, Some(hidden))),
        });
        let (file, hidden) = made.map_err(|errno| Fault::Output(format!("{shown}: {}", told(errno))))?;
        let folder = folder.file().try_clone().map_err(|error| Fault::Output(format!("{shown}: {error}")))?;
        Ok(Output { folder, name, shown, force, file, hidden })
    }

    /// Takes room for so many bytes, where the file system can: a full disk is told before the work.
    pub fn reserve(&self, bytes: u64) -> Result<(), Fault> {
        match fallocate(&self.file, FallocateFlags::KEEP_SIZE, 0, bytes) {
            Err(errno @ (Errno::NOSPC | Errno::FBIG | Errno::DQUOT)) => Err(self.failed(errno)),
            _ => Ok(()),
        }
    }

    pub fn write_all(&mut self, bytes: &[u8]) -> Result<(), Fault> {
        let written = bytes.chunks(AT_ONCE).try_for_each(|part| self.file.write_all(part));
        written.map_err(|error| Fault::Output(format!("{}: {error}", self.shown)))
    }

    /// The file is complete: it goes to the disk and gets its name.
    pub fn finish(mut self) -> Result<(), Fault> {
        let synced = self.file.sync_all();
        synced.map_err(|error| Fault::Output(format!("{}: {error}", self.shown)))?;
        self.give_name().map_err(|errno| match (errno, at(&self.folder, &self.name)) {
            (Errno::EXIST, there @ There::Other) => taken(&self.shown, there),
            (Errno::EXIST, there) if !self.force => taken(&self.shown, there),
            (errno, _) => self.failed(errno),
        })?;
        // The name is there; a folder that cannot be synced (some network file systems) is no fault.
        let _ = self.folder.sync_all();
        Ok(())
    }

    fn give_name(&mut self) -> Result<(), Errno> {
        match self.hidden.clone() {
            None => self.name_unnamed(),
            Some(hidden) => {
                if self.force {
                    self.replace(&hidden)?;
                } else {
                    self.name_hidden(&hidden)?;
                }
                self.hidden = None;
                Ok(())
            }
        }
    }

    /// Gives the unnamed file its name; if that is taken, by way of a hidden one, with force only.
    fn name_unnamed(&mut self) -> Result<(), Errno> {
        match self.link(&self.name) {
            Err(Errno::EXIST) if self.force => {}
            result => return result,
        }
        for hidden in hidden_names() {
            match self.link(&hidden) {
                Ok(()) => {
                    self.hidden = Some(hidden.clone());
                    self.replace(&hidden)?;
                    self.hidden = None;
                    return Ok(());
                }
                Err(Errno::EXIST) => {}
                Err(errno) => return Err(errno),
            }
        }
        Err(Errno::EXIST)
    }

    fn link(&self, name: &Path) -> Result<(), Errno> {
        let unnamed = format!("/proc/self/fd/{}", self.file.as_raw_fd());
        linkat(cwd(), unnamed.as_str(), &self.folder, name, AtFlags::SYMLINK_FOLLOW)
    }

    /// Renames over a regular file, or over a symbolic link to one or to nothing; over nothing else.
    fn replace(&self, hidden: &Path) -> Result<(), Errno> {
        match at(&self.folder, &self.name) {
            There::Other => Err(Errno::EXIST),
            There::Nothing | There::Replaceable => renameat(&self.folder, hidden, &self.folder, &self.name),
        }
    }

    /// Renames where nothing is.
    fn name_hidden(&self, hidden: &Path) -> Result<(), Errno> {
        match renameat_with(&self.folder, hidden, &self.folder, &self.name, RenameFlags::NOREPLACE) {
            Err(Errno::INVAL | Errno::NOSYS | Errno::NOTSUP) => {
                linkat(&self.folder, hidden, &self.folder, &self.name, AtFlags::empty())?;
                let _ = unlinkat(&self.folder, hidden, AtFlags::empty());
                Ok(())
            }
            result => result,
        }
    }

    fn failed(&self, errno: Errno) -> Fault {
        Fault::Output(format!("{}: {}", self.shown, told(errno)))
    }
}

#[cfg(test)]
impl Output {
    /// The same output, but that nothing can be written to it.
    pub fn unwritable(mut self) -> Output {
        self.file = File::open("/dev/null").expect("there is /dev/null");
        self
    }
}

impl Drop for Output {
    fn drop(&mut self) {
        if let Some(hidden) = &self.hidden {
            let _ = unlinkat(&self.folder, hidden, AtFlags::empty());
        }
    }
}

const FLAGS: OFlags = OFlags::WRONLY.union(OFlags::CLOEXEC);

/// A file without a name in the folder; none where the system has no such thing.
fn unnamed(folder: &File) -> Result<Option<File>, Errno> {
    // It gets its name by way of /proc.
    if !Path::new("/proc/self/fd").exists() {
        return Ok(None);
    }
    match openat(folder, ".", FLAGS | OFlags::TMPFILE, mode()) {
        Ok(fd) => Ok(Some(into_std(fd))),
        Err(Errno::OPNOTSUPP | Errno::ISDIR | Errno::NOENT | Errno::INVAL) => Ok(None),
        Err(errno) => Err(errno),
    }
}

/// A new file with a hidden name in the folder.
fn hidden(folder: &File) -> Result<(File, PathBuf), Errno> {
    for hidden in hidden_names() {
        match openat(folder, &hidden, FLAGS | OFlags::CREATE | OFlags::EXCL, mode()) {
            Err(Errno::EXIST) => {}
            Ok(fd) => return Ok((into_std(fd), hidden)),
            Err(errno) => return Err(errno),
        }
    }
    Err(Errno::EXIST)
}

/// What the umask leaves of it.
fn mode() -> Mode {
    Mode::from_bits_truncate(0o666)
}

/// Names that no other running `dff` takes.
fn hidden_names() -> impl Iterator<Item = PathBuf> {
    let id = std::process::id();
    (0..1000).map(move |turn| PathBuf::from(format!(".dff-{id}-{turn}.part")))
}

#[cfg(test)]
mod tests {
    use super::{Folder, Output, hidden};
    use crate::Fault;
    use std::path::{Path, PathBuf};

    /// An output with a hidden name, as where no file can be without one.
    fn by_hidden_name(folder: &Path, force: bool) -> Output {
        let opened = Folder::open(folder).unwrap();
        let (file, hidden) = hidden(opened.file()).unwrap();
        let folder = opened.file().try_clone().unwrap();
        Output { folder, name: PathBuf::from("one"), shown: "one".to_string(), force, file, hidden: Some(hidden) }
    }

    fn names(folder: &Path) -> Vec<String> {
        let entries = std::fs::read_dir(folder).unwrap();
        entries.map(|entry| entry.unwrap().file_name().into_string().unwrap()).collect()
    }

    #[test]
    fn a_hidden_name_is_given_up_in_each_way() {
        let folder = std::env::temp_dir().join(format!("dff-output-{}", std::process::id()));
        std::fs::create_dir(&folder).unwrap();
        let one = folder.join("one");

        // Dropped before it is complete.
        let mut output = by_hidden_name(&folder, false);
        output.write_all(b"new").unwrap();
        assert!(names(&folder)[0].starts_with(".dff-"));
        drop(output);
        assert!(names(&folder).is_empty());

        // Complete.
        let mut output = by_hidden_name(&folder, false);
        output.write_all(b"new").unwrap();
        output.finish().unwrap();
        assert_eq!(names(&folder), ["one"]);
        assert_eq!(std::fs::read(&one).unwrap(), b"new");

        // Complete, but the name was taken meanwhile.
        let mut output = by_hidden_name(&folder, false);
        output.write_all(b"newer").unwrap();
        assert!(matches!(output.finish(), Err(Fault::Output(text)) if text.contains("--force")));
        assert_eq!(names(&folder), ["one"]);
        assert_eq!(std::fs::read(&one).unwrap(), b"new");

        // With force.
        let mut output = by_hidden_name(&folder, true);
        output.write_all(b"newer").unwrap();
        output.finish().unwrap();
        assert_eq!(names(&folder), ["one"]);
        assert_eq!(std::fs::read(&one).unwrap(), b"newer");

        // Never over a folder, nor over a link to one.
        std::fs::remove_file(&one).unwrap();
        std::fs::create_dir(&one).unwrap();
        for force in [false, true] {
            let kept = by_hidden_name(&folder, force).finish();
            assert!(matches!(kept, Err(Fault::Output(text)) if text.contains("not a regular file")));
            assert_eq!(names(&folder), ["one"]);
        }
        std::fs::remove_dir(&one).unwrap();
        std::os::unix::fs::symlink(".", &one).unwrap();
        assert!(by_hidden_name(&folder, true).finish().is_err());
        assert_eq!(names(&folder), ["one"]);
        std::fs::remove_dir_all(&folder).unwrap();
    }

    #[test]
    fn a_name_taken_meanwhile_is_kept() {
        let folder = std::env::temp_dir().join(format!("dff-taken-{}", std::process::id()));
        std::fs::create_dir(&folder).unwrap();
        let one = folder.join("one");
        let mut output = Output::create(&one, false).unwrap();
        output.write_all(b"new").unwrap();
        std::fs::write(&one, "old").unwrap();
        assert!(matches!(output.finish(), Err(Fault::Output(text)) if text.contains("--force")));
        assert_eq!(std::fs::read(&one).unwrap(), b"old");
        assert_eq!(names(&folder), ["one"]);
        std::fs::remove_dir_all(&folder).unwrap();
    }
}
