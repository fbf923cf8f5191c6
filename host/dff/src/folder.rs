//! A folder, and names that are kept beneath it: no `..`, nothing absolute, no symbolic link that leads out.

use crate::Fault;
use rustix::fs::{Mode, OFlags, ResolveFlags, cwd, mkdirat, openat, openat2};
use rustix::io::Errno;
use std::collections::BTreeSet;
use std::fmt;
use std::fs::File;
use std::path::{Component, Path, PathBuf};

/// A relative name in its plain form.
#[derive(Clone, Debug, PartialEq, Eq, PartialOrd, Ord)]
pub struct Relative(Vec<String>);

/// No system takes a longer path.
const LONGEST: usize = 4_095;

impl Relative {
    /// The name, or what is wrong with it.
    pub fn new(text: &str) -> Result<Relative, String> {
        if text.len() > LONGEST {
            return Err("the name is too long".to_string());
        }
        if text.contains('\0') {
            return Err("a name cannot hold a zero byte".to_string());
        }
        if text.ends_with(['/', '.']) && matches!(text.rsplit('/').next(), Some("" | "." | "..")) {
            return Err(format!("`{text}` does not name a file"));
        }
        let mut parts = Vec::new();
        for component in Path::new(text).components() {
            match component {
                Component::Normal(part) => parts.push(part.to_string_lossy().into_owned()),
                Component::CurDir => {}
                Component::ParentDir => return Err(format!("`{text}` has a `..` in it")),
                Component::RootDir | Component::Prefix(_) => {
                    return Err(format!("`{text}` is absolute; names are relative to their folder"));
                }
            }
        }
        if parts.is_empty() { Err("the name is empty".to_string()) } else { Ok(Relative(parts)) }
    }

    /// The last part, and the parts before it.
    pub fn split(&self) -> (&str, &[String]) {
        match self.0.split_last() {
            Some((last, folders)) => (last, folders),
            None => ("", &[]),
        }
    }
}

impl fmt::Display for Relative {
    fn fmt(&self, f: &mut fmt::Formatter<'_>) -> fmt::Result {
        f.write_str(&self.0.join("/"))
    }
}

/// Names that can all be files at once.
#[derive(Default)]
pub struct Names {
    files: BTreeSet<String>,
    folders: BTreeSet<String>,
}

impl Names {
    /// Adds a name, unless it is one of them, the folder of one, or has one as a folder.
    pub fn add(&mut self, name: &Relative) -> bool {
        let name = name.to_string();
        let folders: Vec<&str> = name.match_indices('/').filter_map(|(place, _)| name.get(..place)).collect();
        let free = !self.folders.contains(&name) && !folders.iter().any(|folder| self.files.contains(*folder));
        self.folders.extend(folders.into_iter().map(str::to_string));
        free && self.files.insert(name)
    }
}

/// An open folder.
pub struct Folder {
    pub path: PathBuf,
    file: File,
}

/// Why a name could not be opened.
pub enum Closed {
    /// A symbolic link leads out of the folder.
    Outside,
    Failed(Errno),
}

impl Closed {
    /// For a source: what leads out is the manifest's fault, what is missing is the source's.
    pub fn source(self, path: &Path) -> Fault {
        match self {
            Closed::Outside => Fault::Manifest(outside(path)),
            Closed::Failed(errno) => Fault::Source(format!("{}: {}", path.display(), told(errno))),
        }
    }

    /// For an output.
    pub fn output(self, path: &Path) -> Fault {
        match self {
            Closed::Outside => Fault::Manifest(outside(path)),
            Closed::Failed(errno) => Fault::Output(format!("{}: {}", path.display(), told(errno))),
        }
    }
}

fn outside(path: &Path) -> String {
    format!("{}: a symbolic link leads out of the folder that names are kept in", path.display())
}

/// The system's words for an error.
pub fn told(errno: Errno) -> String {
    std::io::Error::from(errno).to_string()
}

impl Folder {
    pub fn open(path: &Path) -> Result<Folder, Errno> {
        let flags = OFlags::RDONLY | OFlags::DIRECTORY | OFlags::CLOEXEC;
        let file = into_std(openat(cwd(), path, flags, Mode::empty())?);
        Ok(Folder { path: path.to_path_buf(), file })
    }

    pub fn file(&self) -> &File {
        &self.file
    }

    pub fn full(&self, name: &Relative) -> PathBuf {
        self.path.join(name.to_string())
    }

    /// Opens a file beneath for reading.
    pub fn read(&self, name: &Relative) -> Result<File, Closed> {
        // Of a pipe, not to wait for one who writes to it.
        self.beneath(&name.to_string(), OFlags::RDONLY | OFlags::NONBLOCK | OFlags::CLOEXEC)
    }

    /// Opens the folder that a name stands in. With `make`, folders that are missing are made; otherwise the answer
    /// is None where one is.
    pub fn folder_of(&self, name: &Relative, make: bool) -> Result<Option<Folder>, Closed> {
        let flags = OFlags::RDONLY | OFlags::DIRECTORY | OFlags::CLOEXEC;
        let (_, parts) = name.split();
        let mut folder = Folder { path: self.path.clone(), file: self.beneath(".", flags)? };
        let mut reached = String::from(".");
        for part in parts {
            reached = format!("{reached}/{part}");
            let found = match self.beneath(&reached, flags) {
                Err(Closed::Failed(Errno::NOENT)) if make => {
                    match mkdirat(&folder.file, part.as_str(), Mode::from_bits_truncate(0o777)) {
                        Ok(()) | Err(Errno::EXIST) => self.beneath(&reached, flags)?,
                        Err(errno) => return Err(Closed::Failed(errno)),
                    }
                }
                Err(Closed::Failed(Errno::NOENT)) => return Ok(None),
                found => found?,
            };
            folder = Folder { path: folder.path.join(part), file: found };
        }
        Ok(Some(folder))
    }

    fn beneath(&self, name: &str, flags: OFlags) -> Result<File, Closed> {
        let resolve = ResolveFlags::BENEATH | ResolveFlags::NO_MAGICLINKS;
        // It is asked for again where folders were moved meanwhile.
        for _ in 0..16 {
            match openat2(&self.file, name, flags, Mode::empty(), resolve) {
                Ok(fd) => return Ok(into_std(fd)),
                Err(Errno::AGAIN | Errno::INTR) => {}
                Err(Errno::XDEV) => return Err(Closed::Outside),
                Err(Errno::NOSYS) => return self.beneath_by_path(name, flags),
                Err(errno) => return Err(Closed::Failed(errno)),
            }
        }
        Err(Closed::Failed(Errno::AGAIN))
    }

    /// The same on systems without openat2.
    fn beneath_by_path(&self, name: &str, flags: OFlags) -> Result<File, Closed> {
        let whole = |path: &Path| {
            path.canonicalize().map_err(|error| Closed::Failed(Errno::from_io_error(&error).unwrap_or(Errno::IO)))
        };
        let path = whole(&self.path.join(name))?;
        if !path.starts_with(whole(&self.path)?) {
            return Err(Closed::Outside);
        }
        let fd = openat(cwd(), &path, flags, Mode::empty()).map_err(Closed::Failed)?;
        Ok(into_std(fd))
    }
}

/// The standard library's type for an open file.
pub fn into_std(fd: rustix::io::OwnedFd) -> File {
    File::from(rustix::fd::OwnedFd::from(fd))
}
