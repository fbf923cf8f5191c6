//! The manifest, version 1: a TOML file that says which files to make of which sound.

pub mod entries;
pub mod names;
pub mod notes;
pub mod options;
pub mod table;

use crate::Fault;
use crate::folder::{Names, Relative};
use crate::sources::watched::Identity;
use entries::{Entry, Top};
use std::fs::File;
use std::io::Read;
use std::path::{Path, PathBuf};

/// No manifest that a person or a program has reason to write is larger.
const LARGEST: u64 = 64 << 20;

pub struct Manifest {
    shown: String,
    folder: PathBuf,
    text: String,
    /// Where each line begins.
    lines: Vec<usize>,
    pub files: Vec<Planned>,
    /// The file it was read from, and the symbolic link to it, if it was named by one.
    pub read: Vec<Identity>,
}

/// A file that the manifest plans.
pub struct Planned {
    pub name: Relative,
    pub entry: Entry,
}

impl Manifest {
    pub fn read(path: &Path) -> Result<Manifest, Fault> {
        let shown = path.display().to_string();
        let told = |error: &dyn std::fmt::Display| Fault::Manifest(format!("{shown}: {error}"));
        let mut bytes = Vec::new();
        let file = File::open(path).map_err(|error| told(&error))?;
        let found = [file.metadata(), path.symlink_metadata()];
        let read = found.iter().flatten().map(Identity::of).collect();
        file.take(LARGEST + 1).read_to_end(&mut bytes).map_err(|error| told(&error))?;
        if bytes.len() as u64 > LARGEST {
            return Err(told(&format!("larger than the {LARGEST} bytes that a manifest may have")));
        }
        let text = String::from_utf8(bytes).map_err(|error| {
            let start = error.utf8_error().valid_up_to();
            let line = error.as_bytes().iter().take(start).filter(|byte| **byte == b'\n').count() + 1;
            Fault::Manifest(format!("{shown}:{line}: not UTF-8 text"))
        })?;
        let folder = match path.parent() {
            Some(folder) if !folder.as_os_str().is_empty() => folder.to_path_buf(),
            _ => PathBuf::from("."),
        };
        Ok(Manifest { read, ..Manifest::parse(shown, folder, text)? })
    }

    /// The manifest of this text; `shown` stands for it in messages.
    pub fn parse(shown: String, folder: PathBuf, text: String) -> Result<Manifest, Fault> {
        let ends = text.bytes().enumerate().filter(|(_, byte)| *byte == b'\n');
        let lines = std::iter::once(0).chain(ends.map(|(place, _)| place + 1)).collect();
        let mut manifest = Manifest { shown, folder, text, lines, files: Vec::new(), read: Vec::new() };
        if let Some(place) = table::too_deep(&manifest.text) {
            return Err(manifest.fault(place, "tables and lists stand too deep in each other"));
        }
        let top: Top = toml::from_str(&manifest.text).map_err(|error| manifest.syntax(&error))?;
        if *top.version.get_ref() != 1 {
            let text = format!("version {} is not known; this program has version 1", top.version.get_ref());
            return Err(manifest.fault(top.version.start(), &text));
        }
        if top.file.is_empty() {
            return Err(Fault::Manifest(format!("{}: no [[file]] in it", manifest.shown)));
        }
        let mut names = Names::default();
        for table::Table(entry) in top.file {
            let name = Relative::new(entry.name.get_ref())
                .map_err(|why| manifest.fault(entry.name.start(), &format!("name: {why}")))?;
            if !names.add(&name) {
                let text = format!("name: `{name}` is another file's name, or the folder of one");
                return Err(manifest.fault(entry.name.start(), &text));
            }
            manifest.files.push(Planned { name, entry });
        }
        Ok(manifest)
    }

    /// The folder it stands in.
    pub fn folder(&self) -> &Path {
        &self.folder
    }

    /// The manifest itself and what it names to be read in this folder, of that what is there. Nothing is opened.
    pub fn named(&self, folder: &Path) -> Vec<Identity> {
        let names = self.files.iter().flat_map(|planned| planned.entry.names());
        let found = names.filter_map(|name| folder.join(name).metadata().ok());
        self.read.iter().copied().chain(found.map(|found| Identity::of(&found))).collect()
    }

    /// "album.toml:12" for a place in the text.
    pub fn line(&self, place: usize) -> String {
        format!("{}:{}", self.shown, self.position(place).0)
    }

    /// A fault at a place in the text, with line and column.
    pub fn fault(&self, place: usize, text: &str) -> Fault {
        let (line, column) = self.position(place);
        Fault::Manifest(format!("{}:{line}:{column}: {text}", self.shown))
    }

    /// Line and column, from 1 on; a column is a character.
    fn position(&self, place: usize) -> (usize, usize) {
        let line = self.lines.partition_point(|start| *start <= place);
        let start = line.checked_sub(1).and_then(|line| self.lines.get(line)).copied().unwrap_or(0);
        let column = self.text.get(start..place).map_or(0, |text| text.chars().count()) + 1;
        (line, column)
    }

    fn syntax(&self, error: &toml::de::Error) -> Fault {
        let mut text = error.to_string();
        if let Some(place) = table::take_place(&mut text) {
            return self.fault(place, &without_place(&text));
        }
        match error.line_col() {
            Some((line, column)) => {
                Fault::Manifest(format!("{}:{}:{}: {}", self.shown, line + 1, column + 1, without_place(&text)))
            }
            None => Fault::Manifest(format!("{}: {text}", self.shown)),
        }
    }
}

/// The text without the " at line 2 column 1" at its end.
fn without_place(text: &str) -> String {
    match text.rfind(" at line ") {
        Some(end) => text.get(..end).unwrap_or(text).to_string(),
        None => text.to_string(),
    }
}
