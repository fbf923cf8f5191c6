//! The source that an entry of the manifest names.

use super::chunks::{Data, Unread};
use super::coded::{Coded, Lengths};
use super::raw::Raw;
use super::watched::Watched;
use super::{Sound, dff};
use crate::Fault;
use crate::folder::{Folder, Relative};
use crate::manifest::Manifest;
use crate::manifest::entries::{ChunkEntry, Entry, SourceEntry};
use crate::manifest::table::Table;
use jangqeruz::text_bytes;
use std::cell::RefCell;
use std::collections::BTreeMap;
use std::sync::Arc;
use toml::Spanned;

/// Opens what entries name, beneath a folder; each file once, however many entries name it.
pub struct Opener<'a> {
    pub manifest: &'a Manifest,
    folder: &'a Folder,
    files: RefCell<BTreeMap<Relative, Watched>>,
    lengths: RefCell<BTreeMap<Relative, Arc<Lengths>>>,
}

impl<'a> Opener<'a> {
    pub fn new(manifest: &'a Manifest, folder: &'a Folder) -> Opener<'a> {
        Opener { manifest, folder, files: RefCell::default(), lengths: RefCell::default() }
    }

    /// The files that were opened.
    pub fn opened(self) -> Vec<Watched> {
        self.files.into_inner().into_values().collect()
    }

    pub fn source(&self, entry: &Entry) -> Result<Box<dyn Sound>, Fault> {
        let Table(source) = &entry.source;
        let crc = entry.dst_crc.as_ref().filter(|crc| *crc.get_ref());
        // The plain content is there for the CRCs alone.
        let plain = source.plain.as_ref().filter(|_| crc.is_some());
        match (&source.raw, &source.dst, &source.dff) {
            (Some(raw), None, None) => {
                self.only(source, raw, &["channels", "pad"])?;
                let channels = self.channels(source, raw)?;
                let pad = source.pad.as_ref().is_some_and(|pad| *pad.get_ref());
                Ok(Box::new(Raw::new(self.watched(raw)?, channels, pad)))
            }
            (None, Some(dst), None) => {
                self.only(source, dst, &["channels", "lengths", "plain"])?;
                let channels = self.channels(source, dst)?;
                let Some(lengths) = &source.lengths else {
                    return Err(self.fault(dst, "source: `dst` wants `lengths`, a text file with one length a line"));
                };
                if let (Some(crc), None) = (crc, plain) {
                    return Err(self.manifest.fault(crc.start(), "dst_crc: the source has no `plain` to make CRCs of"));
                }
                let (file, lengths) = (self.watched(dst)?, self.lengths(lengths)?);
                let plain = plain.map(|plain| self.watched(plain)).transpose()?;
                Ok(Box::new(Coded::new(file, lengths, plain, channels)))
            }
            (None, None, Some(file)) => {
                self.only(source, file, &["plain", "pad"])?;
                let plain = plain.map(|plain| self.watched(plain)).transpose()?;
                let pad = source.pad.as_ref().is_some_and(|pad| *pad.get_ref());
                dff::open(self.watched(file)?, plain, pad, crc.is_some())
            }
            _ => Err(self.fault(&entry.name, "source: just one of `raw`, `dst` and `dff` is wanted")),
        }
    }

    /// A caller's chunk. Of a file that is larger than any chunk only as much is to be read as shows that.
    pub fn chunk(&self, Table(chunk): &Table<ChunkEntry>) -> Result<Unread, Fault> {
        let name = <[u8; 4]>::try_from(text_bytes(chunk.name.get_ref()))
            .map_err(|_| self.fault(&chunk.name, "name: a chunk's name has four characters"))?;
        let data = match (&chunk.text, &chunk.hex, &chunk.path) {
            (Some(text), None, None) => Data::Bytes(text.get_ref().as_bytes().to_vec()),
            (None, Some(hex), None) => {
                let bytes = bytes(hex.get_ref());
                Data::Bytes(bytes.ok_or_else(|| self.fault(hex, "hex: not pairs of the digits 0 to f"))?)
            }
            (None, None, Some(path)) => {
                let file = self.watched(path)?;
                let size = file.size().min(MOST_READ);
                Data::Part { file, place: 0, size }
            }
            _ => return Err(self.fault(&chunk.name, "chunk: just one of `text`, `hex` and `path` is wanted")),
        };
        Ok(Unread { name, data })
    }

    fn relative(&self, name: &Spanned<String>) -> Result<Relative, Fault> {
        Relative::new(name.get_ref()).map_err(|why| self.fault(name, &why))
    }

    fn watched(&self, name: &Spanned<String>) -> Result<Watched, Fault> {
        let relative = self.relative(name)?;
        if let Some(known) = self.files.borrow().get(&relative) {
            return Ok(known.clone());
        }
        let path = self.folder.full(&relative);
        let line = self.manifest.line(name.start());
        let file = self.folder.read(&relative).map_err(|closed| closed.source(&path).at(&line))?;
        let watched = Watched::new(file, &path).map_err(|fault| fault.at(&line))?;
        self.files.borrow_mut().insert(relative, watched.clone());
        Ok(watched)
    }

    fn lengths(&self, name: &Spanned<String>) -> Result<Arc<Lengths>, Fault> {
        let relative = self.relative(name)?;
        if let Some(known) = self.lengths.borrow().get(&relative) {
            return Ok(known.clone());
        }
        let lengths = Lengths::read(&self.watched(name)?);
        let lengths = Arc::new(lengths.map_err(|fault| fault.at(&self.manifest.line(name.start())))?);
        self.lengths.borrow_mut().insert(relative, lengths.clone());
        Ok(lengths)
    }

    fn channels(&self, source: &SourceEntry, named: &Spanned<String>) -> Result<u32, Fault> {
        let wanted = || self.fault(named, "source: `channels` is wanted, the number of channels");
        source.channels.as_ref().map(|channels| *channels.get_ref()).ok_or_else(wanted)
    }

    /// A fault if the source has a key that does not go with this kind.
    fn only(&self, source: &SourceEntry, named: &Spanned<String>, keys: &[&str]) -> Result<(), Fault> {
        let given = [
            ("channels", source.channels.as_ref().map(Spanned::start)),
            ("pad", source.pad.as_ref().map(Spanned::start)),
            ("lengths", source.lengths.as_ref().map(Spanned::start)),
            ("plain", source.plain.as_ref().map(Spanned::start)),
        ];
        match given.iter().find(|(key, place)| place.is_some() && !keys.contains(key)) {
            None => Ok(()),
            Some((key, place)) => {
                let text = format!("source: `{key}` does not go with this kind of source");
                Err(self.manifest.fault(place.unwrap_or(named.start()), &text))
            }
        }
    }

    fn fault(&self, place: &Spanned<String>, text: &str) -> Fault {
        self.manifest.fault(place.start(), text)
    }
}

/// So many bytes of a chunk's file are read at most: one more than a caller's chunk may have.
pub const MOST_READ: u64 = 16_777_216 + 1;

/// The bytes of pairs of hexadecimal digits; spaces and line ends between the digits don't count.
fn bytes(hex: &str) -> Option<Vec<u8>> {
    let digits: Option<Vec<u8>> = hex
        .chars()
        .filter(|character| !character.is_ascii_whitespace())
        .map(|character| character.to_digit(16).and_then(|digit| u8::try_from(digit).ok()))
        .collect();
    let digits = digits?;
    digits.chunks(2).map(|pair| if let [high, low] = pair { Some(high << 4 | low) } else { None }).collect()
}
