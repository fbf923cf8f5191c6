//! Chunks: a name, a size, data, and a pad byte if the size is odd.
use std::fmt;

/// The four bytes of a chunk's or a channel's name.
#[derive(Clone, Copy, PartialEq, Eq, Hash, PartialOrd, Ord)]
pub struct Name(pub [u8; 4]);

impl fmt::Display for Name {
    /// As text; a byte that is no text byte as `\xNN`.
    fn fmt(&self, f: &mut fmt::Formatter<'_>) -> fmt::Result {
        for &byte in &self.0 {
            match byte {
                0x20..=0x7E => write!(f, "{}", byte as char)?,
                _ => write!(f, "\\x{byte:02x}")?,
            }
        }
        Ok(())
    }
}

impl fmt::Debug for Name {
    fn fmt(&self, f: &mut fmt::Formatter<'_>) -> fmt::Result {
        write!(f, "\"{self}\"")
    }
}

/// A chunk in the file.
#[derive(Clone, Debug, PartialEq, Eq)]
pub struct Chunk {
    /// Its name.
    pub name: Name,
    /// Where its name stands, from the file's start.
    pub place: u64,
    /// The size of its data, as stored.
    pub size: u64,
    /// Whether it lies with its pad inside its parent.
    pub fits: bool,
    /// The chunks in it, in order: of FRM8, and of the first PROP, DIIN and DST. DST's frames and their CRCs are not
    /// among them but in [`crate::Sound`].
    pub chunks: Vec<Chunk>,
}

/// The bytes of a chunk before its data: name and size.
pub(crate) const HEAD: u64 = 12;

impl Chunk {
    /// Where its data begins.
    pub fn data(&self) -> u64 {
        self.place.saturating_add(HEAD)
    }

    /// Where its data ends, the pad left out.
    pub fn data_end(&self) -> u64 {
        self.data().saturating_add(self.size)
    }

    /// The first chunk in it of this name.
    pub fn first(&self, name: &[u8; 4]) -> Option<&Chunk> {
        self.chunks.iter().find(|chunk| chunk.name.0 == *name)
    }
}
