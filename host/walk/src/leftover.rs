//! Bytes of a chunk behind its fields. The format fixes the sizes of these chunks, but the walk's rules let them pass.
use crate::{Chunk, Crc, Name, Walk};
use std::fmt;

/// A chunk with more bytes than its fields have.
#[derive(Clone, Copy, Debug, PartialEq, Eq)]
pub struct Leftover {
    /// The chunk's name.
    pub name: Name,
    /// Where it stands.
    pub place: u64,
    /// The size of its data.
    pub size: u64,
    /// How many of these bytes are its fields'.
    pub fields: u64,
}

impl fmt::Display for Leftover {
    fn fmt(&self, f: &mut fmt::Formatter<'_>) -> fmt::Result {
        let Leftover { name, size, fields, .. } = self;
        write!(f, "{} has {size} bytes, its fields have {fields}", name.to_string().trim_end())
    }
}

impl Crc {
    /// What its chunk has behind the value; none if there is nothing.
    pub fn leftover(&self) -> Option<Leftover> {
        let found = Leftover { name: Name(*b"DSTC"), place: self.place, size: self.size, fields: 4 };
        (found.size > found.fields).then_some(found)
    }
}

impl Walk {
    /// Notes what a chunk has behind so many bytes of fields.
    pub(crate) fn leftover(&mut self, chunk: &Chunk, fields: u64) {
        if chunk.size > fields {
            let &Chunk { name, place, size, .. } = chunk;
            self.leftovers.push(Leftover { name, place, size, fields });
        }
    }

    /// Likewise, where a pad that makes the size even may be counted in it.
    pub(crate) fn leftover_padded(&mut self, chunk: &Chunk, fields: u64) {
        if chunk.size != fields + fields % 2 {
            self.leftover(chunk, fields);
        }
    }
}
