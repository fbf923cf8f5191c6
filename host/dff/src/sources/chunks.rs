//! The chunks of a caller: how many bytes each has is known before any is read.

use super::watched::Watched;
use crate::Fault;
use jangqeruz::CallerChunk;

/// A chunk whose data may stand in a file still.
pub struct Unread {
    pub name: [u8; 4],
    pub data: Data,
}

pub enum Data {
    Bytes(Vec<u8>),
    /// So many bytes of a file, from a place on.
    Part {
        file: Watched,
        place: u64,
        size: u64,
    },
}

impl Unread {
    /// How many bytes its data has.
    pub fn size(&self) -> u64 {
        match &self.data {
            Data::Bytes(bytes) => bytes.len() as u64,
            Data::Part { size, .. } => *size,
        }
    }

    fn read(self) -> Result<CallerChunk, Fault> {
        let data = match self.data {
            Data::Bytes(bytes) => bytes,
            Data::Part { file, place, size } => file.read_part(place, size)?,
        };
        Ok(CallerChunk { name: self.name, data })
    }
}

/// All chunks with their data.
pub fn read(chunks: Vec<Unread>) -> Result<Vec<CallerChunk>, Fault> {
    chunks.into_iter().map(Unread::read).collect()
}
