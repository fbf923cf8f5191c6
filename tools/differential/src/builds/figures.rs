//! Document 01's figures of a few files.

use super::File;
use crate::chunks;
use crate::subject::Disagreement;

/// A number of 01 about a file.
#[derive(Clone, Copy, Debug, PartialEq)]
pub enum Figure {
    Header(u64),
    File(u64),
    FormSize(u64),
    PropertySize(u64),
    CompressionSize(u64),
    DstSize(u64),
    /// The offsets in the index.
    Entries([u64; 2]),
}

#[derive(Clone, Debug, PartialEq)]
pub struct Figures(pub Vec<Figure>);

/// The number in the eight bytes from `at` on.
fn number(bytes: &[u8], at: usize) -> Result<u64, String> {
    let bytes = bytes.get(at..at + 8).and_then(|bytes| bytes.try_into().ok());
    bytes.map(u64::from_be_bytes).ok_or_else(|| format!("no number at byte {at}"))
}

impl Figures {
    /// What the file has instead.
    pub fn differ(&self, file: &File) -> Result<Option<Disagreement>, String> {
        let before = chunks::before_sound(&file.header)?;
        let property = chunks::only(&before, b"PROP")?.ok_or("no PROP")?;
        let properties = chunks::all(&property.data[4..])?;
        let compression = chunks::only(&properties, b"CMPR")?.ok_or("no CMPR")?;
        let mut found = Vec::new();
        for figure in &self.0 {
            found.push(match figure {
                Figure::Header(_) => Figure::Header(file.header.len() as u64),
                Figure::File(_) => Figure::File(file.size()),
                Figure::FormSize(_) => Figure::FormSize(number(&file.header, 4)?),
                Figure::PropertySize(_) => Figure::PropertySize(property.data.len() as u64),
                Figure::CompressionSize(_) => Figure::CompressionSize(compression.data.len() as u64),
                // Before the chunk FRTE of 18 bytes.
                Figure::DstSize(_) => Figure::DstSize(number(&file.header, file.header.len() - 26)?),
                Figure::Entries(_) => {
                    let after = chunks::all(&file.trailer)?;
                    let index = chunks::only(&after, b"DSTI")?.ok_or("no DSTI")?;
                    Figure::Entries([number(index.data, 0)?, number(index.data, 12)?])
                }
            });
        }
        Ok((found != self.0).then(|| Disagreement {
            what: "document 01's figures".into(),
            expected: format!("expected: {:?}", self.0),
            ours: format!("the original, and so ours: {found:?}"),
        }))
    }
}
