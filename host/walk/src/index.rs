//! The index of a DST file, and whether its entries lead to the frames.
use crate::sound::Frame;

/// An entry of DSTI.
#[derive(Clone, Copy, Debug, PartialEq, Eq)]
pub struct IndexEntry {
    /// The place that it names, from the file's start.
    pub offset: u64,
    /// The length that it names.
    pub length: u32,
}

/// DSTI.
#[derive(Clone, Debug, Default, PartialEq, Eq)]
pub struct Index {
    /// Where the chunk stands.
    pub place: u64,
    /// The size of its data.
    pub size: u64,
    /// Its entries, of 12 whole bytes each.
    pub entries: Vec<IndexEntry>,
}

/// What an entry's offset leads to.
#[derive(Clone, Copy, Debug, PartialEq, Eq)]
pub enum Leads {
    /// The frame's DSTF.
    ToHeader,
    /// The frame's data.
    ToData,
    /// Neither.
    Astray,
}

/// An entry that doesn't tell its frame's place and length, or not as the entries before it do.
#[derive(Clone, Copy, Debug, PartialEq, Eq)]
pub struct WrongEntry {
    /// Which entry, from 0 on.
    pub number: usize,
    /// Where it stands in the file.
    pub place: u64,
    /// The entry.
    pub entry: IndexEntry,
    /// Its frame; none if there are fewer frames.
    pub frame: Option<Frame>,
    /// What its offset leads to.
    pub leads: Leads,
}

/// The index against the frames.
#[derive(Clone, Copy, Debug, PartialEq, Eq)]
pub struct IndexReport {
    /// How many entries there are.
    pub entries: usize,
    /// How many frames.
    pub frames: usize,
    /// What the first entry leads to, and so all of a right index.
    pub leads: Leads,
    /// How many entries are wrong.
    pub wrong: usize,
    /// The first of them.
    pub first_wrong: Option<WrongEntry>,
}

impl IndexReport {
    /// The place that an entry of this index has to name for a frame: its DSTF, unless the others lead to the data.
    pub fn place_of(&self, frame: &Frame) -> u64 {
        match self.leads {
            Leads::ToData => frame.place,
            Leads::ToHeader | Leads::Astray => frame.place.saturating_sub(crate::chunk::HEAD),
        }
    }

    /// Whether there is one right entry for each frame.
    pub fn is_right(&self) -> bool {
        self.wrong == 0 && self.entries == self.frames
    }
}

impl Index {
    /// Compares the entries with the frames.
    pub fn against(&self, frames: &[Frame]) -> IndexReport {
        let leads = match (self.entries.first(), frames.first()) {
            (Some(entry), Some(frame)) => lead(entry, frame),
            _ => Leads::Astray,
        };
        let mut report =
            IndexReport { entries: self.entries.len(), frames: frames.len(), leads, wrong: 0, first_wrong: None };
        for (number, entry) in self.entries.iter().enumerate() {
            let frame = frames.get(number);
            let found = frame.map_or(Leads::Astray, |frame| lead(entry, frame));
            let length = frame.is_some_and(|frame| frame.length == u64::from(entry.length));
            if found == Leads::Astray || found != leads || !length {
                report.wrong += 1;
                let place = self.place.saturating_add(crate::chunk::HEAD).saturating_add(12 * number as u64);
                let wrong = WrongEntry { number, place, entry: *entry, frame: frame.copied(), leads: found };
                report.first_wrong.get_or_insert(wrong);
            }
        }
        report
    }
}

fn lead(entry: &IndexEntry, frame: &Frame) -> Leads {
    if entry.offset == frame.place {
        Leads::ToData
    } else if Some(entry.offset) == frame.place.checked_sub(crate::chunk::HEAD) {
        Leads::ToHeader
    } else {
        Leads::Astray
    }
}
