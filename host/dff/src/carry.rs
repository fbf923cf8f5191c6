//! What a cut carries over from a file beside its sound: the options that build the same chunks again. What the proved
//! build can't write is a fault, what it writes in another place or form is noted; nothing is lost in silence.

mod info;
mod layout;
mod markers;
mod property;
mod texts;
mod top;

use crate::Fault;
use crate::commands::faults::Faults;
use crate::sources::chunks::Unread;
use crate::sources::dff::DffSource;
use jangqeruz::{Options, Track};
use std::ops::Range;
use texts::Pads;

pub use layout::{Numbered, layout_of, no_layout};

/// What is left out on demand.
#[derive(Clone, Copy, Debug, Default)]
pub struct Dropped {
    pub crcs: bool,
    pub markers: bool,
    pub comments: bool,
}

/// What to do about CRCs, markers and comments that can't be written again.
pub const DROP_CRCS: &str = "\n  --drop-crc leaves all CRCs out";
pub const DROP_MARKERS: &str = "\n  --drop-markers leaves all markers out";
pub const DROP_COMMENTS: &str = "\n  --drop-comments leaves all comments out";

/// What was carried over.
pub struct Carried {
    /// Without the chunks that are not known here.
    pub options: Options,
    pub chunks: Vec<Unread>,
    /// Those that make the markers, if there are more than can be given.
    pub tracks: Vec<Track>,
    /// What is written otherwise than the file has it.
    pub notes: Vec<String>,
}

/// The options for a span of the file's frames.
pub fn carry(source: &DffSource, span: Range<u32>, dropped: Dropped) -> Result<Carried, Fault> {
    let mut options = Options { edited_master_id: None, custom_markers: Some(vec![]), ..Options::default() };
    options.text_replacement = None;
    let pads = Pads::default();
    let (chunks, tracks, faults, notes) = (vec![], vec![], Faults::default(), vec![]);
    let mut carrier = Carrier { source, span, dropped, options, chunks, tracks, pads, start: 0, faults, notes };
    carrier.property();
    carrier.info();
    carrier.comments();
    carrier.sound()?;
    carrier.top();
    carrier.pads();
    let Carrier { options, chunks, tracks, faults, notes, .. } = carrier;
    match faults.told(source.file().path()) {
        Some(fault) => Err(fault),
        None => Ok(Carried { options, chunks, tracks, notes }),
    }
}

struct Carrier<'s> {
    source: &'s DffSource,
    span: Range<u32>,
    dropped: Dropped,
    options: Options,
    chunks: Vec<Unread>,
    tracks: Vec<Track>,
    pads: Pads,
    /// The frame of the day at which the file starts, 0 if it doesn't tell.
    start: u64,
    faults: Faults,
    notes: Vec<String>,
}

impl Carrier<'_> {
    fn fault(&mut self, place: u64, words: impl std::fmt::Display) {
        self.faults.push(|| format!("at {place}: {words}"));
    }

    fn note(&mut self, words: String) {
        self.notes.push(words);
    }

    /// A fault if the data of a chunk has not just the size that its fields have.
    fn exact(&mut self, name: &str, place: u64, size: u64, wanted: u64) {
        self.exact_or(name, place, size, wanted, "");
    }

    /// Likewise, with what to do about it.
    fn exact_or(&mut self, name: &str, place: u64, size: u64, wanted: u64, hint: &str) {
        if size != wanted {
            self.fault(place, format_args!("{name} has {size} bytes, of which {wanted} can be carried over{hint}"));
        }
    }

    fn pads(&mut self) {
        let walk = self.source.walk();
        if walk.pads.wrong > 0 {
            self.note(format!("{} of {} pads are not zero; they become zero", walk.pads.wrong, walk.pads.count));
        }
        self.options.text_pad_counted = self.pads.counted.is_some();
        if let (Some(counted), Some(place)) = (self.pads.counted, self.pads.left_out) {
            let words = format_args!("the pad is not counted in the chunk's size, but in that at {counted}");
            self.fault(place, words);
        }
    }
}
