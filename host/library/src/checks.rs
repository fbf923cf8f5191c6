//! The verdict on the inputs of a build: the first refusal, or that they are accepted.

use crate::exports;
use crate::markers::{Info, Properties};
use crate::names;

pub use crate::names::{SWITCHES, WORDS};

/// A comment, as COMT takes it.
pub use crate::text::Row as Comment;

/// A caller chunk: its name as one number, the first byte highest; start and length of its data in the byte pool.
pub type Caller = [u32; 3];

// The chunks of a file in an order of them.
pub const PROP: u8 = names::LOCAL_PROP as u8;
pub const SOUND: u8 = names::LOCAL_SOUND as u8;
pub const DSTI: u8 = names::LOCAL_DSTI as u8;
pub const DIIN: u8 = names::LOCAL_DIIN as u8;
pub const COMT: u8 = names::LOCAL_COMT as u8;

// A switch that may be left alone.
pub const UNSET: u8 = names::ARTIST_TITLE_UNSET as u8;
pub const ON: u8 = names::ARTIST_TITLE_ON as u8;
pub const OFF: u8 = names::ARTIST_TITLE_OFF as u8;

/// The single values of a build. Rule, replacement and artist's and title's switch of `info` are not read. A number
/// that names nothing is refused, in `properties` and `info` too, where functions of one chunk take it for the last
/// name.
#[derive(Clone, Copy, Debug, Default)]
pub struct Build {
    pub properties: Properties,
    pub info: Info,
    pub edited_master: bool,
    pub dst_crc: bool,
    pub dst_index: bool,
    /// The index leads to a frame's data, not to its chunk's header.
    pub frame_data: bool,
    pub artist_title: u8,
    pub replacement: Option<u8>,
    pub d2: bool,
    pub local_order: [u8; 5],
    /// More than five is a repeat.
    pub local_count: u32,
}

impl Build {
    /// The words in the order of the border.
    pub fn words(&self) -> [u32; WORDS] {
        let Build { properties: p, info: i, .. } = self;
        let bit = u32::from;
        let mut words = Vec::with_capacity(WORDS);
        words.extend([bit(p.dst), i.playtime, p.channels.into(), p.layout.into(), i.first, i.end]);
        words.extend([bit(p.numbers.given), p.numbers.count]);
        words.extend(p.numbers.numbers.map(u32::from));
        words.extend([bit(p.unspecified_loudspeaker_configuration), bit(p.loudspeaker_configuration)]);
        words.extend([bit(p.start.given), p.start.frame]);
        words.extend([self.dst_crc, self.dst_index, self.frame_data].map(bit));
        words.extend([i.source_track.into(), bit(self.edited_master), bit(i.on)]);
        words.extend(i.emid);
        words.extend([i.custom_markers, i.source_track_markers, i.clipped_program, i.titles].map(bit));
        words.extend([bit(i.switches.text_pad_counted), self.artist_title.into(), i.artist_title_source.into()]);
        words.extend([i.album_artist, i.album_title, i.track_artist, i.track_title].concat());
        words.extend([bit(self.replacement.is_some()), self.replacement.unwrap_or(0).into()]);
        words.extend([i.switches.empty_text, i.empty_info, p.d1, self.d2].map(bit));
        words.extend(p.order.map(u32::from));
        words.extend(i.order.map(u32::from));
        words.extend(self.local_order.map(u32::from));
        words.push(self.local_count);
        words.try_into().expect("as many words as the border has")
    }
}

/// What a build is lent, rows one after the other. A custom marker's kind is one of the four, or refused.
#[derive(Clone, Copy)]
pub struct Lent<'a> {
    pub pool: &'a [u32],
    pub raw: &'a [u8],
    pub tracks: &'a [u32],
    pub markers: &'a [u32],
    pub comments: &'a [u32],
    pub callers: &'a [u32],
    pub lengths: &'a [u32],
}

/// A refusal's number and detail; 0 and 0 if nothing is refused.
#[derive(Clone, Copy, Debug, Default, PartialEq, Eq)]
pub struct Verdict {
    pub number: u32,
    pub detail: u32,
}

/// The words of the default options; those of the area are 0.
pub fn default_words() -> [u32; WORDS] {
    let mut words = [0; WORDS];
    // SAFETY: the pointer and length are of one live array; the library writes to nothing else and keeps neither. The
    // answer, how many words there are, is known.
    unsafe { exports::jangqeruz_defaults(words.as_mut_ptr(), words.len()) };
    words
}

pub fn verdict(words: &[u32], lent: Lent<'_>) -> Verdict {
    // SAFETY: each pointer and length is of one live slice; the library writes nothing and keeps none of them.
    let answer = unsafe {
        exports::jangqeruz_verdict(
            words.as_ptr(),
            words.len(),
            lent.pool.as_ptr(),
            lent.pool.len(),
            lent.raw.as_ptr(),
            lent.raw.len(),
            lent.tracks.as_ptr(),
            lent.tracks.len(),
            lent.markers.as_ptr(),
            lent.markers.len(),
            lent.comments.as_ptr(),
            lent.comments.len(),
            lent.callers.as_ptr(),
            lent.callers.len(),
            lent.lengths.as_ptr(),
            lent.lengths.len(),
        )
    };
    Verdict { number: (answer >> 32) as u32, detail: answer as u32 }
}
