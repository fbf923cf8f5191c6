//! What a file tells, as it is stored.
use crate::{Chunk, Fault, Index, Leftover, Name, Sound, Time};

/// A value with the chunk that holds it.
#[derive(Clone, Debug, PartialEq, Eq)]
pub struct Field<T> {
    /// Where the chunk stands.
    pub place: u64,
    /// The size of its data.
    pub size: u64,
    /// The value.
    pub value: T,
}

/// CMPR.
#[derive(Clone, Debug, PartialEq, Eq)]
pub struct Compression {
    /// The type: "DSD " or "DST ".
    pub kind: Name,
    /// The name, by its count.
    pub name: Vec<u8>,
}

/// A text with a count: DIAR, DITI, or that of a marker or comment; of EMID all the data.
#[derive(Clone, Debug, Default, PartialEq, Eq)]
pub struct Text {
    /// Where its bytes begin.
    pub place: u64,
    /// Its bytes, a pad left out.
    pub bytes: Vec<u8>,
}

/// MARK.
#[derive(Clone, Debug, PartialEq, Eq)]
pub struct Marker {
    /// When.
    pub time: Time,
    /// An offset in samples.
    pub offset: i32,
    /// 0 track start, 1 track stop, 2 program start, 4 index.
    pub kind: u16,
    /// 0 for all channels.
    pub channel: u16,
    /// Flags.
    pub flags: u16,
    /// Its text.
    pub text: Text,
}

/// A comment of COMT.
#[derive(Clone, Debug, PartialEq, Eq)]
pub struct Comment {
    /// Where it begins.
    pub place: u64,
    /// The year.
    pub year: u16,
    /// The month.
    pub month: u8,
    /// The day.
    pub day: u8,
    /// The hour.
    pub hour: u8,
    /// The minutes.
    pub minutes: u8,
    /// 0 general, 1 channel, 2 sound source, 3 file history.
    pub kind: u16,
    /// What it refers to, by its kind.
    pub reference: u16,
    /// Its text.
    pub text: Text,
}

/// The pads that were met: after chunks, after comments, and inside the size of counted texts.
#[derive(Clone, Debug, Default, PartialEq, Eq)]
pub struct Pads {
    /// How many.
    pub count: u64,
    /// How many of them are not zero.
    pub wrong: u64,
    /// The place of the first of these.
    pub first_wrong: Option<u64>,
}

impl Pads {
    pub(crate) fn met(&mut self, place: u64, byte: u8) {
        self.count += 1;
        if byte != 0 {
            self.wrong += 1;
            self.first_wrong.get_or_insert(place);
        }
    }
}

/// All that was found. Where 01 writes a chunk once and the file repeats it, this is the first.
#[derive(Clone, Debug, Default, PartialEq, Eq)]
pub struct Walk {
    /// The file's size.
    pub size: u64,
    /// FRM8 with the chunks in it; none if the file doesn't begin with it.
    pub form: Option<Chunk>,
    /// FVER: the version.
    pub version: Option<Field<u32>>,
    /// PROP: its type.
    pub property: Option<Field<Name>>,
    /// FS: samples a second.
    pub rate: Option<Field<u32>>,
    /// CHNL: the channels' names.
    pub channels: Option<Field<Vec<Name>>>,
    /// CMPR: the compression.
    pub compression: Option<Field<Compression>>,
    /// ABSS: the absolute start.
    pub start: Option<Field<Time>>,
    /// LSCO: the speaker code.
    pub speakers: Option<Field<u16>>,
    /// The sound chunk.
    pub sound: Option<Sound>,
    /// DSTI.
    pub index: Option<Index>,
    /// EMID.
    pub id: Option<Field<Text>>,
    /// MARK, all of them in order.
    pub markers: Vec<Field<Marker>>,
    /// DIAR.
    pub artist: Option<Field<Text>>,
    /// DITI.
    pub title: Option<Field<Text>>,
    /// COMT.
    pub comments: Option<Field<Vec<Comment>>>,
    /// The pads that were met.
    pub pads: Pads,
    /// The chunks with bytes behind their fields, by their places; DSTC left out (that is [`crate::Crc::leftover`]).
    pub leftovers: Vec<Leftover>,
    /// What is wrong, in the order of the rules and then of the places; empty of a right file.
    pub faults: Vec<Fault>,
    /// How many more faults there are than are listed.
    pub unlisted: u64,
}

impl Walk {
    /// The bytes of a plain frame: 1/75 second of all channels. 0 if rate or channels are not known.
    pub fn frame_bytes(&self) -> u64 {
        let rate = self.rate.as_ref().map_or(0, |rate| u64::from(rate.value));
        let channels = self.channels.as_ref().map_or(0, |channels| channels.value.len() as u64);
        rate / u64::from(crate::FRAMES_PER_SECOND) / 8 * channels
    }

    /// How many frames the sound has; of plain sound the last may be short.
    pub fn frame_count(&self) -> u64 {
        self.sound.as_ref().map_or(0, |sound| sound.frame_count(self.frame_bytes()))
    }

    /// The first chunk of this name under FRM8.
    pub fn chunk(&self, name: &[u8; 4]) -> Option<&Chunk> {
        self.form.as_ref()?.first(name)
    }

    /// Notes a fault; of very many, the first, and how many more there are.
    pub(crate) fn fault(&mut self, rule: crate::Rule, place: u64, words: String) {
        if self.faults.len() < crate::limits::MOST_FAULTS {
            self.faults.push(Fault { rule, place, words });
        } else {
            self.unlisted += 1;
        }
    }
}
