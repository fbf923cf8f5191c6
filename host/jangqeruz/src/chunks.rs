//! What a file tells beside its sound: markers, comments, texts, chunks of the caller, and the chunks of an order.

use crate::dates::Stamp;

/// A marker, if markers are not made from tracks.
#[derive(Clone, Debug, PartialEq, Eq)]
pub struct Marker {
    /// A frame of the area; from the range's first to its end.
    pub frame: u32,
    /// What it marks.
    pub kind: MarkerKind,
    /// Written for a track's start only, 0 for the others.
    pub track_flags: u16,
    /// Up to 1,048,576 bytes 0x20 to 0x7E, under D2 also 0xA0 to 0xFF; [`text_bytes`] makes them of a text.
    pub text: Vec<u8>,
}

/// What a marker marks.
#[derive(Clone, Copy, Debug, PartialEq, Eq, Hash)]
pub enum MarkerKind {
    /// A track starts.
    TrackStart,
    /// A track stops.
    TrackStop,
    /// The program starts.
    ProgramStart,
    /// An index within a track.
    Index,
}

/// A comment.
#[derive(Clone, Debug, PartialEq, Eq)]
pub struct Comment {
    /// Up to 65,535.
    pub year: u32,
    /// Up to 12.
    pub month: u32,
    /// Up to 31.
    pub day: u32,
    /// Up to 23.
    pub hour: u32,
    /// Up to 59.
    pub minutes: u32,
    /// What it is about.
    pub kind: CommentKind,
    /// Up to the number of channels for a channel, 2 for a sound source, 4 for the file's history. Of a general comment
    /// 0 is written.
    pub reference: u32,
    /// Up to 1,048,576 characters, converted as all texts are.
    pub text: String,
}

impl Comment {
    /// Its date and time.
    pub fn stamp(&self) -> Stamp {
        let Comment { year, month, day, hour, minutes, .. } = *self;
        Stamp { year, month, day, hour, minutes }
    }
}

/// What a comment is about.
#[derive(Clone, Copy, Debug, PartialEq, Eq, Hash)]
pub enum CommentKind {
    /// The file.
    General,
    /// A channel.
    Channel,
    /// Where the sound comes from.
    SoundSource,
    /// How the file came about.
    FileHistory,
}

/// A chunk of the caller's own, behind all others of the file.
#[derive(Clone, Debug, PartialEq, Eq)]
pub struct CallerChunk {
    /// Bytes 0x20 to 0x7E, no space before a non-space, and no name that the format has at this place.
    pub name: [u8; 4],
    /// Up to 16,777,216 bytes.
    pub data: Vec<u8>,
}

/// Artist and title, of up to 1,048,576 characters each. A text that is given, though empty, is present.
#[derive(Clone, Debug, Default, PartialEq, Eq)]
pub struct ArtistTitle {
    /// For DIAR.
    pub artist: Option<String>,
    /// For DITI.
    pub title: Option<String>,
}

/// Which artist and title a file has.
#[derive(Clone, Copy, Debug, PartialEq, Eq, Hash)]
pub enum ArtistTitleSource {
    /// The album's.
    Album,
    /// The source track's.
    Track,
    /// The source track's, where it has none the album's.
    TrackThenAlbum,
}

/// What an offset of the DST index leads to.
#[derive(Clone, Copy, Debug, PartialEq, Eq, Hash)]
pub enum IndexOffset {
    /// The header of the frame's chunk.
    ChunkHeader,
    /// The frame's data, 12 bytes on.
    FrameData,
}

/// A chunk of PROP.
#[derive(Clone, Copy, Debug, PartialEq, Eq, Hash)]
pub enum PropertyChunk {
    /// The sample rate.
    Fs,
    /// The channels.
    Chnl,
    /// The compression.
    Cmpr,
    /// The start, if it is given.
    Abss,
    /// The loudspeakers, if that is on.
    Lsco,
}

/// A chunk of DIIN.
#[derive(Clone, Copy, Debug, PartialEq, Eq, Hash)]
pub enum InfoChunk {
    /// The edited master's ID.
    Emid,
    /// All markers.
    Mark,
    /// The artist.
    Diar,
    /// The title.
    Diti,
}

/// A chunk of the file.
#[derive(Clone, Copy, Debug, PartialEq, Eq, Hash)]
pub enum LocalChunk {
    /// The properties.
    Prop,
    /// The sound: "DSD " or "DST ".
    Sound,
    /// The DST index.
    Dsti,
    /// The edited master's information.
    Diin,
    /// The comments.
    Comt,
}

/// The text as bytes, one for each character: U+0000 to U+00FF as that byte, any other as 0x7F, which no file takes
/// (refusals 31 and 33).
///
/// ```
/// assert_eq!(jangqeruz::text_bytes("Dvořák à"), b"Dvo\x7F\xE1k \xE0");
/// ```
pub fn text_bytes(text: &str) -> Vec<u8> {
    text.chars().map(|character| u8::try_from(character).unwrap_or(0x7F)).collect()
}
