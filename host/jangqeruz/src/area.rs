//! The sound that a file is made of.

/// Plain DSD, or DST frames.
#[derive(Clone, Copy, Debug, PartialEq, Eq, Hash)]
pub enum Kind {
    /// Plain content: [`FRAME_BYTES_PER_CHANNEL`](crate::FRAME_BYTES_PER_CHANNEL) bytes a channel in each frame.
    Dsd,
    /// DST frames of 1 to 65,536 bytes.
    Dst,
}

/// Where the loudspeakers stand.
#[derive(Clone, Copy, Debug, PartialEq, Eq, Hash)]
pub enum Layout {
    /// Two channels.
    Stereo,
    /// Five channels: three in front, two behind.
    ThreeTwo,
    /// Six channels: these five and a subwoofer.
    FivePointOne,
    /// One to six channels, named by numbers.
    Unspecified,
}

impl Layout {
    /// The defined layout of so many channels, or the unspecified one.
    pub fn of_channels(channels: u32) -> Layout {
        match channels {
            2 => Layout::Stereo,
            5 => Layout::ThreeTwo,
            6 => Layout::FivePointOne,
            _ => Layout::Unspecified,
        }
    }
}

/// The sound of an area of a disc, or of any recording, and the range of its frames that the file gets.
/// All frames here count from 0 at the area's first; there are [`FRAMES_PER_SECOND`](crate::FRAMES_PER_SECOND).
#[derive(Clone, Debug, PartialEq, Eq)]
pub struct Area {
    /// What the frames are.
    pub kind: Kind,
    /// 1 to 6.
    pub channels: u32,
    /// Where the loudspeakers stand.
    pub layout: Layout,
    /// How many frames the area has.
    pub playtime: u32,
    /// The range's first frame.
    pub first: u32,
    /// One past the range's last frame.
    pub end: u32,
    /// The area's tracks, in order: at most 65,535, of an edited master 1 to 255.
    pub tracks: Vec<Track>,
}

impl Area {
    /// An area of so many frames, without tracks; the range is all of it.
    pub fn new(kind: Kind, channels: u32, layout: Layout, playtime: u32) -> Area {
        Area { kind, channels, layout, playtime, first: 0, end: playtime, tracks: Vec::new() }
    }
}

/// A track of an area.
#[derive(Clone, Debug, PartialEq, Eq)]
pub struct Track {
    /// Its first frame.
    pub start: u32,
    /// How many frames it has.
    pub duration: u32,
    /// The text of its marker, if [`marker_titles`](crate::Options::marker_titles) is on. Up to 1,048,576 characters.
    pub title: String,
}
