//! Where the sound comes from. Each source is a [`jangqeruz::Source`] that also knows how much there is of what, and
//! whether it is still what it was when it was opened.

pub mod chunks;
pub mod coded;
pub mod dff;
pub mod open;
pub mod raw;
pub mod span;
pub mod watched;

use crate::Fault;
use crate::carry::Numbered;
use jangqeruz::Kind;
use std::ops::Range;

pub trait Sound: jangqeruz::Source + Send + Sync {
    fn kind(&self) -> Kind;

    fn channels(&self) -> u32;

    /// How many frames there are; a short last one counts.
    fn frames(&self) -> u32;

    /// The lengths of these DST frames, of those that are there; none for DSD.
    fn lengths(&self, range: Range<u32>) -> Vec<u32>;

    /// The layout, if the source says one, and the numbers of an unspecified one's channels. A fault if it names its
    /// channels as no layout does.
    fn layout(&self) -> Result<Option<Numbered>, Fault> {
        Ok(None)
    }

    /// Whether its sizes fit each other: asked after the verdict on the file, which may say more.
    fn whole(&self) -> Result<(), Fault> {
        Ok(())
    }

    /// A fault if a file has changed since it was opened.
    fn still_the_same(&self) -> Result<(), Fault>;
}

impl Sound for Box<dyn Sound> {
    fn kind(&self) -> Kind {
        (**self).kind()
    }

    fn channels(&self) -> u32 {
        (**self).channels()
    }

    fn frames(&self) -> u32 {
        (**self).frames()
    }

    fn lengths(&self, range: Range<u32>) -> Vec<u32> {
        (**self).lengths(range)
    }

    fn layout(&self) -> Result<Option<Numbered>, Fault> {
        (**self).layout()
    }

    fn whole(&self) -> Result<(), Fault> {
        (**self).whole()
    }

    fn still_the_same(&self) -> Result<(), Fault> {
        (**self).still_the_same()
    }
}

/// The bytes of a frame's plain content. Any number of channels can be asked for.
pub fn frame_bytes(channels: u32) -> u64 {
    jangqeruz::FRAME_BYTES_PER_CHANNEL as u64 * u64::from(channels)
}

/// How many frames so many bytes are, a short last one counted; as many as a u32 holds.
pub fn frames_of(bytes: u64, channels: u32) -> u32 {
    match frame_bytes(channels) {
        0 => 0,
        frame => u32::try_from(bytes.div_ceil(frame)).unwrap_or(u32::MAX),
    }
}
