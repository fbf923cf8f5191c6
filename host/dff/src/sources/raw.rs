//! Plain content, all frames joined: `source = { raw = "sound.raw", channels = 2 }`.

use super::watched::Watched;
use super::{Sound, frame_bytes, frames_of};
use crate::Fault;
use jangqeruz::{Kind, Source};
use std::io;
use std::ops::Range;

/// A byte of DSD silence.
const SILENCE: u8 = 0x69;

pub struct Raw {
    file: Watched,
    channels: u32,
    pad: bool,
}

impl Raw {
    /// With `pad`, a short last frame is filled up with silence.
    pub fn new(file: Watched, channels: u32, pad: bool) -> Raw {
        Raw { file, channels, pad }
    }

    fn short(&self) -> u64 {
        self.file.size().checked_rem(frame_bytes(self.channels)).unwrap_or(0)
    }
}

impl Source for Raw {
    fn fetch(&self, frames: Range<u32>, _coded: &mut [u8], plain: &mut [u8]) -> io::Result<()> {
        let offset = frame_bytes(self.channels).saturating_mul(u64::from(frames.start));
        let there = usize::try_from(self.file.size().saturating_sub(offset)).unwrap_or(usize::MAX);
        let pad = if self.pad { plain.len().saturating_sub(there) } else { 0 };
        let (sound, silence) = plain.split_at_mut(plain.len() - pad);
        silence.fill(SILENCE);
        self.file.read(offset, sound)
    }
}

impl Sound for Raw {
    fn kind(&self) -> Kind {
        Kind::Dsd
    }

    fn channels(&self) -> u32 {
        self.channels
    }

    fn frames(&self) -> u32 {
        frames_of(self.file.size(), self.channels)
    }

    fn lengths(&self, _range: Range<u32>) -> Vec<u32> {
        Vec::new()
    }

    fn whole(&self) -> Result<(), Fault> {
        let (short, frame) = (self.short(), frame_bytes(self.channels));
        if short == 0 || self.pad {
            return Ok(());
        }
        let path = self.file.path().display();
        let remedy = "`pad = true` fills it up with silence, if the number of channels is right";
        Err(Fault::Source(format!("{path}: its last frame has {short} of {frame} bytes\n  remedy: {remedy}")))
    }

    fn still_the_same(&self) -> Result<(), Fault> {
        self.file.still_the_same()
    }
}
