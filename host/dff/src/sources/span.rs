//! A span of a .dff's frames, counted from 0 at its first: so that of a file of any length a span can be written.

use super::Sound;
use super::dff::DffSource;
use crate::Fault;
use crate::carry::Numbered;
use jangqeruz::{Kind, Source};
use std::io;
use std::ops::Range;

pub struct Span {
    source: DffSource,
    frames: Range<u32>,
}

impl Span {
    /// The frames must be there.
    pub fn new(source: DffSource, frames: Range<u32>) -> Span {
        Span { source, frames }
    }

    pub fn source(&self) -> &DffSource {
        &self.source
    }

    /// Frames of the span as frames of the file.
    fn in_file(&self, frames: &Range<u32>) -> Range<u32> {
        self.frames.start.saturating_add(frames.start)..self.frames.start.saturating_add(frames.end)
    }
}

impl Source for Span {
    fn fetch(&self, frames: Range<u32>, coded: &mut [u8], plain: &mut [u8]) -> io::Result<()> {
        self.source.fetch(self.in_file(&frames), coded, plain)
    }
}

impl Sound for Span {
    fn kind(&self) -> Kind {
        self.source.kind()
    }

    fn channels(&self) -> u32 {
        self.source.channels()
    }

    fn frames(&self) -> u32 {
        self.frames.end.saturating_sub(self.frames.start)
    }

    fn lengths(&self, range: Range<u32>) -> Vec<u32> {
        self.source.lengths(self.in_file(&range))
    }

    fn layout(&self) -> Result<Option<Numbered>, Fault> {
        self.source.layout()
    }

    fn whole(&self) -> Result<(), Fault> {
        self.source.whole()
    }

    fn still_the_same(&self) -> Result<(), Fault> {
        self.source.still_the_same()
    }
}
