//! Where the sound of a file comes from.

use std::io;
use std::ops::Range;
use std::sync::Arc;

/// Frames of an area, by their numbers. It must give the same bytes for a frame each time it is asked.
pub trait Source {
    /// Fills both slices with the frames `frames`, which count from 0 at the area's first, joined in order. Each slice
    /// has just the size to fill: `coded` that of the DST frames (0 for DSD), `plain` that of the plain contents (0 for
    /// DST without CRCs).
    fn fetch(&self, frames: Range<u32>, coded: &mut [u8], plain: &mut [u8]) -> io::Result<()>;
}

impl<S: Source + ?Sized> Source for &S {
    fn fetch(&self, frames: Range<u32>, coded: &mut [u8], plain: &mut [u8]) -> io::Result<()> {
        (**self).fetch(frames, coded, plain)
    }
}

impl<S: Source + ?Sized> Source for Box<S> {
    fn fetch(&self, frames: Range<u32>, coded: &mut [u8], plain: &mut [u8]) -> io::Result<()> {
        (**self).fetch(frames, coded, plain)
    }
}

impl<S: Source + ?Sized> Source for Arc<S> {
    fn fetch(&self, frames: Range<u32>, coded: &mut [u8], plain: &mut [u8]) -> io::Result<()> {
        (**self).fetch(frames, coded, plain)
    }
}
