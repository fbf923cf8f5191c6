//! The frames that are read: few in memory, each for many positions.

use std::borrow::Cow;

use original::{Error, PositionSource};

use crate::random::Random;

pub const CHANNELS: u8 = 2;
/// Positions of a short area (10 seconds) and of a long one (66 minutes 40 seconds).
pub const AREAS: [usize; 2] = [750, 300_000];
const CONTENT_BYTES: usize = CHANNELS as usize * 4_704;

/// Frames in memory: position k has the bytes of frame k % FRAMES.
const FRAMES: usize = 64;
const SHORTEST: u32 = 2_000;
const LONGEST: u32 = 9_000;

pub struct Pool {
    /// The length of each position's DST frame, for the longest area; a shorter one has the front of them.
    pub lengths: Vec<u32>,
    /// The longest that a DST frame can be, for each frame; a position has the front of it.
    dst: Vec<u8>,
    contents: Vec<u8>,
}

impl Pool {
    pub fn new() -> Pool {
        let mut random = Random(20_240_611);
        let lengths = (0..AREAS[1]).map(|_| SHORTEST + random.word() % (LONGEST - SHORTEST + 1)).collect();
        let mut bytes = |count: usize| (0..count).map(|_| random.word() as u8).collect();
        Pool { lengths, dst: bytes(FRAMES * LONGEST as usize), contents: bytes(FRAMES * CONTENT_BYTES) }
    }

    pub fn dst(&self, position: usize) -> &[u8] {
        let start = position % FRAMES * LONGEST as usize;
        &self.dst[start..start + self.lengths[position] as usize]
    }

    pub fn content(&self, position: usize) -> &[u8] {
        let start = position % FRAMES * CONTENT_BYTES;
        &self.contents[start..start + CONTENT_BYTES]
    }
}

/// The original asks for one frame at a time, and copies from where it lies.
impl PositionSource for &Pool {
    fn content(&mut self, t: u32) -> Result<Cow<'_, [u8]>, Error> {
        Ok(Cow::Borrowed(Pool::content(self, t as usize)))
    }

    fn dst_equivalent(&mut self, t: u32) -> Result<Cow<'_, [u8]>, Error> {
        Ok(Cow::Borrowed(self.dst(t as usize)))
    }
}
