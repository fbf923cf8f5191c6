//! The sound that a file is given: contents, and of DST its frames. No two positions have the same bytes, so that a frame
//! that is swapped or shifted is noticed.

use crate::coded;
use crate::random::Random;

/// Bytes of a position's content, for each channel.
pub const FRAME: usize = 4_704;

#[derive(Clone, Copy, PartialEq)]
pub enum Frames {
    /// No DST.
    None,
    /// A byte 0 and the content: a frame that DST allows, and that any decoder has to take.
    Plain,
    /// The content coded as DST codes it, as simply as can be.
    Coded,
    /// Bytes of these lengths, in turn, that no decoder understands.
    Random(&'static [u32]),
}

pub struct Sound {
    pub contents: Vec<Vec<u8>>,
    pub frames: Vec<Vec<u8>>,
    pub lengths: Vec<u32>,
}

impl Sound {
    pub fn new(seed: u64, channels: u8, positions: u32, frames: Frames) -> Sound {
        let mut random = Random::new(seed);
        let contents: Vec<_> = (0..positions).map(|_| random.bytes(channels as usize * FRAME)).collect();
        let frames: Vec<_> = match frames {
            Frames::None => Vec::new(),
            Frames::Plain => contents.iter().map(|content| [&[0], content.as_slice()].concat()).collect(),
            Frames::Coded => contents.iter().map(|content| coded::frame(content, channels)).collect(),
            Frames::Random(lengths) => {
                let lengths = lengths.iter().cycle().take(positions as usize);
                lengths.map(|&length| random.bytes(length as usize)).collect()
            }
        };
        let lengths = frames.iter().map(|frame| frame.len() as u32).collect();
        Sound { contents, frames, lengths }
    }
}
