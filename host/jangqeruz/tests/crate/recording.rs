//! A recording in memory.

use std::io;
use std::ops::Range;
use std::sync::atomic::{AtomicU32, Ordering};

use jangqeruz::{Area, FRAME_BYTES_PER_CHANNEL, File, Kind, Layout, Options, Source};

use crate::random::Random;

/// Frames of an area with plain contents, and DST bytes that are only carried. It fails if it is asked with slices of
/// other sizes than its frames have.
pub struct Recording {
    pub frames: Vec<Vec<u8>>,
    pub contents: Vec<Vec<u8>>,
    calls: AtomicU32,
}

impl Recording {
    /// So many frames; DST frames have up to 40 bytes.
    pub fn new(random: &mut Random, channels: u32, frames: u32) -> Recording {
        let plain = channels as usize * FRAME_BYTES_PER_CHANNEL;
        Recording {
            frames: (0..frames).map(|_| random.frame()).collect(),
            contents: (0..frames).map(|_| random.bytes(plain)).collect(),
            calls: AtomicU32::new(0),
        }
    }

    /// How often it was asked since the last time.
    pub fn calls(&self) -> u32 {
        self.calls.swap(0, Ordering::Relaxed)
    }

    /// The lengths of these DST frames.
    pub fn lengths(&self, frames: Range<u32>) -> Vec<u32> {
        self.frames[frames.start as usize..frames.end as usize].iter().map(|frame| frame.len() as u32).collect()
    }

    /// The file of an area's range.
    pub fn file<'a>(&'a self, area: &Area, options: &Options) -> File<&'a Recording> {
        let lengths = match area.kind {
            Kind::Dsd => Vec::new(),
            Kind::Dst => self.lengths(area.first..area.end),
        };
        File::build(area, options, &lengths, self).unwrap()
    }
}

impl Source for Recording {
    fn fetch(&self, frames: Range<u32>, coded: &mut [u8], plain: &mut [u8]) -> io::Result<()> {
        self.calls.fetch_add(1, Ordering::Relaxed);
        let frames = frames.start as usize..frames.end as usize;
        for (out, parts) in [(coded, &self.frames), (plain, &self.contents)] {
            let joined = parts[frames.clone()].concat();
            if !out.is_empty() {
                assert_eq!(out.len(), joined.len(), "the slice is as long as the frames");
                out.copy_from_slice(&joined);
            }
        }
        Ok(())
    }
}

/// Frames 3 to 10 of 12, in stereo.
pub fn area(kind: Kind) -> Area {
    Area { first: 3, end: 10, ..Area::new(kind, 2, Layout::Stereo, 12) }
}

/// All bytes of a file, by one read.
pub fn whole<S: Source>(file: &File<S>) -> Vec<u8> {
    let mut bytes = vec![0; file.len() as usize + 7];
    let filled = file.read_at(0, &mut bytes).unwrap();
    assert_eq!(filled as u64, file.len());
    bytes.truncate(filled);
    bytes
}
