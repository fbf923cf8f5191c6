//! The sound chunk and its frames.

/// The kind of sound.
#[derive(Clone, Copy, Debug, PartialEq, Eq)]
pub enum SoundKind {
    /// Plain.
    Dsd,
    /// Coded.
    Dst,
}

/// A frame's data.
#[derive(Clone, Copy, Debug, PartialEq, Eq)]
pub struct Frame {
    /// Where it begins.
    pub place: u64,
    /// Its length in bytes, a pad left out.
    pub length: u64,
}

/// DSTC: the CRC of a frame's plain content.
#[derive(Clone, Copy, Debug, PartialEq, Eq)]
pub struct Crc {
    /// Where the chunk stands.
    pub place: u64,
    /// The size of its data.
    pub size: u64,
    /// The frame whose DSTF comes last before it, from 0 on; none if there is none.
    pub frame: Option<u32>,
    /// The value.
    pub value: u32,
}

/// FRTE.
#[derive(Clone, Copy, Debug, PartialEq, Eq)]
pub struct FrameRate {
    /// Where the chunk stands.
    pub place: u64,
    /// The size of its data.
    pub size: u64,
    /// How many frames it tells.
    pub frames: u32,
    /// Frames a second.
    pub rate: u16,
}

/// The sound chunk.
#[derive(Clone, Debug, PartialEq, Eq)]
pub struct Sound {
    /// Its kind.
    pub kind: SoundKind,
    /// Where the chunk stands.
    pub place: u64,
    /// The size of its data.
    pub size: u64,
    /// Whether it lies with its pad inside FRM8.
    pub fits: bool,
    /// FRTE, of DST.
    pub frame_rate: Option<FrameRate>,
    /// The frames of DST, in order.
    pub frames: Vec<Frame>,
    /// The CRCs of DST, in order.
    pub crcs: Vec<Crc>,
    /// How many chunks DST holds that are neither FRTE nor DSTF nor DSTC.
    pub others: u64,
}

impl Sound {
    /// How many frames there are, of so many bytes a frame if the sound is plain (the last may be short).
    pub fn frame_count(&self, frame_bytes: u64) -> u64 {
        match self.kind {
            SoundKind::Dst => self.frames.len() as u64,
            SoundKind::Dsd if frame_bytes == 0 => 0,
            SoundKind::Dsd => self.size.div_ceil(frame_bytes),
        }
    }

    /// A frame by its number, from 0 on.
    pub fn frame(&self, number: u64, frame_bytes: u64) -> Option<Frame> {
        match self.kind {
            SoundKind::Dst => self.frames.get(usize::try_from(number).ok()?).copied(),
            SoundKind::Dsd => {
                let from = number.checked_mul(frame_bytes).filter(|&from| from < self.size)?;
                let place = self.place.checked_add(crate::chunk::HEAD)?.checked_add(from)?;
                Some(Frame { place, length: frame_bytes.min(self.size - from) })
            }
        }
    }
}
