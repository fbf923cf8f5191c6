//! DST frames, all joined, and a text file with the length of each:
//! `source = { dst = "frames.dst", lengths = "frames.txt", channels = 2 }`, with `plain` for CRCs.

use super::dff::{is_plain, not_its_own};
use super::watched::Watched;
use super::{Sound, frame_bytes};
use crate::Fault;
use crate::times::counted;
use jangqeruz::{Kind, Source};
use std::io;
use std::ops::Range;
use std::sync::Arc;

pub struct Coded {
    file: Watched,
    plain: Option<Watched>,
    channels: u32,
    lengths: Arc<Lengths>,
}

impl Coded {
    pub fn new(file: Watched, lengths: Arc<Lengths>, plain: Option<Watched>, channels: u32) -> Coded {
        Coded { file, plain, channels, lengths }
    }
}

/// The lengths of all frames.
pub struct Lengths {
    lengths: Vec<u32>,
    /// Where each frame begins, and where the last ends.
    starts: Vec<u64>,
}

impl Lengths {
    /// One length a line, in decimal digits. Empty lines and those that begin with `#` don't count.
    pub fn read(file: &Watched) -> Result<Lengths, Fault> {
        let path = file.path().display();
        let text = String::from_utf8(file.read_whole()?);
        let text = text.map_err(|_| Fault::Source(format!("{path}: not a text")))?;
        let (mut lengths, mut starts, mut end) = (Vec::new(), vec![0u64], 0u64);
        for (number, line) in text.lines().enumerate() {
            let line = line.trim();
            if line.is_empty() || line.starts_with('#') {
                continue;
            }
            let digits = line.bytes().all(|byte| byte.is_ascii_digit());
            let length: u32 = line.parse().ok().filter(|_| digits).ok_or_else(|| {
                let shown: String = line.chars().take(40).collect();
                Fault::Source(format!("{path}:{}: `{}` is no frame's length", number + 1, shown.escape_debug()))
            })?;
            end = end.saturating_add(u64::from(length));
            lengths.push(length);
            starts.push(end);
        }
        Ok(Lengths { lengths, starts })
    }

    fn end(&self) -> u64 {
        self.starts.last().copied().unwrap_or(0)
    }

    fn start(&self, frame: u32) -> u64 {
        usize::try_from(frame).ok().and_then(|frame| self.starts.get(frame).copied()).unwrap_or(self.end())
    }

    fn of(&self, range: Range<u32>) -> &[u32] {
        let place = |frame: u32| usize::try_from(frame).unwrap_or(usize::MAX).min(self.lengths.len());
        self.lengths.get(place(range.start)..place(range.end)).unwrap_or(&[])
    }
}

impl Coded {
    /// An error if a frame that isn't compressed has other content than the file with the plain content.
    fn compare(&self, frames: Range<u32>, mut coded: &[u8], plain: &[u8], file: &Watched) -> io::Result<()> {
        let Ok(bytes) = usize::try_from(frame_bytes(self.channels)) else { return Ok(()) };
        let lengths = self.lengths.of(frames.clone());
        for ((number, length), part) in frames.zip(lengths).zip(plain.chunks_exact(bytes.max(1))) {
            let frame = usize::try_from(*length).ok().and_then(|length| coded.split_at_checked(length));
            let Some((frame, rest)) = frame else { return Ok(()) };
            coded = rest;
            let own = frame.split_first().filter(|(first, _)| is_plain(**first, u64::from(*length), bytes));
            if own.is_some_and(|(_, own)| own != part) {
                let (path, words) = (self.file.path().display(), not_its_own(number, file));
                return Err(io::Error::new(io::ErrorKind::InvalidData, format!("{path}: {words}")));
            }
        }
        Ok(())
    }
}

impl Source for Coded {
    fn fetch(&self, frames: Range<u32>, coded: &mut [u8], plain: &mut [u8]) -> io::Result<()> {
        if !coded.is_empty() {
            self.file.read(self.lengths.start(frames.start), coded)?;
        }
        match &self.plain {
            _ if plain.is_empty() => Ok(()),
            Some(file) => {
                file.read(frame_bytes(self.channels).saturating_mul(u64::from(frames.start)), plain)?;
                self.compare(frames, coded, plain, file)
            }
            None => {
                let words = format!("{}: there is no plain content for the CRCs", self.file.path().display());
                Err(io::Error::new(io::ErrorKind::NotFound, words))
            }
        }
    }
}

impl Sound for Coded {
    fn kind(&self) -> Kind {
        Kind::Dst
    }

    fn channels(&self) -> u32 {
        self.channels
    }

    fn frames(&self) -> u32 {
        u32::try_from(self.lengths.lengths.len()).unwrap_or(u32::MAX)
    }

    fn lengths(&self, range: Range<u32>) -> Vec<u32> {
        self.lengths.of(range).to_vec()
    }

    fn whole(&self) -> Result<(), Fault> {
        let frames = self.lengths.lengths.len();
        let (size, wanted) = (self.file.size(), self.lengths.end());
        if size != wanted {
            let path = self.file.path().display();
            return Err(Fault::Source(format!("{path}: has {size} bytes; its {frames} lengths add up to {wanted}")));
        }
        let Some(plain) = &self.plain else {
            return Ok(());
        };
        let (size, wanted) = (plain.size(), frame_bytes(self.channels).saturating_mul(frames as u64));
        if size != wanted {
            let path = plain.path().display();
            let frames = counted(self.frames());
            return Err(Fault::Source(format!("{path}: has {size} bytes; {wanted} are wanted for {frames}")));
        }
        Ok(())
    }

    fn still_the_same(&self) -> Result<(), Fault> {
        self.file.still_the_same()?;
        self.plain.as_ref().map_or(Ok(()), Watched::still_the_same)
    }
}
