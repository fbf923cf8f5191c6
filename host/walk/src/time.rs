//! Times as ABSS and MARK have them.
use std::fmt;

/// Frames a second.
pub const FRAMES_PER_SECOND: u32 = 75;

/// Hours, minutes, seconds and samples, as stored.
#[derive(Clone, Copy, Debug, Default, PartialEq, Eq)]
pub struct Time {
    /// Hours.
    pub hours: u16,
    /// Minutes; 60 and more are no minutes, but may be stored.
    pub minutes: u8,
    /// Seconds, likewise.
    pub seconds: u8,
    /// Samples in the second.
    pub samples: u32,
}

impl Time {
    pub(crate) fn new(bytes: [u8; 8]) -> Time {
        let [h0, h1, minutes, seconds, s0, s1, s2, s3] = bytes;
        Time { hours: u16::from_be_bytes([h0, h1]), minutes, seconds, samples: u32::from_be_bytes([s0, s1, s2, s3]) }
    }

    /// Whether it is a time at this rate: minutes and seconds under 60, samples under the rate.
    pub fn is_regular(&self, rate: u32) -> bool {
        self.minutes < 60 && self.seconds < 60 && self.samples < rate
    }

    /// The frame that begins at this time; none if the time isn't regular or lies inside a frame.
    pub fn frame(&self, rate: u32) -> Option<u64> {
        let samples = rate / FRAMES_PER_SECOND;
        if !self.is_regular(rate) || samples == 0 || !self.samples.is_multiple_of(samples) {
            return None;
        }
        let seconds = (u64::from(self.hours) * 60 + u64::from(self.minutes)) * 60 + u64::from(self.seconds);
        Some(seconds * u64::from(FRAMES_PER_SECOND) + u64::from(self.samples / samples))
    }

    /// In words: `hh:mm:ss:ff`, and `+n samples` if it lies inside a frame.
    pub fn words(&self, rate: u32) -> impl fmt::Display {
        Words { time: *self, samples: (rate / FRAMES_PER_SECOND).max(1) }
    }
}

struct Words {
    time: Time,
    samples: u32,
}

impl fmt::Display for Words {
    fn fmt(&self, f: &mut fmt::Formatter<'_>) -> fmt::Result {
        let Time { hours, minutes, seconds, samples } = self.time;
        write!(f, "{hours:02}:{minutes:02}:{seconds:02}:{:02}", samples / self.samples)?;
        match samples % self.samples {
            0 => Ok(()),
            rest => write!(f, "+{rest} samples"),
        }
    }
}
