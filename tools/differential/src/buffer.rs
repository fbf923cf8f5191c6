//! A buffer that shows what a call wrote.

/// So many bytes behind what is lent are looked at too.
const BEHIND: usize = 16;

/// A buffer that is lent: `room` bytes of a pattern, with more of it behind.
pub struct Buffer {
    pub bytes: Vec<u8>,
    pub room: usize,
}

/// What place `at` of a buffer holds before a call.
fn pattern(at: usize) -> u8 {
    (at as u8).wrapping_mul(29) ^ (at >> 8) as u8 ^ 0xA7
}

impl Buffer {
    pub fn new(room: usize) -> Buffer {
        Buffer { bytes: (0..room + BEHIND).map(pattern).collect(), room }
    }

    pub fn lent(&mut self) -> &mut [u8] {
        &mut self.bytes[..self.room]
    }

    /// The first place from `start` on that is not as before.
    pub fn touched(&self, start: usize) -> Option<usize> {
        (start..self.bytes.len()).find(|&at| self.bytes[at] != pattern(at))
    }
}
