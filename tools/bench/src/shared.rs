//! Rows that share one pool: every text is the whole of it.

use library::checks::{Caller, Comment, Lent};
use library::markers::{INDEX, Marker, Text, Track};

/// The most values that a text has (refusal 1).
pub const LONGEST: usize = 1 << 20;

/// A text that is the whole pool, or the front of the pool of bytes.
pub const TEXT: Text = [1, 0, LONGEST as u32];

#[derive(Default)]
pub struct Shared {
    pub pool: Vec<u32>,
    pub raw: Vec<u8>,
    pub tracks: Vec<Track>,
    pub markers: Vec<Marker>,
    pub comments: Vec<Comment>,
    pub callers: Vec<Caller>,
    pub lengths: Vec<u32>,
}

impl Shared {
    /// General comments without a date.
    pub fn comments(self, count: usize) -> Shared {
        let [_, start, length] = TEXT;
        Shared { comments: vec![[0, 0, 0, 0, 0, 0, 0, start, length]; count], ..self }
    }

    /// Custom markers at the first position.
    pub fn markers(self, count: usize) -> Shared {
        let [_, start, length] = TEXT;
        Shared { markers: vec![[0, INDEX << 16, start, length]; count], ..self }
    }

    /// Tracks of one position with one between them, so that each has a stop of its own.
    pub fn tracks(self, count: usize) -> Shared {
        let [_, start, length] = TEXT;
        Shared { tracks: (0..count as u32).map(|place| [2 * place, 1, start, length]).collect(), ..self }
    }

    pub fn lent(&self) -> Lent<'_> {
        Lent {
            pool: &self.pool,
            raw: &self.raw,
            tracks: self.tracks.as_flattened(),
            markers: self.markers.as_flattened(),
            comments: self.comments.as_flattened(),
            callers: self.callers.as_flattened(),
            lengths: &self.lengths,
        }
    }
}
