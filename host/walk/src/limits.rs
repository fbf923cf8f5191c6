//! How much a walk keeps, so that a small or sparse file can't take all memory.

/// The most chunks that are kept, DST's frames and CRCs left out.
pub const MOST_CHUNKS: usize = 1 << 18;
/// The most DST frames (and as many CRCs and index entries) that are kept: more than 24 hours of sound.
pub const MOST_FRAMES: usize = 1 << 23;
/// The most bytes of texts that are kept.
pub const MOST_TEXT_BYTES: u64 = 1 << 26;
/// The most faults that are listed.
pub(crate) const MOST_FAULTS: usize = 1000;

/// The words on a file that has more than is kept.
pub(crate) fn more_than(most: impl std::fmt::Display, what: &str) -> String {
    format!("more {what} than {most}, which is a limit of this program, not of the format")
}
