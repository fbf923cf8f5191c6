//! A whole build: what stands before and after the sound.

use crate::checks::Lent;
use crate::exports;

// The refusals that a build has beyond those of its inputs.
pub const HEADER_SHORT: u64 = 40;
pub const TRAILER_SHORT: u64 = 41;

/// How many numbers an answer has.
pub const ANSWERS: usize = 3;

/// The refusal's number, 0 if it is built. `answer` gets, as far as it has room, the lengths of header, sound and
/// trailer; of a refusal its detail, 0 and 0.
pub fn build(words: &[u32], lent: Lent<'_>, header: &mut [u8], trailer: &mut [u8], answer: &mut [u64]) -> u64 {
    // SAFETY: each pointer and length is of one live slice; the library writes to the last three only, which are apart,
    // and keeps none of them.
    unsafe {
        exports::jangqeruz_build(
            words.as_ptr(),
            words.len(),
            lent.pool.as_ptr(),
            lent.pool.len(),
            lent.raw.as_ptr(),
            lent.raw.len(),
            lent.tracks.as_ptr(),
            lent.tracks.len(),
            lent.markers.as_ptr(),
            lent.markers.len(),
            lent.comments.as_ptr(),
            lent.comments.len(),
            lent.callers.as_ptr(),
            lent.callers.len(),
            lent.lengths.as_ptr(),
            lent.lengths.len(),
            header.as_mut_ptr(),
            header.len(),
            trailer.as_mut_ptr(),
            trailer.len(),
            answer.as_mut_ptr(),
            answer.len(),
        )
    }
}
