//! The sound of a file. `dst_head` and `dst_index` answer how many bytes the whole has; what does not fit in `out` is
//! dropped, and bytes past the whole stay.

use std::ops::Range;

use crate::exports;

/// What a read of DST sound is lent, for the positions that it needs: their lengths, their DST bytes joined and, if
/// there are CRCs, their contents joined.
#[derive(Clone, Copy)]
pub struct Lent<'a> {
    pub lengths: &'a [u32],
    pub frames: &'a [u8],
    pub contents: &'a [u8],
}

/// The CRC of a position's content.
pub fn crc(content: &[u8]) -> u32 {
    // SAFETY: the pointer and length are of one live slice, and the library keeps neither.
    unsafe { exports::jangqeruz_crc(content.as_ptr(), content.len()) }
}

/// The DST chunk's header and FRTE.
pub fn dst_head(out: &mut [u8], crc: bool, lengths: &[u32]) -> usize {
    // SAFETY: each pointer and length is of one live slice; the library writes to `out` only and keeps none of them.
    unsafe { exports::jangqeruz_dst_head(out.as_mut_ptr(), out.len(), crc, lengths.as_ptr(), lengths.len()) }
}

/// The data of DSTI, where the first unit starts at `base` of the file.
pub fn dst_index(out: &mut [u8], crc: bool, frame_data: bool, base: u64, lengths: &[u32]) -> usize {
    // SAFETY: as in `dst_head`.
    unsafe {
        exports::jangqeruz_dst_index(
            out.as_mut_ptr(),
            out.len(),
            crc,
            frame_data,
            base,
            lengths.as_ptr(),
            lengths.len(),
        )
    }
}

/// What `range` holds before a call.
const NO_RANGE: [usize; 2] = [usize::MAX, 0];

/// The positions that a read of `count` bytes of DST sound needs.
pub fn dst_positions(crc: bool, lengths: &[u32], from: u64, count: u64) -> Range<usize> {
    let mut range = NO_RANGE;
    // SAFETY: as in `dst_head`, but that the library writes to `range` only.
    unsafe { exports::jangqeruz_dst_positions(&mut range, crc, lengths.as_ptr(), lengths.len(), from, count) };
    range[0]..range[1]
}

/// The positions that a read of `count` bytes of DSD sound needs, of `n` positions.
pub fn dsd_positions(channels: u8, n: u32, from: u64, count: u64) -> Range<usize> {
    let mut range = NO_RANGE;
    // SAFETY: as in `dst_positions`.
    unsafe { exports::jangqeruz_dsd_positions(&mut range, channels, n, from, count) };
    range[0]..range[1]
}

/// Fills `out` with DST sound after its first `skip` bytes. Answers how many bytes it filled, or the largest `usize` if
/// what is lent does not have the right lengths.
pub fn dst_fill(out: &mut [u8], skip: u64, crc: bool, channels: u8, lengths: &[u32], lent: Lent<'_>) -> usize {
    // SAFETY: as in `dst_head`.
    unsafe {
        exports::jangqeruz_dst_fill(
            out.as_mut_ptr(),
            out.len(),
            skip,
            crc,
            channels,
            lengths.as_ptr(),
            lengths.len(),
            lent.lengths.as_ptr(),
            lent.lengths.len(),
            lent.frames.as_ptr(),
            lent.frames.len(),
            lent.contents.as_ptr(),
            lent.contents.len(),
        )
    }
}

/// The same with DSD sound of `n` positions, lent their contents joined.
pub fn dsd_fill(out: &mut [u8], skip: u64, channels: u8, n: u32, contents: &[u8]) -> usize {
    // SAFETY: as in `dst_head`.
    unsafe {
        exports::jangqeruz_dsd_fill(out.as_mut_ptr(), out.len(), skip, channels, n, contents.as_ptr(), contents.len())
    }
}
