//! A whole file, header, sound and trailer joined: the positions that a read needs, and the read.

use crate::exports;
use crate::sound::Lent;

// The refusals: what is told of the file is not a file's, and what is lent is not of the positions needed.
pub const NO_FILE: u64 = 42;
pub const WRONGLY_LENT: u64 = 43;

/// What is told of the sound. DST has one position for each length, and `positions` is not looked at; DSD has so many
/// positions, and `lengths` are not looked at.
#[derive(Clone, Copy, Debug)]
pub struct Format<'a> {
    pub dst: bool,
    pub crc: bool,
    pub channels: u8,
    pub positions: u32,
    pub lengths: &'a [u32],
}

/// What the numbers of an answer hold before a call.
const BEFORE: u64 = 0xE1E2_E3E4_E5E6_E7E8;

/// The refusal's number, 0 for none; and first and end of the positions that a read of `room` bytes from `offset` on
/// needs, or the refusal's detail and 0.
pub fn query(format: Format<'_>, header: u64, trailer: u64, offset: u64, room: u64) -> (u64, [u64; 2]) {
    let Format { dst, crc, channels, positions, lengths } = format;
    let mut range = [BEFORE; 2];
    // SAFETY: the pointer and length are of one live slice; the library writes to `range` only and keeps neither.
    let number = unsafe {
        exports::jangqeruz_query(
            &mut range,
            dst,
            crc,
            channels,
            positions,
            lengths.as_ptr(),
            lengths.len(),
            header,
            trailer,
            offset,
            room,
        )
    };
    (number, range)
}

/// Fills `out` with the file's bytes from `offset` on. Answers the refusal's number, 0 for none; and how many bytes it
/// filled, or the refusal's detail.
pub fn read(
    out: &mut [u8],
    format: Format<'_>,
    header: &[u8],
    trailer: &[u8],
    offset: u64,
    lent: Lent<'_>,
) -> (u64, u64) {
    let Format { dst, crc, channels, positions, lengths } = format;
    let mut filled = [BEFORE];
    // SAFETY: each pointer and length is of one live slice; the library writes to `out` and `filled` only, which are
    // apart, and keeps none of them.
    let number = unsafe {
        exports::jangqeruz_read(
            out.as_mut_ptr(),
            out.len(),
            &mut filled,
            dst,
            crc,
            channels,
            positions,
            lengths.as_ptr(),
            lengths.len(),
            header.as_ptr(),
            header.len(),
            trailer.as_ptr(),
            trailer.len(),
            offset,
            lent.lengths.as_ptr(),
            lent.lengths.len(),
            lent.frames.as_ptr(),
            lent.frames.len(),
            lent.contents.as_ptr(),
            lent.contents.len(),
        )
    };
    (number, filled[0])
}
