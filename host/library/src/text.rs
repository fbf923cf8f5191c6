//! Texts, and the chunks that are made of them. A function answers how many bytes the whole has. What does not fit in
//! `out` is dropped; bytes past the whole stay.

use crate::exports;

/// A stretch of a pool of text.
#[derive(Clone, Copy, Debug, Default, PartialEq)]
pub struct Extent {
    pub start: u32,
    pub length: u32,
}

/// What becomes of a value that does not pass.
#[derive(Clone, Copy, Debug, Default, PartialEq)]
pub struct Conversion {
    pub rule: u8,
    pub replacement: u8,
}

pub const REPLACE: u8 = 0;
pub const REMOVE: u8 = 1;
/// Departure D2: ISO 8859-1, anything else removed.
pub const D2: u8 = 2;

#[derive(Clone, Copy, Debug, Default, PartialEq)]
pub struct Switches {
    pub empty_text: bool,
    pub text_pad_counted: bool,
}

/// A comment: year, month, day, hour, minutes, kind, reference, start and length of its text.
pub type Row = [u32; 9];

/// The text bytes of a text of the pool.
pub fn text_bytes(out: &mut [u8], pool: &[u32], text: Extent, conversion: Conversion) -> usize {
    // SAFETY: each pointer and length is of one live slice; the library writes to `out` only and keeps none of them.
    unsafe {
        exports::jangqeruz_text_bytes(
            out.as_mut_ptr(),
            out.len(),
            pool.as_ptr(),
            pool.len(),
            text.start,
            text.length,
            conversion.rule,
            conversion.replacement,
        )
    }
}

/// The chunk `id` (DIAR or DITI) of a text of the pool; nothing if it is not given.
pub fn diin_text(
    out: &mut [u8],
    id: &[u8; 4],
    pool: &[u32],
    given: bool,
    text: Extent,
    conversion: Conversion,
    switches: Switches,
) -> usize {
    // SAFETY: as in `text_bytes`.
    unsafe {
        exports::jangqeruz_diin_text(
            out.as_mut_ptr(),
            out.len(),
            id,
            pool.as_ptr(),
            pool.len(),
            given,
            text.start,
            text.length,
            conversion.rule,
            conversion.replacement,
            switches.empty_text,
            switches.text_pad_counted,
        )
    }
}

/// The chunk COMT of the comments; nothing if none is written.
pub fn comt(out: &mut [u8], pool: &[u32], rows: &[Row], conversion: Conversion, switches: Switches) -> usize {
    let rows = rows.as_flattened();
    // SAFETY: as in `text_bytes`.
    unsafe {
        exports::jangqeruz_comt(
            out.as_mut_ptr(),
            out.len(),
            pool.as_ptr(),
            pool.len(),
            rows.as_ptr(),
            rows.len(),
            conversion.rule,
            conversion.replacement,
            switches.empty_text,
            switches.text_pad_counted,
        )
    }
}
