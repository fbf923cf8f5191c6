//! The limit on header and trailer of a file, `--max-header`. What is given is held to it before it is read from files,
//! what the library measures before it is built.

use crate::sizes::Size;
use crate::sources::chunks::Unread;
use jangqeruz::{Area, BuildError, Measured, Options, given_bytes};

/// An error if the texts and chunks together have more bytes than header and trailer may have.
pub fn check_given(limit: Size, area: &Area, options: &Options, chunks: &[Unread]) -> Result<(), BuildError> {
    let Size(limit) = limit;
    let bytes = chunks.iter().map(Unread::size).fold(given_bytes(area, options), u64::saturating_add);
    if bytes > limit { Err(BuildError::AboveLimit { measured: Measured::Given, bytes, limit }) } else { Ok(()) }
}

/// The line on what raises the limit, where so many bytes were too much.
pub fn raise(measured: Measured, bytes: u64) -> String {
    let enough = Size(bytes.saturating_add(1).checked_next_power_of_two().unwrap_or(u64::MAX));
    let more = match measured {
        // Header and trailer have more than that, but rarely much.
        Measured::Given | Measured::Header => " or more",
        Measured::HeaderAndTrailer => "",
    };
    format!("\n  --max-header {enough}{more} raises the limit")
}
