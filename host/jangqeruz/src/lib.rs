//! DSDIFF files (.dff) of DSD or DST sound, by a library whose every byte is proved.
//!
//! An [`Area`] says what sound there is, [`Options`] what the file is to tell of it, a [`Source`] gives the sound's
//! frames. [`File::build`] makes of these a file that can be read at any place, without the whole of it ever being in
//! memory or on a disc. What no file can have is refused, with a number, the words of the rule and what to do about it
//! ([`Refusal`]).
//!
//! One frame of silence in stereo; and a channel too many:
//!
//! ```
//! use std::io;
//! use std::ops::Range;
//!
//! use jangqeruz::{Area, BuildError, File, Kind, Layout, Options, Refusal, Source};
//!
//! struct Silence;
//!
//! impl Source for Silence {
//!     fn fetch(&self, _frames: Range<u32>, _coded: &mut [u8], plain: &mut [u8]) -> io::Result<()> {
//!         plain.fill(0x69);
//!         Ok(())
//!     }
//! }
//!
//! # fn main() -> Result<(), Box<dyn std::error::Error>> {
//! let area = Area::new(Kind::Dsd, 2, Layout::Stereo, 1);
//! let file = File::build(&area, &Options::default(), &[], Silence)?;
//! assert_eq!(file.header().len(), 144);
//! assert_eq!(file.len(), 9_552);
//!
//! let mut bytes = vec![0; 10_000];
//! assert_eq!(file.read_at(0, &mut bytes)?, 9_552);
//! assert_eq!(bytes[..4], *b"FRM8");
//! assert_eq!(bytes[144..9_552], [0x69; 9_408]);
//!
//! let seven = Area { channels: 7, ..area };
//! let refused = File::build(&seven, &Options::default(), &[], Silence).unwrap_err();
//! assert_eq!(refused, BuildError::Refused(Refusal::Channels));
//! assert_eq!(refused.to_string(), "refused (7): Channels aren't 1 to 6.");
//! # Ok(())
//! # }
//! ```
//!
//! Whether a date is one of the calendar is told by [`date_fault`] and [`note_fault`], and whether a comment falls in a
//! window of dates by [`falls_in`]; a build takes comments with other dates too.
//!
//! Nothing here decides about the bytes of a file: words, texts and frames are handed to the library as they are. What
//! is proved of it, and what that rests on, stands in the repository's documents. This crate itself is plain Rust, not
//! proved. No input makes it panic.

#![forbid(unsafe_code)]
#![warn(missing_docs)]

mod area;
mod chunks;
mod dates;
mod errors;
mod file;
mod limit;
mod options;
mod pools;
mod refusal;
#[rustfmt::skip]
mod refusals;
mod scratch;
mod source;
mod values;
mod verdicts;
mod words;

pub use area::{Area, Kind, Layout, Track};
pub use chunks::{
    ArtistTitle, ArtistTitleSource, CallerChunk, Comment, CommentKind, IndexOffset, InfoChunk, LocalChunk, Marker,
    MarkerKind, PropertyChunk, text_bytes,
};
pub use dates::{DateError, DateRefusal, Stamp, date_fault, earlier, falls_in, note_fault};
pub use errors::{BuildError, Measured, ReadError};
pub use file::File;
pub use limit::given_bytes;
pub use options::Options;
pub use refusals::Refusal;
pub use scratch::Scratch;
pub use source::Source;
pub use verdicts::verdict;

/// The bytes of plain content that a channel has in a frame.
pub const FRAME_BYTES_PER_CHANNEL: usize = 4_704;

/// The frames of a second.
pub const FRAMES_PER_SECOND: u32 = 75;

/// The CRC of a DST frame's plain content, as DSTC has it.
///
/// ```
/// assert_eq!(jangqeruz::crc(&[1]), 0x8000_0011);
/// ```
pub fn crc(content: &[u8]) -> u32 {
    library::sound::crc(content)
}
