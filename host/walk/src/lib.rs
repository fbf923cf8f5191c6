//! A strict walk of a DSDIFF file, in plain safe Rust.
//!
//! **This crate is UNPROVED.** Nothing here is checked by the proofs of this repository; it is held by tests alone.
//! It reads files, it never decides what is written into one. When a proved reader is there, this walk stays beside it
//! as its comparison.
//!
//! [`walk`] reads chunk after chunk by `pread`, through a window, and answers all that the file tells, as it is stored,
//! with its place and size. What is at fault is listed in [`Walk::faults`]: first the chunks' structure (49), then
//! chunks that are missing or repeated (50), then their fields (51). A file without a fault is one that a strict
//! reader takes. A file at fault is walked as far as that makes sense. Bytes behind the fields of a chunk are no fault
//! by these rules; they stand apart, in [`Walk::leftovers`] and [`Crc::leftover`].
//!
//! ```
//! let file = [b"FRM8\0\0\0\0\0\0\0\x04DSD ".as_slice(), b"tail"].concat();
//! let walked = walk::walk(&file[..]).unwrap();
//! assert_eq!(walked.faults[0].rule.number(), Some(49)); // bytes after FRM8
//! assert_eq!(walked.faults[0].place, 16);
//! ```
#![forbid(unsafe_code)]
#![warn(missing_docs)]

mod bytes;
mod chunk;
mod fault;
mod fields;
mod index;
mod leftover;
mod limits;
mod presence;
mod sound;
mod structure;
mod texts;
mod time;
mod values;

pub use bytes::Bytes;
pub use chunk::{Chunk, Name};
pub use fault::{Fault, Rule};
pub use index::{Index, IndexEntry, IndexReport, Leads, WrongEntry};
pub use leftover::Leftover;
pub use limits::{MOST_CHUNKS, MOST_FRAMES, MOST_TEXT_BYTES};
pub use sound::{Crc, Frame, FrameRate, Sound, SoundKind};
pub use time::{FRAMES_PER_SECOND, Time};
pub use values::{Comment, Compression, Field, Marker, Pads, Text, Walk};

use std::io;

/// Walks a file. An error is one of reading (the file ends early, or can't be read); what is wrong with the content is
/// told in [`Walk::faults`].
pub fn walk<B: Bytes + ?Sized>(file: &B) -> io::Result<Walk> {
    let mut window = bytes::Window::new(file)?;
    let mut found = Walk { size: window.size(), ..Walk::default() };
    structure::walk(&mut window, &mut found)?;
    presence::check(&mut found);
    fields::read(&mut window, &mut found)?;
    found.faults.sort_by_key(|fault| (fault.rule, fault.place));
    found.leftovers.sort_by_key(|leftover| leftover.place);
    Ok(found)
}
