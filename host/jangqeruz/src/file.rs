//! A file: built once, read at any place.

use std::fmt;
use std::ops::Range;

use library::builds::{self, ANSWERS, HEADER_SHORT, TRAILER_SHORT};
use library::reads::{self, Format};
use library::sound::Lent;

use crate::FRAME_BYTES_PER_CHANNEL;
use crate::area::{Area, Kind};
use crate::errors::{BuildError, Measured, ReadError};
use crate::limit::{given_bytes, within};
use crate::options::Options;
use crate::pools::reserve;
use crate::scratch::Scratch;
use crate::source::Source;
use crate::words::Inputs;

/// A file whose bytes before and behind the sound are in memory; its sound is asked from a source as it is read.
///
/// Any number of threads can read it at once, if they can share the source.
pub struct File<S> {
    header: Vec<u8>,
    trailer: Vec<u8>,
    lengths: Vec<u32>,
    sound: u64,
    kind: Kind,
    crc: bool,
    channels: u8,
    positions: u32,
    first: u32,
    source: S,
}

impl<S> File<S> {
    /// The file of an area's range. `lengths` are those of the range's DST frames, none for DSD. Nothing is asked from
    /// the source yet.
    pub fn build(area: &Area, options: &Options, lengths: &[u32], source: S) -> Result<File<S>, BuildError> {
        File::build_within(u64::MAX, area, options, lengths, source)
    }

    /// The same file, if header and trailer, which it keeps in memory, have no more than `limit` bytes together.
    /// What is given is held to the limit first, without asking the library ([`given_bytes`]), then what the library
    /// measures, before memory is taken for it.
    pub fn build_within(
        limit: u64,
        area: &Area,
        options: &Options,
        lengths: &[u32],
        source: S,
    ) -> Result<File<S>, BuildError> {
        within(limit, Measured::Given, given_bytes(area, options))?;
        let Built { header, trailer, sound } = built(limit, &Inputs::new(area, options)?, lengths)?;
        let mut kept = Vec::new();
        reserve(&mut kept, lengths.len())?;
        kept.extend_from_slice(lengths);
        // No file is built of more channels, or of a range that ends before it begins.
        let broken = BuildError::Broken { number: 0, detail: 0 };
        let channels = u8::try_from(area.channels).map_err(|_| broken.clone())?;
        let positions = area.end.checked_sub(area.first).ok_or(broken)?;
        Ok(File {
            header,
            trailer,
            lengths: kept,
            sound,
            kind: area.kind,
            crc: options.dst_crc,
            channels,
            positions,
            first: area.first,
            source,
        })
    }

    /// How many bytes the file has.
    #[allow(clippy::len_without_is_empty)] // No file is empty.
    pub fn len(&self) -> u64 {
        (self.header.len() as u64).saturating_add(self.sound).saturating_add(self.trailer.len() as u64)
    }

    /// The bytes before the sound.
    pub fn header(&self) -> &[u8] {
        &self.header
    }

    /// The bytes behind the sound.
    pub fn trailer(&self) -> &[u8] {
        &self.trailer
    }

    /// How many bytes the sound has, with the chunks of DST frames and CRCs.
    pub fn sound_len(&self) -> u64 {
        self.sound
    }

    /// The lengths of the DST frames; none for DSD.
    pub fn lengths(&self) -> &[u32] {
        &self.lengths
    }

    /// Where the sound comes from.
    pub fn source(&self) -> &S {
        &self.source
    }

    /// The positions that a read of `room` bytes from `offset` on needs. They count from 0 at the range's first frame.
    pub fn needed(&self, offset: u64, room: u64) -> Result<Range<u32>, ReadError> {
        let (header, trailer) = (self.header.len() as u64, self.trailer.len() as u64);
        let (number, range) = reads::query(self.format(), header, trailer, offset, room);
        if number != 0 {
            return Err(ReadError::of(number, range[0]));
        }
        match range.map(u32::try_from) {
            [Ok(first), Ok(end)] if first <= end => Ok(first..end),
            _ => Err(ReadError::Broken),
        }
    }

    fn format(&self) -> Format<'_> {
        Format {
            dst: self.kind == Kind::Dst,
            crc: self.crc,
            channels: self.channels,
            positions: self.positions,
            lengths: &self.lengths,
        }
    }

    /// The lengths of these positions' DST frames.
    fn lengths_of(&self, positions: &Range<u32>) -> Result<&[u32], ReadError> {
        if self.kind == Kind::Dsd {
            return Ok(&[]);
        }
        let [Ok(first), Ok(end)] = [positions.start, positions.end].map(usize::try_from) else {
            return Err(ReadError::Broken);
        };
        self.lengths.get(first..end).ok_or(ReadError::Broken)
    }

    /// How many bytes of plain content a read of these positions is lent.
    fn plain_bytes(&self, positions: &Range<u32>) -> u64 {
        if self.kind == Kind::Dst && !self.crc {
            return 0;
        }
        let frame = FRAME_BYTES_PER_CHANNEL as u64 * u64::from(self.channels);
        frame.saturating_mul(positions.len() as u64)
    }
}

impl<S: Source> File<S> {
    /// Fills `buf` with the file's bytes from `offset` on, and answers how many those are: as many as fit or as there
    /// are, 0 at and past the end. After an error `buf` is as it was.
    ///
    /// The source is asked once at most, for whole frames: memory for these is taken beside `buf`, about as much.
    pub fn read_at(&self, offset: u64, buf: &mut [u8]) -> Result<usize, ReadError> {
        self.read_at_with(offset, buf, &mut Scratch::default())
    }

    /// Does the same with buffers that are kept for the next read.
    pub fn read_at_with(&self, offset: u64, buf: &mut [u8], scratch: &mut Scratch) -> Result<usize, ReadError> {
        let needed = self.needed(offset, buf.len() as u64)?;
        let lengths = self.lengths_of(&needed)?;
        let coded_bytes = lengths.iter().map(|&length| u64::from(length)).sum();
        let (coded, plain) = scratch.slices(coded_bytes, self.plain_bytes(&needed))?;
        if !needed.is_empty() {
            let [Some(first), Some(end)] = [needed.start, needed.end].map(|position| self.first.checked_add(position))
            else {
                return Err(ReadError::Broken);
            };
            self.source.fetch(first..end, coded, plain).map_err(ReadError::Source)?;
        }
        let lent = Lent { lengths, frames: coded, contents: plain };
        let (number, value) = reads::read(buf, self.format(), &self.header, &self.trailer, offset, lent);
        if number != 0 {
            return Err(ReadError::of(number, value));
        }
        usize::try_from(value).ok().filter(|&filled| filled <= buf.len()).ok_or(ReadError::Broken)
    }
}

impl<S> fmt::Debug for File<S> {
    fn fmt(&self, f: &mut fmt::Formatter<'_>) -> fmt::Result {
        f.debug_struct("File")
            .field("kind", &self.kind)
            .field("channels", &self.channels)
            .field("positions", &self.positions)
            .field("header", &self.header.len())
            .field("sound", &self.sound)
            .field("trailer", &self.trailer.len())
            .finish_non_exhaustive()
    }
}

/// What the library builds.
struct Built {
    header: Vec<u8>,
    trailer: Vec<u8>,
    sound: u64,
}

/// Builds with buffers that have no room first, then with as much as the refusals 40 and 41 tell.
fn built(limit: u64, inputs: &Inputs, lengths: &[u32]) -> Result<Built, BuildError> {
    let (mut header, mut trailer) = (Vec::new(), Vec::new());
    let mut answer = [0; ANSWERS];
    let mut number = HEADER_SHORT;
    for _ in 0..3 {
        number = builds::build(&inputs.words, inputs.lent(lengths), &mut header, &mut trailer, &mut answer);
        match number {
            HEADER_SHORT => {
                within(limit, Measured::Header, answer[0])?;
                grow(&mut header, answer[0])?;
            }
            TRAILER_SHORT => {
                within(limit, Measured::HeaderAndTrailer, answer[0].saturating_add(header.len() as u64))?;
                grow(&mut trailer, answer[0])?;
            }
            _ => break,
        }
    }
    let [header_bytes, sound, trailer_bytes] = answer;
    let is_whole = header_bytes == header.len() as u64 && trailer_bytes == trailer.len() as u64;
    match number {
        0 if is_whole => Ok(Built { header, trailer, sound }),
        // Neither answers what it needs a third time, or lengths that it did not ask for.
        0 | HEADER_SHORT | TRAILER_SHORT => Err(BuildError::Broken { number, detail: header_bytes }),
        _ => Err(BuildError::of(number, answer[0])),
    }
}

fn grow(buffer: &mut Vec<u8>, bytes: u64) -> Result<(), BuildError> {
    let wanted = usize::try_from(bytes).map_err(|_| BuildError::Memory { bytes })?;
    reserve(buffer, wanted.saturating_sub(buffer.len()))?;
    buffer.resize(wanted, 0);
    Ok(())
}
