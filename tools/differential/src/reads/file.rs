//! The file that a build makes: header and trailer as our library writes them, and the sound between them.

use library::builds::{self as ours, ANSWERS, HEADER_SHORT, TRAILER_SHORT};

use super::Window;
use crate::checks::Case as Build;
use crate::chunks::{self, Chunk};
use crate::sound::file::{Content, File as Sound, Kind, Part};
use crate::subject::Disagreement;

#[derive(Clone, PartialEq)]
pub struct File {
    pub header: Vec<u8>,
    pub trailer: Vec<u8>,
    /// As our library answers it.
    pub sound_bytes: u64,
    pub sound: Sound,
    /// The CRC switch as it is told. For DSD nothing follows from it.
    pub crc: bool,
}

/// What a place of the file belongs to.
#[derive(Clone, Copy, PartialEq)]
pub enum Place {
    Header,
    Sound(Part),
    Trailer,
    PastEnd,
}

/// The name of a chunk, and whether it is before the sound.
pub type Standing = ([u8; 4], bool);

impl File {
    /// Builds with buffers that have no room first, then as much as the refusal says. An error is the last refusal.
    pub fn of(build: &Build, seed: u32, contents: &[(u32, Content)]) -> Result<File, u64> {
        let inputs = build.inputs();
        let (mut header, mut trailer) = (Vec::new(), Vec::new());
        let mut answer = [0; ANSWERS];
        let mut number = 0;
        for _ in 0..3 {
            number = ours::build(&inputs.words, inputs.lent(), &mut header, &mut trailer, &mut answer);
            match number {
                HEADER_SHORT => header.resize(answer[0] as usize, 0),
                TRAILER_SHORT => trailer.resize(answer[0] as usize, 0),
                _ => break,
            }
        }
        if number != 0 {
            return Err(number);
        }
        let [header_bytes, sound_bytes, trailer_bytes] = answer;
        header.truncate(header_bytes as usize);
        trailer.truncate(trailer_bytes as usize);
        let properties = &build.of.properties;
        let kind = match properties.dst {
            true => Kind::Dst { crc: build.dst_crc, index: None, lengths: inputs.lengths },
            false => Kind::Dsd { positions: build.positions() },
        };
        let first = build.of.info.first;
        let sound = Sound { channels: properties.channels, first, seed, kind, contents: contents.to_vec() };
        Ok(File { header, trailer, sound_bytes, sound, crc: build.dst_crc })
    }

    pub fn header_bytes(&self) -> u64 {
        self.header.len() as u64
    }

    pub fn trailer_bytes(&self) -> u64 {
        self.trailer.len() as u64
    }

    pub fn sound_end(&self) -> u64 {
        self.header_bytes() + self.sound_bytes
    }

    pub fn size(&self) -> u64 {
        self.sound_end() + self.trailer_bytes()
    }

    pub fn whole(&self) -> Window {
        Window { offset: 0, length: self.size() }
    }

    fn chunks(&self) -> (Vec<Chunk<'_>>, Vec<Chunk<'_>>) {
        // Bytes that are no chunks differ from the original's, and are told there.
        (chunks::before_sound(&self.header).unwrap_or_default(), chunks::all(&self.trailer).unwrap_or_default())
    }

    /// The chunks beside the sound.
    pub fn standing(&self) -> Vec<Standing> {
        let (before, after) = self.chunks();
        let before = before.iter().map(|chunk| (chunk.name, true));
        before.chain(after.iter().map(|chunk| (chunk.name, false))).collect()
    }

    /// Where the file's parts begin, and where they end: FRM8's name, size and form, the chunks in it, the stretches of the
    /// sound.
    pub fn boundaries(&self) -> Vec<u64> {
        self.boundaries_of(0..self.sound.positions())
    }

    /// The same, but of the stretches of the sound only those of these positions, which go up.
    pub fn boundaries_of(&self, positions: impl IntoIterator<Item = usize>) -> Vec<u64> {
        let (before, after) = self.chunks();
        let mut boundaries = vec![0, 4, 12, 16];
        let mut place = 16;
        for chunk in &before {
            boundaries.push(place + 12);
            place += chunk.whole.len() as u64;
            boundaries.push(place);
        }
        // Of DST, its header and FRTE's.
        if self.sound.is_dst() {
            boundaries.extend([place + 12, place + 24]);
        }
        let in_sound = self.sound.boundaries_of(positions);
        boundaries.extend(in_sound.into_iter().map(|boundary| self.header_bytes() + boundary));
        boundaries.push(self.header_bytes());
        place = self.sound_end();
        boundaries.push(place);
        for chunk in &after {
            boundaries.push(place + 12);
            place += chunk.whole.len() as u64;
            boundaries.push(place);
        }
        boundaries.push(self.size());
        boundaries.sort_unstable();
        boundaries.dedup();
        boundaries
    }

    /// The place that is most like one of another file: as far from the nearer end of the same part, or position.
    pub fn place_like(&self, other: &File, place: u64) -> u64 {
        if place < other.header_bytes() {
            return like(place, other.header_bytes(), self.header_bytes());
        }
        if place >= other.size() {
            let past = place - other.size();
            return if past <= NEAR { self.size() + past } else { place };
        }
        if place >= other.sound_end() {
            return self.sound_end() + like(place - other.sound_end(), other.trailer_bytes(), self.trailer_bytes());
        }
        let place = place - other.header_bytes();
        let (Some(position), Some(last)) = (other.sound.position_at(place), self.sound.positions().checked_sub(1))
        else {
            return self.header_bytes();
        };
        // The last one stays so.
        let now = if position + 1 == other.sound.positions() { last } else { position.min(last) };
        let before = place - other.sound.bytes_of(0..position);
        let bytes = [(&other.sound, position), (&self.sound, now)].map(|(sound, k)| sound.bytes_of(k..k + 1));
        self.header_bytes() + self.sound.bytes_of(0..now) + like(before, bytes[0], bytes[1])
    }

    /// The window that is most like one of another file.
    pub fn window_like(&self, other: &File, window: Window) -> Window {
        let offset = self.place_like(other, window.offset);
        let length = match window.end() > other.size().saturating_add(NEAR) {
            true => window.length,
            false => self.place_like(other, window.end()).saturating_sub(offset),
        };
        Window { offset, length }
    }

    /// What differs from what the original built, if anything does.
    pub fn differs(&self, header: &[u8], sound: u64, trailer: &[u8]) -> Option<Disagreement> {
        let same = self.header == header && self.trailer == trailer;
        let same = same && [self.sound_bytes, self.sound.sound_bytes()] == [sound; 2];
        (!same).then(|| Disagreement {
            what: "build, parts".into(),
            expected: "the original has another header, sound or trailer: see the subject builds".into(),
            ours: String::new(),
        })
    }
}

/// So many bytes past a file's end are near it.
const NEAR: u64 = 1_000;

/// In a part of `bytes` bytes, the place that is most like one in a part of `of` bytes.
fn like(place: u64, of: u64, bytes: u64) -> u64 {
    match place <= of / 2 {
        true => place.min(bytes),
        false => bytes.saturating_sub(of - place),
    }
}

/// Where the positions of the sound end, to find places in.
pub struct Map<'a> {
    pub file: &'a File,
    /// Of DST.
    ends: Vec<u64>,
}

impl<'a> Map<'a> {
    pub fn of(file: &'a File) -> Map<'a> {
        let mut end = file.header_bytes();
        let positions = 0..file.sound.lengths().len();
        let ends = positions.map(|position| {
            end += file.sound.bytes_of(position..position + 1);
            end
        });
        Map { file, ends: ends.collect() }
    }

    pub fn place(&self, offset: u64) -> Place {
        if offset < self.file.header_bytes() {
            return Place::Header;
        }
        if offset >= self.file.sound_end() {
            return if offset < self.file.size() { Place::Trailer } else { Place::PastEnd };
        }
        if !self.file.sound.is_dst() {
            return Place::Sound(Part::Content);
        }
        let position = self.ends.partition_point(|&end| end <= offset);
        let Some(&end) = self.ends.get(position) else {
            return Place::PastEnd;
        };
        let mut end = end - self.file.sound.bytes_of(position..position + 1);
        let part = self.file.sound.stretches_of(position).find_map(|(part, length)| {
            end += length;
            (offset < end).then_some(part)
        });
        part.map_or(Place::PastEnd, Place::Sound)
    }
}
