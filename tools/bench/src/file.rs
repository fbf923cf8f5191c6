//! A whole file, as both sides read it.

use std::hint::black_box;
use std::ops::Range;

use library::reads::{self as ours, Format};
use library::sound::Lent;
use original::{Layout, RegionKind};

use crate::builds::{Built, Original, Ours};
use crate::pool::CHANNELS;
use crate::sound::Sound;
use crate::texts::Texts;

pub struct File<'a> {
    pub sound: Sound<'a>,
    pub texts: Option<&'a Texts>,
    layout: Layout,
    built: Built,
}

/// A read of so many bytes from a byte of the file on.
#[derive(Clone, Copy)]
pub struct Read {
    pub offset: u64,
    pub bytes: usize,
}

/// What is lent for a read. The lengths need no joining: they are a stretch of all lengths.
#[derive(Default)]
pub struct Joined {
    positions: Range<usize>,
    frames: Vec<u8>,
    pub contents: Vec<u8>,
}

impl<'a> File<'a> {
    /// The file, if both sides build the same.
    pub fn new(sound: Sound<'a>, texts: Option<&'a Texts>) -> Result<File<'a>, String> {
        let layout = Original::new(sound, texts).build(sound.lengths().to_vec());
        let file = File { sound, texts, layout, built: Ours::new(sound, texts).build(0xFF) };
        if file.same_build() {
            return Ok(file);
        }
        Err(format!("{} of {} positions: the builds are not the same", file.name(), sound.positions))
    }

    pub fn name(&self) -> &'static str {
        self.texts.map_or(self.sound.name(), |texts| texts.name)
    }

    fn same_build(&self) -> bool {
        let Built { header, trailer, sound } = &self.built;
        let [mut first, mut last] = [header, trailer].map(|bytes| vec![0x00; bytes.len()]);
        self.original(Read { offset: 0, bytes: first.len() }, &mut first);
        self.original(Read { offset: self.sound_end(), bytes: last.len() }, &mut last);
        let region = self.layout.regions().iter().find(|region| matches!(region.kind, RegionKind::SoundData));
        let place = region.map(|region| (region.offset, region.len));
        let same_places = place == Some((self.sound_start(), *sound)) && self.layout.size() == self.size();
        same_places && first == *header && last == *trailer
    }

    pub fn sound_start(&self) -> u64 {
        self.built.header.len() as u64
    }

    pub fn sound_end(&self) -> u64 {
        self.sound_start() + self.built.sound
    }

    pub fn size(&self) -> u64 {
        self.sound_end() + self.built.trailer.len() as u64
    }

    /// The original's read. Answers how many bytes it filled.
    pub fn original(&self, read: Read, out: &mut [u8]) -> usize {
        let mut source = self.sound.pool;
        let filled = self.layout.fill(read.offset, black_box(out), &mut source);
        filled.expect("a source without errors")
    }

    fn format(&self) -> Format<'_> {
        let Sound { positions, .. } = self.sound;
        let (dst, crc, lengths) = (self.sound.dst(), self.sound.crc(), self.sound.lengths());
        Format { dst, crc, channels: CHANNELS, positions: positions as u32, lengths }
    }

    /// Our query.
    pub fn query(&self, read: Read) -> Range<usize> {
        let Built { header, trailer, .. } = &self.built;
        let (header, trailer) = (header.len() as u64, trailer.len() as u64);
        let Read { offset, bytes } = read;
        let (number, [first, end]) = ours::query(self.format(), header, trailer, offset, bytes as u64);
        assert_eq!(number, 0, "a query that is not refused");
        first as usize..end as usize
    }

    /// The caller's part of our read: the frames that it needs, joined.
    pub fn join(&self, positions: Range<usize>, joined: &mut Joined) {
        joined.frames.clear();
        joined.contents.clear();
        let Sound { pool, .. } = self.sound;
        let (dst, contents) = (self.sound.dst(), !self.sound.dst() || self.sound.crc());
        for position in positions.clone() {
            if dst {
                joined.frames.extend_from_slice(pool.dst(position));
            }
            if contents {
                joined.contents.extend_from_slice(pool.content(position));
            }
        }
        joined.positions = positions;
    }

    /// What our query says that a read needs, joined.
    pub fn lent(&self, read: Read) -> Joined {
        let mut joined = Joined::default();
        self.join(self.query(read), &mut joined);
        joined
    }

    /// Our read. Answers how many bytes it filled.
    pub fn read(&self, read: Read, joined: &Joined, out: &mut [u8]) -> usize {
        let Joined { positions, frames, contents } = joined;
        let Built { header, trailer, .. } = &self.built;
        let lengths = if self.sound.dst() { &self.sound.lengths()[positions.clone()] } else { &[] };
        let lent = Lent { lengths, frames, contents };
        let (number, filled) = ours::read(black_box(out), self.format(), header, trailer, read.offset, lent);
        assert_eq!(number, 0, "a read that is not refused");
        filled as usize
    }
}
