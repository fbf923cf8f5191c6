//! The record of a file with windows: queries and reads.

use std::ops::Range;

use library::reads::WRONGLY_LENT;

use super::pack;
use crate::reads::file::File;
use crate::reads::{Read, Spoilt, Window};

/// The kind of record.
const FILE: u64 = 1;

// What the program that answers again has room for.
const MOST_LENGTHS: usize = 2_000;
const LONGEST_SIDE: usize = 8_192;
const LONGEST_READ: u64 = 12_288;
const MOST_FRAMES: usize = 70_000;
const MOST_CONTENTS: usize = 90_000;

/// What is told of a file.
#[derive(Clone)]
pub struct Told {
    pub dst: bool,
    pub crc: bool,
    pub channels: u8,
    pub positions: u32,
    pub seed: u32,
    pub lengths: Vec<u32>,
    pub header: u64,
    pub trailer: u64,
    /// Header and trailer. Without them only queries are asked.
    pub sides: Option<[Vec<u8>; 2]>,
}

impl Told {
    pub fn of(file: &File) -> Told {
        Told {
            dst: file.sound.is_dst(),
            crc: file.crc,
            channels: file.sound.channels,
            positions: file.sound.positions() as u32,
            seed: file.sound.seed,
            lengths: file.sound.lengths().to_vec(),
            header: file.header_bytes(),
            trailer: file.trailer_bytes(),
            sides: Some([file.header.clone(), file.trailer.clone()]),
        }
    }

    pub fn fits(&self) -> bool {
        let longest = |sides: &[Vec<u8>; 2]| sides.iter().all(|side| side.len() <= LONGEST_SIDE);
        self.lengths.len() <= MOST_LENGTHS && self.sides.as_ref().is_none_or(longest)
    }

    /// Bytes of content that a read is lent for a position.
    fn content(&self) -> usize {
        if self.dst && !self.crc {
            0
        } else {
            4_704 * usize::from(self.channels)
        }
    }
}

/// A window, what its read is lent and what it answers: the number of the refusal, or the bytes.
#[derive(Clone)]
pub struct Asked {
    pub window: Window,
    pub positions: Range<usize>,
    pub lent: usize,
    pub frames: usize,
    pub contents: usize,
    pub alone: bool,
    pub answer: Result<Vec<u8>, u64>,
}

impl Asked {
    /// A read that is lent what it needs.
    pub fn of(told: &Told, window: Window, positions: &Range<usize>, bytes: Vec<u8>) -> Asked {
        let count = positions.len();
        let frames = if told.dst { told.lengths[positions.clone()].iter().sum::<u32>() as usize } else { 0 };
        Asked {
            window,
            positions: positions.clone(),
            lent: if told.dst { count } else { 0 },
            frames,
            contents: count * told.content(),
            alone: false,
            answer: Ok(bytes),
        }
    }

    /// A read that needs a spoilt position, of which something else is lent.
    pub fn spoilt(told: &Told, window: Window, positions: &Range<usize>, spoilt: Spoilt, original: &Read) -> Asked {
        let right = Asked::of(told, window, positions, Vec::new());
        let place = spoilt.position as usize;
        let alone = matches!(original, Read::Filled(_));
        let mut wrong = Asked { alone, answer: Err(WRONGLY_LENT), ..right };
        match spoilt.content {
            true => wrong.contents = wrong.contents - told.content() + spoilt.bytes,
            false => wrong.frames = wrong.frames - told.lengths[place] as usize + spoilt.bytes,
        }
        wrong
    }

    fn fits(&self) -> bool {
        self.frames < MOST_FRAMES && self.contents < MOST_CONTENTS && self.window.length <= LONGEST_READ
    }
}

/// The record, of those windows that the program has room for; and how many these are. None if the file is too large.
pub fn record(told: &Told, windows: &[Asked]) -> Option<(Vec<u8>, u64)> {
    let reads = told.sides.is_some();
    let windows: Vec<&Asked> = windows.iter().filter(|asked| !reads || asked.fits()).collect();
    if !told.fits() || windows.is_empty() {
        return None;
    }
    let mut out = Vec::new();
    pack::number(&mut out, FILE);
    let bit = u32::from;
    let mut words = vec![bit(told.dst), bit(told.crc), told.channels.into(), told.positions, told.seed];
    words.push(told.lengths.len() as u32);
    words.extend(&told.lengths);
    pack::words(&mut out, &words);
    for value in [told.header, told.trailer, reads.into()] {
        pack::number(&mut out, value);
    }
    if let Some([header, trailer]) = &told.sides {
        pack::bytes(&mut out, header);
        pack::bytes(&mut out, trailer);
    }
    pack::number(&mut out, windows.len() as u64);
    for asked in &windows {
        let Window { offset, length } = asked.window;
        let Range { start, end } = asked.positions;
        let counts = [start, end, asked.lent, asked.frames, asked.contents].map(|count| count as u64);
        for value in [offset, length].into_iter().chain(counts).chain([asked.alone.into()]) {
            pack::number(&mut out, value);
        }
        pack::number(&mut out, asked.answer.as_ref().err().copied().unwrap_or(0));
        if let (Ok(bytes), true) = (&asked.answer, reads) {
            pack::bytes(&mut out, bytes);
        }
    }
    Some((out, windows.len() as u64))
}
