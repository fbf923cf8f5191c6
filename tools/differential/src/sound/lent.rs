//! What a read is lent, and what it should not be lent.

use std::ops::Range;

use library::sound;

use super::file::File;
use crate::random::Random;

/// What a read is lent, in memory of its own.
pub struct Lent {
    pub lengths: Vec<u32>,
    pub frames: Vec<u8>,
    pub contents: Vec<u8>,
}

impl Lent {
    pub fn slices(&self) -> sound::Lent<'_> {
        sound::Lent { lengths: &self.lengths, frames: &self.frames, contents: &self.contents }
    }
}

/// What a read that needs these positions is lent.
pub fn lent(file: &File, positions: &Range<usize>) -> Lent {
    let numbers = || positions.clone().map(|k| k as u32);
    Lent {
        lengths: if file.is_dst() { file.lengths()[positions.clone()].to_vec() } else { Vec::new() },
        frames: if file.is_dst() { numbers().flat_map(|k| file.frame(k)).collect() } else { Vec::new() },
        contents: match file.lent_content_bytes() {
            0 => Vec::new(),
            _ => numbers().flat_map(|k| file.content(k)).collect(),
        },
    }
}

/// A way to lend something else: what it is called, and the change, which answers whether there was anything to change.
type Way = (&'static str, fn(&mut Lent, &File, &mut Random) -> bool);

pub const WAYS: [Way; 10] = [
    ("a content byte missing", |lent, _, _| lent.contents.pop().is_some()),
    ("a content byte too many", |lent, _, _| {
        lent.contents.push(0);
        true
    }),
    ("a position's content missing", |lent, file, _| {
        let bytes = file.lent_content_bytes();
        let less = lent.contents.len().checked_sub(bytes).filter(|_| bytes > 0);
        less.map(|less| lent.contents.truncate(less)).is_some()
    }),
    ("a position's content too many", |lent, file, _| {
        lent.contents.resize(lent.contents.len() + file.content_bytes(), 0);
        true
    }),
    ("a DST byte missing", |lent, _, _| lent.frames.pop().is_some()),
    ("a DST byte too many", |lent, _, _| {
        lent.frames.push(0);
        true
    }),
    ("a length missing", |lent, _, _| lent.lengths.pop().is_some()),
    ("a length too many, of 0", |lent, _, _| {
        lent.lengths.push(0);
        true
    }),
    ("a length changed", |lent, _, random| {
        let change = random.pick(&[1, u32::MAX, 0x100, 0x1_0000]);
        match lent.lengths.len() {
            0 => false,
            count => {
                let length = &mut lent.lengths[random.place(count)];
                *length = length.wrapping_add(change);
                true
            }
        }
    }),
    ("two lengths swapped", |lent, _, _| {
        let other = lent.lengths.iter().position(|length| *length != lent.lengths[0]);
        other.map(|other| lent.lengths.swap(0, other)).is_some()
    }),
];

/// How many of the ways there are for DSD, which is lent contents alone.
const DSD_WAYS: usize = 4;

/// Spoils what is lent. Answers which way it was.
pub fn spoil(lent: &mut Lent, file: &File, random: &mut Random) -> usize {
    let ways = if file.is_dst() { WAYS.len() } else { DSD_WAYS };
    loop {
        let way = random.place(ways);
        if WAYS[way].1(lent, file, random) {
            return way;
        }
    }
}
