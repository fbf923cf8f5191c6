//! A file of a case: how the original is asked for it, and what is known of its sound beforehand.

use std::iter;
use std::ops::Range;

use crate::hex;

const FRAME_BYTES_PER_CHANNEL: usize = 4_704;

/// Bytes of the DST chunk's header and FRTE.
pub const DST_HEAD: usize = 30;

#[derive(Clone, PartialEq)]
pub struct File {
    pub channels: u8,
    /// The first position of the range. All others count from it.
    pub first: u32,
    pub seed: u32,
    pub kind: Kind,
    /// Positions whose content is not the rule's.
    pub contents: Vec<(u32, Content)>,
}

#[derive(Clone, PartialEq)]
pub enum Kind {
    Dsd { positions: u32 },
    Dst { crc: bool, index: Option<Index>, lengths: Vec<u32> },
}

/// Where DSTI stands, and what its offsets lead to.
#[derive(Clone, Copy, PartialEq)]
pub struct Index {
    pub before_sound: bool,
    pub frame_data: bool,
}

/// A content of bytes of its own at both ends, and one byte repeated between them.
#[derive(Clone, PartialEq)]
pub struct Content {
    pub front: Vec<u8>,
    pub fill: u8,
    pub back: Vec<u8>,
}

/// What the sound consists of.
#[derive(Clone, Copy, PartialEq)]
pub enum Part {
    FrameHeader,
    Frame,
    Pad,
    CrcHeader,
    Crc,
    Content,
}

impl File {
    pub fn positions(&self) -> usize {
        match &self.kind {
            Kind::Dsd { positions } => *positions as usize,
            Kind::Dst { lengths, .. } => lengths.len(),
        }
    }

    pub fn lengths(&self) -> &[u32] {
        match &self.kind {
            Kind::Dsd { .. } => &[],
            Kind::Dst { lengths, .. } => lengths,
        }
    }

    pub fn index(&self) -> Option<Index> {
        match self.kind {
            Kind::Dsd { .. } => None,
            Kind::Dst { index, .. } => index,
        }
    }

    pub fn is_dst(&self) -> bool {
        matches!(self.kind, Kind::Dst { .. })
    }

    pub fn crc(&self) -> bool {
        matches!(self.kind, Kind::Dst { crc: true, .. })
    }

    /// Bytes of a position's content.
    pub fn content_bytes(&self) -> usize {
        usize::from(self.channels) * FRAME_BYTES_PER_CHANNEL
    }

    /// Bytes of content that a read is lent for a position.
    pub fn lent_content_bytes(&self) -> usize {
        if self.is_dst() && !self.crc() {
            0
        } else {
            self.content_bytes()
        }
    }

    /// The stretches of a position, in order, with their lengths.
    pub fn stretches_of(&self, position: usize) -> impl Iterator<Item = (Part, u64)> {
        let (content, dstf, length) = match &self.kind {
            Kind::Dsd { .. } => (self.content_bytes() as u64, 0, 0),
            Kind::Dst { lengths, .. } => (0, 12, u64::from(lengths[position])),
        };
        let (dstc, crc) = if self.crc() { (12, 4) } else { (0, 0) };
        let frame = [(Part::FrameHeader, dstf), (Part::Frame, length), (Part::Pad, length % 2)];
        let stretches = [(Part::Content, content)].into_iter().chain(frame);
        stretches.chain([(Part::CrcHeader, dstc), (Part::Crc, crc)]).filter(|&(_, length)| length > 0)
    }

    /// The stretches of the sound, in order, with their lengths.
    pub fn stretches(&self) -> impl Iterator<Item = (Part, u64)> + '_ {
        (0..self.positions()).flat_map(|position| self.stretches_of(position))
    }

    /// How many bytes of the sound these positions have.
    pub fn bytes_of(&self, positions: Range<usize>) -> u64 {
        match &self.kind {
            Kind::Dsd { .. } => (positions.len() * self.content_bytes()) as u64,
            Kind::Dst { lengths, crc, .. } => {
                let dstc = if *crc { 16 } else { 0 };
                lengths[positions].iter().map(|&length| 12 + u64::from(length + length % 2) + dstc).sum()
            }
        }
    }

    /// Where the stretches start, and where the sound ends.
    pub fn boundaries(&self) -> Vec<u64> {
        let mut end = 0;
        let ends = self.stretches().map(|(_, length)| {
            end += length;
            end
        });
        iter::once(0).chain(ends).collect()
    }

    /// Where the stretches of these positions start and end. The positions go up.
    pub fn boundaries_of(&self, positions: impl IntoIterator<Item = usize>) -> Vec<u64> {
        let (mut boundaries, mut next, mut place) = (Vec::new(), 0, 0);
        for position in positions {
            place += self.bytes_of(next..position);
            next = position + 1;
            boundaries.push(place);
            for (_, length) in self.stretches_of(position) {
                place += length;
                boundaries.push(place);
            }
        }
        boundaries
    }

    pub fn sound_bytes(&self) -> u64 {
        self.bytes_of(0..self.positions())
    }

    /// The position that a place of the sound belongs to; `None` past the sound.
    pub fn position_at(&self, place: u64) -> Option<usize> {
        if place >= self.sound_bytes() {
            return None;
        }
        if !self.is_dst() {
            return Some(place as usize / self.content_bytes());
        }
        let mut end = 0;
        (0..self.positions()).find(|&position| {
            end += self.bytes_of(position..position + 1);
            place < end
        })
    }

    /// What the byte at a place of the sound belongs to; `None` past the sound.
    pub fn part_at(&self, place: u64) -> Option<Part> {
        let mut end = 0;
        self.stretches().find_map(|(part, length)| {
            end += length;
            (place < end).then_some(part)
        })
    }

    /// Bytes of the file before the sound, as `lines` asks for it.
    pub fn header_bytes(&self) -> u64 {
        let form_and_version = 16 + 16;
        let sample_rate_and_channels = 16 + 14 + 4 * u64::from(self.channels);
        let compression = 12 + if self.is_dst() { 16 } else { 20 };
        let property = 16 + sample_rate_and_channels + compression;
        let index = match self.index() {
            Some(Index { before_sound: true, .. }) => 12 + 12 * self.positions() as u64,
            _ => 0,
        };
        form_and_version + property + index + if self.is_dst() { DST_HEAD as u64 } else { 12 }
    }

    /// The file in the original's case language.
    pub fn lines(&self) -> Vec<String> {
        let end = self.first + self.positions() as u32;
        let mut lines = vec![
            format!("channels {}", self.channels),
            format!("playtime {end}"),
            format!("range {} {end}", self.first),
            format!("seed {}", self.seed),
            "lsco 0".to_owned(),
        ];
        match &self.kind {
            Kind::Dsd { .. } => lines.push("kind dsd".into()),
            Kind::Dst { crc, index, lengths } => {
                let lengths: Vec<String> = lengths.iter().map(u32::to_string).collect();
                lines.push("kind dst".into());
                lines.push(format!("lengths {}", lengths.join(",")));
                lines.push(format!("dst_crc {}", u8::from(*crc)));
                lines.push(format!("dst_index {}", u8::from(index.is_some())));
                if let Some(Index { before_sound, frame_data }) = index {
                    let order = if *before_sound { "prop,dsti,sound" } else { "prop,sound,dsti" };
                    lines.push(format!("local_order {order}"));
                    lines.push(format!("dst_index_offset {}", if *frame_data { "data" } else { "header" }));
                }
            }
        }
        lines.extend(self.content_lines());
        lines
    }

    /// The contents that are not the rule's, in that language.
    pub fn content_lines(&self) -> impl Iterator<Item = String> + '_ {
        self.contents.iter().map(|(position, content)| {
            let Content { front, fill, back } = content;
            let rest = self.content_bytes() - front.len() - back.len();
            let parts = [hex(front), format!("{fill:02x}*{rest}"), hex(back)];
            format!("content {position} {}", parts.join("+"))
        })
    }

    /// Byte `j` of position `k` is seed + 7k + 31j + j/256, unless the position has bytes of its own.
    pub fn content(&self, k: u32) -> Vec<u8> {
        let bytes = self.content_bytes();
        match self.contents.iter().find(|(position, _)| *position == k) {
            None => {
                let first = self.seed.wrapping_add(k.wrapping_mul(7));
                (0..bytes as u32).map(|j| first.wrapping_add(31 * j + j / 256) as u8).collect()
            }
            Some((_, Content { front, fill, back })) => {
                let middle = vec![*fill; bytes - front.len() - back.len()];
                [front.as_slice(), &middle, back].concat()
            }
        }
    }

    /// Byte `j` of position `k` is seed + 11k + 29j + j/256 + 128.
    pub fn frame(&self, k: u32) -> Vec<u8> {
        let first = self.seed.wrapping_add(k.wrapping_mul(11)).wrapping_add(128);
        (0..self.lengths()[k as usize]).map(|j| first.wrapping_add(29 * j + j / 256) as u8).collect()
    }
}
