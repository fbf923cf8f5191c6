//! Our queries and reads, held against what is wanted of them.

use std::collections::BTreeMap;
use std::ops::Range;

use library::reads::{self as ours, Format, WRONGLY_LENT};

use super::asked::Asked;
use super::counts::Counts;
use super::file::{File, Map};
use super::{Read, Spoilt, Window, SPOILT};
use crate::buffer::Buffer;
use crate::hex;
use crate::random::Random;
use crate::sound::lent::Lent;
use crate::subject::Disagreement;

/// The DST bytes and the content of a position.
type Position = (Vec<u8>, Vec<u8>);

/// Our functions held against one answer.
pub struct Held<'a> {
    pub asked: &'a Asked,
    pub file: &'a File,
    /// Whether the case is one of every run.
    pub fixed: bool,
    pub random: Random,
    pub counts: &'a mut Counts,
    pub found: Vec<Disagreement>,
    map: Map<'a>,
    /// The positions lent so far, as they are made once only.
    positions: BTreeMap<usize, Position>,
}

/// What a read answered, and its buffer.
pub struct Called {
    pub number: u64,
    pub value: u64,
    pub buffer: Buffer,
}

impl Called {
    fn told(&self) -> String {
        let bytes = hex(&self.buffer.bytes[..self.buffer.room]);
        let behind = self.buffer.touched(self.buffer.room).map_or("", |_| "; bytes behind it are touched");
        format!("ours: {} {}, the buffer: {bytes}{behind}", self.number, self.value)
    }
}

/// What may be told as the lengths of DSD, since they are not looked at.
const IDLE_LENGTHS: [&[u32]; 4] = [&[], &[0], &[65_537, 3], &[1; 9]];

impl<'a> Held<'a> {
    pub fn of(asked: &'a Asked, file: &'a File, fixed: bool, counts: &'a mut Counts) -> Held<'a> {
        let random = Random::of_case(asked.choices, 0);
        let (map, positions) = (Map::of(file), BTreeMap::new());
        Held { asked, file, fixed, random, counts, found: Vec::new(), map, positions }
    }

    /// What our functions are told of the sound. What is not looked at is anything.
    pub fn format(&mut self) -> Format<'a> {
        let File { sound, crc, .. } = self.file;
        let (positions, lengths) = match sound.is_dst() {
            true => (self.random.pick(&[0, 1, 1_151_999, 1_152_000, u32::MAX]), sound.lengths()),
            false => (sound.positions() as u32, self.random.pick(&IDLE_LENGTHS)),
        };
        Format { dst: sound.is_dst(), crc: *crc, channels: sound.channels, positions, lengths }
    }

    pub fn kind(&self) -> &'static str {
        match (self.file.sound.is_dst(), self.file.sound.crc()) {
            (false, _) => "DSD",
            (true, false) => "DST",
            (true, true) => "DST with CRCs",
        }
    }

    /// What a read that needs these positions is lent, in memory of its own.
    pub fn lent(&mut self, positions: &Range<usize>) -> Lent {
        let sound = &self.file.sound;
        let mut lent = Lent { lengths: Vec::new(), frames: Vec::new(), contents: Vec::new() };
        for number in positions.clone() {
            let (frame, content) = self.positions.entry(number).or_insert_with(|| {
                let k = number as u32;
                let frame = if sound.is_dst() { sound.frame(k) } else { Vec::new() };
                (frame, if sound.lent_content_bytes() > 0 { sound.content(k) } else { Vec::new() })
            });
            if sound.is_dst() {
                lent.lengths.push(sound.lengths()[number]);
            }
            lent.frames.extend_from_slice(frame);
            lent.contents.extend_from_slice(content);
        }
        lent
    }

    pub fn call(&self, format: Format<'_>, window: Window, lent: &Lent) -> Called {
        let mut buffer = Buffer::new(window.length as usize);
        let File { header, trailer, .. } = self.file;
        let (number, value) = ours::read(buffer.lent(), format, header, trailer, window.offset, lent.slices());
        Called { number, value, buffer }
    }

    /// Adds a disagreement of this kind of file.
    pub fn differs(&mut self, what: &str, expected: String, ours: String) {
        let what = format!("{what}, {}", self.kind());
        let File { header, sound_bytes, trailer, .. } = self.file;
        let (header, trailer) = (header.len(), trailer.len());
        let expected = format!("header {header} bytes, sound {sound_bytes}, trailer {trailer}; {expected}");
        self.found.push(Disagreement { what, expected, ours });
    }

    pub fn query(&mut self, window: Window, original: &Range<usize>) {
        let format = self.format();
        self.hold_query("query", format, window, original);
        self.counts.query(self.fixed, self.file, original);
    }

    pub fn read(&mut self, window: Window, positions: &Range<usize>, original: &[u8]) {
        let format = self.format();
        let lent = self.lent(positions);
        self.hold_read("read", format, window, &lent, original);
        self.counts.read(self.fixed, &self.map, window, positions, original.len() as u64);
    }

    /// A read that needs a spoilt position: it is to be refused, whatever the original does.
    pub fn spoilt(&mut self, window: Window, positions: &Range<usize>, spoilt: Spoilt, original: &Read) {
        let Spoilt { position, content, bytes } = spoilt;
        let (format, place) = (self.format(), position as usize);
        let (front, back) = (self.lent(&(positions.start..place)), self.lent(&(place + 1..positions.end)));
        let mut lent = self.lent(&(place..place + 1));
        *if content { &mut lent.contents } else { &mut lent.frames } = vec![SPOILT; bytes];
        // Told too, or not.
        if !content && self.random.one_in(2) {
            lent.lengths = vec![bytes as u32];
        }
        let lent = Lent {
            lengths: [front.lengths, lent.lengths, back.lengths].concat(),
            frames: [front.frames, lent.frames, back.frames].concat(),
            contents: [front.contents, lent.contents, back.contents].concat(),
        };
        self.hold_refused("read of a spoilt position", format, window, &lent, WRONGLY_LENT);
        self.counts.spoilt(self.file, original);
    }

    /// A query that should answer these positions.
    pub fn hold_query(&mut self, what: &str, format: Format<'_>, window: Window, wanted: &Range<usize>) {
        let (header, trailer) = (self.file.header_bytes(), self.file.trailer_bytes());
        let answer = ours::query(format, header, trailer, window.offset, window.length);
        self.held_query(what, window, answer, (0, [wanted.start as u64, wanted.end as u64]));
    }

    /// A query's answer, and the one that is wanted: the refusal's number, and two values.
    pub fn held_query(&mut self, what: &str, window: Window, ours: (u64, [u64; 2]), wanted: (u64, [u64; 2])) {
        if ours != wanted {
            self.differs(what, format!("{}; wanted: {wanted:?}", window.told()), format!("ours: {ours:?}"));
        }
    }

    /// A read that should fill these bytes, and leave the rest.
    pub fn hold_read(&mut self, what: &str, format: Format<'_>, window: Window, lent: &Lent, wanted: &[u8]) {
        let called = self.call(format, window, lent);
        let same = (called.number, called.value) == (0, wanted.len() as u64);
        let bytes = &called.buffer.bytes;
        if !same || &bytes[..wanted.len()] != wanted || called.buffer.touched(wanted.len()).is_some() {
            let expected = format!("{}; wanted: {} {}", window.told(), wanted.len(), hex(wanted));
            self.differs(what, expected, called.told());
        }
    }

    /// A read that should be refused with this number, and leave the buffer.
    pub fn hold_refused(&mut self, what: &str, format: Format<'_>, window: Window, lent: &Lent, number: u64) {
        let called = self.call(format, window, lent);
        if (called.number, called.value) != (number, 0) || called.buffer.touched(0).is_some() {
            let expected = format!("{}; wanted: {number} 0, and nothing written", window.told());
            self.differs(what, expected, called.told());
        }
    }
}
