//! Reads and queries that are to be refused, and those at the limits that are not. The original has nothing to compare:
//! they are held against document 01.

use std::mem;
use std::ops::Range;

use library::reads::{self as ours, Format, NO_FILE, WRONGLY_LENT};

use super::asked::Answered;
use super::hold::Held;
use super::Window;
use crate::random::Random;
use crate::sound::file::File as Sound;
use crate::sound::lent::{Lent, WAYS};

/// So many reads of a case are wrongly lent.
const WRONGLY_LENT_READS: usize = 12;

const MOST_POSITIONS: usize = 1_151_999;
const LONGEST_FRAME: u32 = 65_536;
const LONGEST_PART: u64 = 1 << 40;

const NOTHING: Lent = Lent { lengths: Vec::new(), frames: Vec::new(), contents: Vec::new() };

/// A way to lend something else, as the subject sound has them.
type Way = (&'static str, fn(&mut Lent, &Sound) -> bool);

const MORE_WAYS: [Way; 5] = [
    ("no content at all", |lent, _| !mem::take(&mut lent.contents).is_empty()),
    ("content where none is needed", |lent, sound| {
        let needed = lent.lengths.len().max(lent.contents.len() / sound.content_bytes());
        let none = sound.lent_content_bytes() == 0 || needed == 0;
        if none {
            lent.contents = vec![0x55; needed.max(1) * sound.content_bytes()];
        }
        none
    }),
    ("DST bytes without lengths", |lent, _| !mem::take(&mut lent.lengths).is_empty()),
    ("lengths without DST bytes", |lent, _| !mem::take(&mut lent.frames).is_empty()),
    ("nothing", |lent, _| {
        let any = !lent.lengths.is_empty() || !lent.contents.is_empty();
        *lent = NOTHING;
        any
    }),
];

pub const ALL_WAYS: usize = WAYS.len() + MORE_WAYS.len();

pub fn way_name(way: usize) -> &'static str {
    WAYS.get(way).map_or_else(|| MORE_WAYS[way - WAYS.len()].0, |&(name, _)| name)
}

/// Spoils what is lent. Answers which way it was.
pub fn spoil(lent: &mut Lent, sound: &Sound, random: &mut Random) -> usize {
    loop {
        let way = random.place(ALL_WAYS);
        let spoilt = match WAYS.get(way) {
            Some((_, change)) => change(lent, sound, random),
            None => MORE_WAYS[way - WAYS.len()].1(lent, sound),
        };
        if spoilt {
            return way;
        }
    }
}

/// What 42 is about.
#[derive(Clone, Copy)]
pub enum Fault {
    Channels,
    Length,
    Positions,
    Header,
    Trailer,
}

pub const FAULTS: [&str; 5] = ["channels", "a length", "positions", "header's length", "trailer's length"];

/// The reads of a case: windows, positions needed, bytes.
struct Reads<'a> {
    windows: &'a [Window],
    positions: &'a [Range<usize>],
    bytes: &'a [Vec<u8>],
}

struct Read<'a> {
    window: Window,
    positions: &'a Range<usize>,
    bytes: &'a [u8],
}

impl<'a> Reads<'a> {
    fn pick(&self, random: &mut Random) -> Read<'a> {
        let number = random.place(self.windows.len());
        Read { window: self.windows[number], positions: &self.positions[number], bytes: &self.bytes[number] }
    }

    /// One of which something holds, if there are not too few.
    fn pick_where(&self, random: &mut Random, holds: impl Fn(&Read) -> bool) -> Option<Read<'a>> {
        (0..50).map(|_| self.pick(random)).find(holds)
    }
}

impl<'a> Reads<'a> {
    /// `None` if there are no reads.
    fn of(held: &Held<'a>, answered: &'a Answered) -> Option<Reads<'a>> {
        let Answered { positions, filled } = answered;
        (!positions.is_empty()).then_some(Reads { windows: &held.asked.reads, positions, bytes: filled })
    }
}

/// All of it for one case.
pub fn hold(held: &mut Held, answered: &Answered) {
    let Some(reads) = Reads::of(held, answered) else {
        return;
    };
    for _ in 0..WRONGLY_LENT_READS {
        held.wrongly_lent(&reads);
    }
    held.channels(&reads);
    if held.file.sound.is_dst() {
        held.frame_lengths(&reads);
    }
    held.position_counts(&reads);
    held.no_positions();
    held.part_lengths(&reads);
}

/// A little of it: two reads wrongly lent, and one of what is no file.
pub fn hold_few(held: &mut Held, answered: &Answered) {
    let Some(reads) = Reads::of(held, answered) else {
        return;
    };
    for _ in 0..2 {
        held.wrongly_lent(&reads);
    }
    let dst = held.file.sound.is_dst();
    match held.random.one_in(2) {
        true => {
            let any = held.random.between(8, 254) as u8;
            let channels = held.random.pick(&[0, 7, 255, any]);
            held.wrong_channels(&reads, channels);
        }
        false if dst => {
            let any = held.random.between(LONGEST_FRAME + 1, u32::MAX);
            let length = held.random.pick(&[0, LONGEST_FRAME + 1, any]);
            held.wrong_length(&reads, length);
        }
        false => {
            let any = held.random.between(MOST_POSITIONS as u32 + 1, u32::MAX);
            let positions = held.random.pick(&[MOST_POSITIONS as u32 + 1, u32::MAX, any]);
            held.too_many_positions(&reads, positions);
        }
    }
}

impl Held<'_> {
    fn wrongly_lent(&mut self, reads: &Reads) {
        let wants_some = !self.random.one_in(4);
        let read = reads.pick_where(&mut self.random, |read| wants_some != read.positions.is_empty());
        let Read { window, positions, .. } = read.unwrap_or_else(|| reads.pick(&mut self.random));
        let (format, mut lent) = (self.format(), self.lent(positions));
        let way = spoil(&mut lent, &self.file.sound, &mut self.random);
        self.hold_refused(&format!("read lent with {}", way_name(way)), format, window, &lent, WRONGLY_LENT);
        self.counts.wrongly_lent(self.file, way);
    }

    /// Query and read are to be refused with 42, what is lent being right or not.
    fn no_file(&mut self, fault: Fault, format: Format<'_>, read: &Read) {
        let what = FAULTS[fault as usize];
        let (header, trailer) = (self.file.header_bytes(), self.file.trailer_bytes());
        let answer = ours::query(format, header, trailer, read.window.offset, read.window.length);
        self.held_query(&format!("query, 42 for {what}"), read.window, answer, (NO_FILE, [0, 0]));
        let mut lent = self.lent(read.positions);
        if self.random.one_in(2) {
            spoil(&mut lent, &self.file.sound, &mut self.random);
        }
        self.hold_refused(&format!("read, 42 for {what}"), format, read.window, &lent, NO_FILE);
        self.counts.no_file(self.file, fault, true);
    }

    /// Query and read are to answer as before.
    fn at_limit(&mut self, fault: Fault, format: Format<'_>, read: &Read) {
        let what = FAULTS[fault as usize];
        self.hold_query(&format!("query, {what} at a limit"), format, read.window, read.positions);
        let lent = self.lent(read.positions);
        self.hold_read(&format!("read, {what} at a limit"), format, read.window, &lent, read.bytes);
        self.counts.at_limit(self.file, fault, true);
    }

    fn channels(&mut self, reads: &Reads) {
        let any = self.random.between(8, 254) as u8;
        for channels in [0, 7, 255, any] {
            self.wrong_channels(reads, channels);
        }
    }

    fn wrong_channels(&mut self, reads: &Reads, channels: u8) {
        let read = reads.pick(&mut self.random);
        let format = Format { channels, ..self.format() };
        self.no_file(Fault::Channels, format, &read);
    }

    /// Lengths outside their limits, and those at them further back in the sound.
    fn frame_lengths(&mut self, reads: &Reads) {
        let count = self.file.sound.positions();
        let any = self.random.between(LONGEST_FRAME + 1, u32::MAX);
        for length in [0, LONGEST_FRAME + 1, any] {
            self.wrong_length(reads, length);
        }
        let sound_end = self.file.sound_end();
        for length in [1, LONGEST_FRAME] {
            let before = |read: &Read| read.window.end() <= sound_end && read.positions.end < count;
            let Some(read) = reads.pick_where(&mut self.random, before) else { continue };
            let format = self.format();
            let mut lengths = format.lengths.to_vec();
            lengths[read.positions.end + self.random.place(count - read.positions.end)] = length;
            self.at_limit(Fault::Length, Format { lengths: &lengths, ..format }, &read);
        }
    }

    /// A length outside its limits, mostly where it is not needed.
    fn wrong_length(&mut self, reads: &Reads, length: u32) {
        let count = self.file.sound.positions();
        let outside = reads.pick_where(&mut self.random, |read| read.positions.len() < count);
        let read = outside.unwrap_or_else(|| reads.pick(&mut self.random));
        let format = self.format();
        let mut lengths = format.lengths.to_vec();
        // So many places after the last needed one, coming round before the first; seldom among the needed ones.
        let unneeded = (count - read.positions.len()).max(1);
        let further = if self.random.one_in(5) { self.random.place(count) } else { self.random.place(unneeded) };
        lengths[(read.positions.end + further) % count] = length;
        self.no_file(Fault::Length, Format { lengths: &lengths, ..format }, &read);
    }

    /// Of DSD.
    fn too_many_positions(&mut self, reads: &Reads, positions: u32) {
        let read = reads.pick(&mut self.random);
        let format = Format { positions, ..self.format() };
        self.no_file(Fault::Positions, format, &read);
    }

    /// Too many positions, and as many as there can be.
    fn position_counts(&mut self, reads: &Reads) {
        let sound_end = self.file.sound_end();
        let inside = reads.pick_where(&mut self.random, |read| read.window.end() <= sound_end);
        if !self.file.sound.is_dst() {
            for positions in [MOST_POSITIONS as u32 + 1, u32::MAX] {
                self.too_many_positions(reads, positions);
            }
            if let Some(read) = inside {
                let format = Format { positions: MOST_POSITIONS as u32, ..self.format() };
                self.at_limit(Fault::Positions, format, &read);
            }
        } else if self.random.one_in(8) || self.file.sound.positions() == MOST_POSITIONS {
            let format = self.format();
            let mut lengths = format.lengths.to_vec();
            if let Some(read) = inside {
                lengths.resize(MOST_POSITIONS, 1);
                self.at_limit(Fault::Positions, Format { lengths: &lengths, ..format }, &read);
            }
            lengths.resize(MOST_POSITIONS + 1, 1);
            let read = reads.pick(&mut self.random);
            self.no_file(Fault::Positions, Format { lengths: &lengths, ..format }, &read);
        }
    }

    /// A file of header and trailer alone, which nothing refuses.
    fn no_positions(&mut self) {
        let both = [self.file.header.as_slice(), &self.file.trailer].concat();
        let offset = self.random.place(both.len() + 3);
        let window = Window { offset: offset as u64, length: self.random.between(0, 60).into() };
        let rest = both.get(offset..).unwrap_or_default();
        let wanted = &rest[..rest.len().min(window.length as usize)];
        let mut format = self.format();
        match format.dst {
            true => format.lengths = &[],
            false => format.positions = 0,
        }
        self.at_limit(Fault::Positions, format, &Read { window, positions: &(0..0), bytes: wanted });
    }

    /// Lengths of header and trailer, which only a query can be told.
    fn part_lengths(&mut self, reads: &Reads) {
        let (header, trailer) = (self.file.header_bytes(), self.file.trailer_bytes());
        for length in [LONGEST_PART + 1, u64::MAX] {
            for (fault, header, trailer) in [(Fault::Header, length, trailer), (Fault::Trailer, header, length)] {
                let Read { window, .. } = reads.pick(&mut self.random);
                let answer = ours::query(self.format(), header, trailer, window.offset, window.length);
                let what = format!("query, 42 for {}", FAULTS[fault as usize]);
                self.held_query(&what, window, answer, (NO_FILE, [0, 0]));
                self.counts.no_file(self.file, fault, false);
            }
        }
        let Read { window, positions, .. } = reads.pick(&mut self.random);
        let wanted = (0, [positions.start as u64, positions.end as u64]);
        let answer = ours::query(self.format(), header, LONGEST_PART, window.offset, window.length);
        self.held_query("query, trailer's length at its limit", window, answer, wanted);
        self.counts.at_limit(self.file, Fault::Trailer, false);
        // The sound is so much further back then.
        let in_sound = |read: &Read| (header..LONGEST_PART).contains(&read.window.offset);
        if let Some(Read { window, positions, .. }) = reads.pick_where(&mut self.random, in_sound) {
            let window = Window { offset: window.offset - header + LONGEST_PART, ..window };
            let wanted = (0, [positions.start as u64, positions.end as u64]);
            let trailer = self.random.pick(&[trailer, LONGEST_PART]);
            let answer = ours::query(self.format(), LONGEST_PART, trailer, window.offset, window.length);
            self.held_query("query, header's length at its limit", window, answer, wanted);
            self.counts.at_limit(self.file, Fault::Header, false);
        }
    }
}
