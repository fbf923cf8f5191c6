//! Sound: reads of it and the positions that they need, the DST chunk's head, the data of DSTI, and CRCs.

mod counts;
pub mod draw;
pub mod file;
pub mod lent;
mod simplify;

use std::ops::Range;

use library::sound as ours;

use self::counts::Counts;
use self::file::{File, Index, Kind, Part, DST_HEAD};
use self::lent::Lent;
use crate::calls::{hold, hold_read, hold_refused};
use crate::chunks;
use crate::original::{self, Answer};
use crate::random::Random;
use crate::subject::{Disagreement, Fails, Halt, Subject};

pub struct Sound;

/// A file, and what is asked of it. Places count from the sound's first byte.
#[derive(Clone, PartialEq)]
pub struct Case {
    file: File,
    /// Each is read, and asked for the positions that it needs.
    reads: Vec<Window>,
    /// Asked for the positions only.
    queries: Vec<Window>,
    /// The position whose CRC is compared by itself, if there are CRCs.
    crc_of: u32,
    /// Decides how long the lent buffers are, and what is wrongly lent.
    choices: u64,
    /// One of those tried in every run.
    fixed: bool,
}

#[derive(Clone, Copy, PartialEq)]
struct Window {
    place: u64,
    length: u64,
}

impl Case {
    fn window_in_file(&self, window: Window) -> Window {
        Window { place: self.file.header_bytes() + window.place, ..window }
    }

    /// The part of a read that the original is asked for: what follows the sound is not ours.
    fn within_sound(&self, window: Window) -> Window {
        let rest = self.file.sound_bytes().saturating_sub(window.place);
        Window { length: window.length.min(rest), ..window }
    }

    /// The CRC of a position, in its DSTC chunk.
    fn crc_window(&self) -> Option<Window> {
        let stretches = self.file.stretches().zip(self.file.boundaries());
        let crcs = stretches.filter(|((part, _), _)| *part == Part::Crc);
        crcs.map(|((_, length), place)| Window { place, length }).nth(self.crc_of as usize)
    }

    /// The windows of which the original is asked for the positions, and those that it reads, in the file.
    fn asked(&self) -> (Vec<Window>, Vec<Window>) {
        let queries = self.queries.iter().chain(&self.reads).copied();
        let reads = self.reads.iter().map(|&read| self.within_sound(read)).chain(self.crc_window());
        (queries.map(|w| self.window_in_file(w)).collect(), reads.map(|w| self.window_in_file(w)).collect())
    }
}

impl Subject for Sound {
    const NAME: &'static str = "sound";
    type Case = Case;
    type Counts = Counts;

    fn fixed() -> Vec<Case> {
        draw::fixed()
    }

    fn draw(random: &mut Random) -> Case {
        draw::draw(random)
    }

    fn for_original(case: &Case) -> String {
        let (queries, reads) = case.asked();
        let mut lines = case.file.lines();
        for (word, windows) in [("query", queries), ("read", reads)] {
            lines.extend(windows.iter().map(|Window { place, length }| format!("{word} {place} {length}")));
        }
        lines.push(String::new());
        lines.join("\n")
    }

    fn for_us(case: &Case) -> String {
        let file = &case.file;
        let mut lines = vec![match &file.kind {
            Kind::Dsd { positions } => format!("DSD, channels {}, positions {positions}", file.channels),
            Kind::Dst { crc, lengths, .. } => {
                format!("DST, channels {}, crc {crc}, lengths {lengths:?}", file.channels)
            }
        }];
        if let Some(Index { frame_data, .. }) = file.index() {
            lines.push(format!("index frame_data {frame_data}, base {}", file.header_bytes()));
        }
        for (word, windows) in [("query", &case.queries), ("read", &case.reads)] {
            lines.extend(windows.iter().map(|Window { place, length }| format!("{word} from {place}, {length} bytes")));
        }
        lines.join("\n")
    }

    fn compare(case: &Case, answer: &Answer, counts: &mut Counts) -> Result<Vec<Disagreement>, String> {
        let header = answer.header()?;
        known("header", header.len() as u64, case.file.header_bytes())?;
        known("sound", answer.sound()?, case.file.sound_bytes())?;
        let (queries, reads) = case.asked();
        let (queries, reads) = (answered_queries(answer, &queries)?, answered_reads(answer, &reads)?);

        let random = Random::of_case(case.choices, 0);
        let mut held = Held { case, random, counts, found: Vec::new() };
        held.head(&header);
        held.index(&header, &answer.trailer()?)?;
        let (queried, read) = queries.split_at(case.queries.len());
        for (&window, positions) in case.queries.iter().zip(queried) {
            held.query(window, positions);
        }
        for ((&window, positions), bytes) in case.reads.iter().zip(read).zip(&reads) {
            held.query(window, positions);
            held.read(window, positions, bytes);
        }
        if case.file.crc() {
            held.crc(reads.last().ok_or("no CRC was read")?);
        }
        held.wrongly_lent(read);
        held.counts.case(case);
        Ok(held.found)
    }

    fn simplify(case: &mut Case, fails: Fails<'_, Case>) -> Result<(), Halt> {
        simplify::simplify(case, fails)
    }
}

fn known(what: &str, original: u64, expected: u64) -> Result<(), String> {
    if original == expected {
        return Ok(());
    }
    Err(format!("the original's {what} has {original} bytes, and {expected} were expected"))
}

/// The positions of each query, which must be those that were asked.
fn answered_queries(answer: &Answer, asked: &[Window]) -> Result<Vec<Range<usize>>, String> {
    let queries = answer.queries()?;
    let windows = queries.iter().map(|query| Window { place: query.offset, length: query.length });
    if !windows.eq(asked.iter().copied()) {
        return Err("the original answered other queries".into());
    }
    Ok(queries.into_iter().map(|query| query.positions).collect())
}

/// The bytes of each read, which must be those that were asked, and filled.
fn answered_reads(answer: &Answer, asked: &[Window]) -> Result<Vec<Vec<u8>>, String> {
    let reads = answer.reads()?;
    let whole = |read: &original::Read| read.filled.map(|length| Window { place: read.offset, length });
    if !reads.iter().map(whole).eq(asked.iter().copied().map(Some)) {
        return Err("the original answered other reads, or filled less".into());
    }
    Ok(reads.into_iter().map(|read| read.bytes).collect())
}

/// Our functions held against one answer.
struct Held<'a> {
    case: &'a Case,
    random: Random,
    counts: &'a mut Counts,
    found: Vec<Disagreement>,
}

impl Held<'_> {
    fn kind(&self) -> &'static str {
        if self.case.file.is_dst() {
            "DST"
        } else {
            "DSD"
        }
    }

    fn head(&mut self, header: &[u8]) {
        if let Kind::Dst { crc, lengths, .. } = &self.case.file.kind {
            let original = &header[header.len() - DST_HEAD..];
            let ours = |out: &mut [u8]| ours::dst_head(out, *crc, lengths);
            self.found.extend(hold("DST head", original, DST_HEAD, &mut self.random, ours));
            self.counts.head(self.case);
        }
    }

    fn index(&mut self, header: &[u8], trailer: &[u8]) -> Result<(), String> {
        if let Kind::Dst { crc, index: Some(index), lengths } = &self.case.file.kind {
            let chunks = if index.before_sound { chunks::before_sound(header)? } else { chunks::all(trailer)? };
            let original = chunks::only(&chunks, b"DSTI")?.ok_or("the original wrote no DSTI")?.data;
            let base = header.len() as u64;
            let ours = |out: &mut [u8]| ours::dst_index(out, *crc, index.frame_data, base, lengths);
            self.found.extend(hold("DSTI", original, 12 * lengths.len(), &mut self.random, ours));
            self.counts.index(self.case, index);
        }
        Ok(())
    }

    fn query(&mut self, window: Window, original: &Range<usize>) {
        let Window { place, length } = window;
        let file = &self.case.file;
        let ours = match &file.kind {
            Kind::Dsd { positions } => ours::dsd_positions(file.channels, *positions, place, length),
            Kind::Dst { crc, lengths, .. } => ours::dst_positions(*crc, lengths, place, length),
        };
        if ours != *original {
            self.found.push(Disagreement {
                what: format!("positions of {}", self.kind()),
                expected: format!("from {place}, {length} bytes; the original: {original:?}"),
                ours: format!("ours: {ours:?}"),
            });
        }
        self.counts.query(self.case, original);
    }

    fn read(&mut self, window: Window, positions: &Range<usize>, original: &[u8]) {
        let lent = lent::lent(&self.case.file, positions);
        let what = format!("read of {}", self.kind());
        let told = format!("from {}, {} bytes", window.place, window.length);
        let file = &self.case.file;
        let ours = |out: &mut [u8]| fill(file, out, window.place, &lent);
        self.found.extend(hold_read(what, &told, original, window.length as usize, ours));
        self.counts.read(self.case, window, positions);
    }

    fn crc(&mut self, original: &[u8]) {
        let position = self.case.crc_of;
        let ours = ours::crc(&self.case.file.content(position)).to_be_bytes();
        if ours != original {
            self.found.push(Disagreement {
                what: "CRC".into(),
                expected: format!("position {position}; the original: {original:02x?}"),
                ours: format!("ours: {ours:02x?}"),
            });
        }
        self.counts.crc(self.case);
    }

    /// One of the reads, lent something else than it needs. The original has nothing to compare: it is lent a frame at a
    /// time.
    fn wrongly_lent(&mut self, positions: &[Range<usize>]) {
        let file = &self.case.file;
        if positions.is_empty() {
            return;
        }
        let number = self.random.place(positions.len());
        let Window { place, length } = self.case.reads[number];
        let mut lent = lent::lent(file, &positions[number]);
        let way = lent::spoil(&mut lent, file, &mut self.random);
        let name = lent::WAYS[way].0;
        let what = format!("read of {}, lent with {name}", self.kind());
        let told = format!("from {place}, {length} bytes");
        let ours = |out: &mut [u8]| fill(file, out, place, &lent);
        self.found.extend(hold_refused(what, &told, length as usize, ours));
        self.counts.wrongly_lent(self.case, way);
    }
}

fn fill(file: &File, out: &mut [u8], place: u64, lent: &Lent) -> usize {
    match &file.kind {
        Kind::Dsd { positions } => ours::dsd_fill(out, place, file.channels, *positions, &lent.contents),
        Kind::Dst { crc, lengths, .. } => ours::dst_fill(out, place, *crc, file.channels, lengths, lent.slices()),
    }
}
