//! What the cases met.

use std::fmt;
use std::ops::Range;

use super::file::{Index, Part};
use super::lent::WAYS;
use super::{Case, Window};
use crate::lines::{sum, Line, Table};

#[derive(Default)]
pub struct Counts {
    // Of drawn and of fixed cases.
    cases: [Line; 2],
    reads: [Line; 2],
    queries: [Line; 2],

    heads: Line,
    /// After the sound, and before it.
    indexes: [Line; 2],
    crcs: Line,
    wrongly_lent: [Line; WAYS.len()],

    // Of all queries and of all reads.
    needed: Line,
    filled: Line,
    past: Line,
    nothing: Line,
    whole: Line,
    several: Line,
    first_byte: [Line; PARTS.len()],
    last_byte: [Line; PARTS.len()],
    most_positions: usize,
    longest_read: u64,
}

const PARTS: [(Part, &str); 6] = [
    (Part::FrameHeader, "DSTF's header"),
    (Part::Frame, "DST bytes"),
    (Part::Pad, "a pad"),
    (Part::CrcHeader, "DSTC's header"),
    (Part::Crc, "a CRC"),
    (Part::Content, "content"),
];

fn add(line: &mut Line, case: &Case, number: u64) {
    line[usize::from(case.file.is_dst()) + usize::from(case.file.crc())] += number;
}

impl Counts {
    pub fn case(&mut self, case: &Case) {
        add(&mut self.cases[usize::from(case.fixed)], case, 1);
    }

    pub fn head(&mut self, case: &Case) {
        add(&mut self.heads, case, 1);
    }

    pub fn index(&mut self, case: &Case, index: &Index) {
        add(&mut self.indexes[usize::from(index.before_sound)], case, 1);
    }

    pub fn crc(&mut self, case: &Case) {
        add(&mut self.crcs, case, 1);
    }

    pub fn query(&mut self, case: &Case, positions: &Range<usize>) {
        add(&mut self.queries[usize::from(case.fixed)], case, 1);
        add(&mut self.needed, case, u64::from(!positions.is_empty()));
    }

    pub(super) fn read(&mut self, case: &Case, window: Window, positions: &Range<usize>) {
        let inside = case.within_sound(window);
        add(&mut self.reads[usize::from(case.fixed)], case, 1);
        add(&mut self.filled, case, inside.length);
        add(&mut self.past, case, u64::from(inside.length < window.length));
        add(&mut self.nothing, case, u64::from(inside.length == 0));
        add(&mut self.whole, case, u64::from(inside.length == case.file.sound_bytes()));
        add(&mut self.several, case, u64::from(positions.len() > 1));
        if inside.length > 0 {
            let last = inside.place + inside.length - 1;
            for (lines, place) in [(&mut self.first_byte, inside.place), (&mut self.last_byte, last)] {
                let part = case.file.part_at(place);
                if let Some(line) = PARTS.iter().position(|&(known, _)| Some(known) == part) {
                    add(&mut lines[line], case, 1);
                }
            }
        }
        self.most_positions = self.most_positions.max(positions.len());
        self.longest_read = self.longest_read.max(inside.length);
    }

    pub fn wrongly_lent(&mut self, case: &Case, way: usize) {
        add(&mut self.wrongly_lent[way], case, 1);
    }
}

impl fmt::Display for Counts {
    fn fmt(&self, f: &mut fmt::Formatter<'_>) -> fmt::Result {
        let mut table = Table::new(f, 34)?;
        table.lines(&[
            ("cases, drawn", &self.cases[0]),
            ("cases, fixed", &self.cases[1]),
            ("DST heads", &self.heads),
            ("DSTI after the sound", &self.indexes[0]),
            ("DSTI before the sound", &self.indexes[1]),
            ("CRCs by themselves", &self.crcs),
            ("queries, drawn", &self.queries[0]),
            ("queries, fixed", &self.queries[1]),
            ("  with positions needed", &self.needed),
            ("reads, drawn", &self.reads[0]),
            ("reads, fixed", &self.reads[1]),
            ("  bytes filled", &self.filled),
            ("  past the sound's end", &self.past),
            ("  of nothing in the sound", &self.nothing),
            ("  of the whole sound", &self.whole),
            ("  of several positions", &self.several),
        ])?;
        for (byte, lines) in [("first", &self.first_byte), ("last", &self.last_byte)] {
            for ((_, part), line) in PARTS.iter().zip(lines) {
                table.line(&format!("  {byte} byte in {part}"), line)?;
            }
        }
        table.line("reads wrongly lent", &sum(&self.wrongly_lent))?;
        for ((name, _), line) in WAYS.iter().zip(&self.wrongly_lent) {
            table.line(&format!("  {name}"), line)?;
        }
        writeln!(f, "most positions of a read: {}; longest read: {} bytes", self.most_positions, self.longest_read)
    }
}
