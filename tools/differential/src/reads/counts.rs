//! What the cases met.

use std::fmt;
use std::ops::Range;

use super::file::{File, Map, Place};
use super::refused::{way_name, Fault, ALL_WAYS, FAULTS};
use super::{Case, Read, Window, Windows};
use crate::lines::{sum, Line, Table};
use crate::sound::file::Part;

#[derive(Default)]
pub struct Counts {
    refused_builds: u64,
    // Of drawn and of fixed cases.
    builds: [Line; 2],
    queries: [Line; 2],
    reads: [Line; 2],
    /// What the drawn files have.
    facts: Vec<(&'static str, Line)>,
    /// Files with all windows, and these windows.
    exhausted: Line,
    exhausting: Line,

    // Of all queries and of all reads.
    needed: Line,
    filled: Line,
    nothing: Line,
    short: Line,
    whole: Line,
    several: Line,
    from: [Line; PLACES.len()],
    to: [Line; PLACES.len()],
    empty: Line,
    joined: Line,
    most_positions: usize,
    longest_read: u64,

    wrongly_lent: [Line; ALL_WAYS],
    // Of queries, and of reads.
    no_file: [[Line; FAULTS.len()]; 2],
    at_limit: [[Line; FAULTS.len()]; 2],

    /// Of reads that need a spoilt position, what the original did.
    spoilt: [Line; SPOILT.len()],

    lists: Line,
    list_reads: Line,
    list_refused: Line,
    list_bytes: Line,
}

const PLACES: [(Place, &str); 9] = [
    (Place::Header, "the header"),
    (Place::Sound(Part::FrameHeader), "DSTF's header"),
    (Place::Sound(Part::Frame), "DST bytes"),
    (Place::Sound(Part::Pad), "a pad"),
    (Place::Sound(Part::CrcHeader), "DSTC's header"),
    (Place::Sound(Part::Crc), "a CRC"),
    (Place::Sound(Part::Content), "content"),
    (Place::Trailer, "the trailer"),
    (Place::PastEnd, "nothing, past the end"),
];

const SPOILT: [&str; 3] = ["fills", "refuses, nothing written", "refuses, part written"];

fn add(line: &mut Line, file: &File, number: u64) {
    line[usize::from(file.sound.is_dst()) + usize::from(file.sound.crc())] += number;
}

/// What can be said of a file.
fn facts(case: &Case, file: &File) -> Vec<(&'static str, bool)> {
    let standing = file.standing();
    let stands = |name: &[u8; 4], before: bool| standing.contains(&(*name, before));
    let callers = &case.build.callers;
    let has = |name: &[u8; 4]| stands(name, true) || stands(name, false);
    vec![
        ("edited master", case.build.edited_master),
        ("DSTI before the sound", stands(b"DSTI", true)),
        ("DSTI behind it", stands(b"DSTI", false)),
        ("no DSTI", !has(b"DSTI")),
        ("DIIN before the sound", stands(b"DIIN", true)),
        ("DIIN behind it", stands(b"DIIN", false)),
        ("COMT before the sound", stands(b"COMT", true)),
        ("COMT behind it", stands(b"COMT", false)),
        ("caller chunks", !callers.is_empty()),
        ("a caller chunk of odd size", callers.iter().any(|caller| caller.data.len() % 2 == 1)),
        ("no trailer", file.trailer.is_empty()),
        ("a frame of odd length", file.sound.lengths().iter().any(|length| length % 2 == 1)),
        ("one position", file.sound.positions() == 1),
        ("more than two channels", file.sound.channels > 2),
        ("range from a place after 0", file.sound.first > 0),
    ]
}

impl Counts {
    pub fn refused_build(&mut self) {
        self.refused_builds += 1;
    }

    pub fn case(&mut self, case: &Case, file: &File) {
        add(&mut self.builds[usize::from(case.fixed.is_some())], file, 1);
        if case.fixed == Some(Windows::All) && case.spoilt.is_none() {
            add(&mut self.exhausted, file, 1);
            add(&mut self.exhausting, file, case.asked.reads.len() as u64);
        }
        if case.fixed.is_none() {
            let facts = facts(case, file);
            if self.facts.is_empty() {
                self.facts = facts.iter().map(|&(name, _)| (name, Line::default())).collect();
            }
            for ((_, line), (_, holds)) in self.facts.iter_mut().zip(facts) {
                add(line, file, u64::from(holds));
            }
        }
    }

    pub fn query(&mut self, fixed: bool, file: &File, positions: &Range<usize>) {
        add(&mut self.queries[usize::from(fixed)], file, 1);
        add(&mut self.needed, file, u64::from(!positions.is_empty()));
    }

    pub fn read(&mut self, fixed: bool, map: &Map, window: Window, positions: &Range<usize>, filled: u64) {
        let file = map.file;
        add(&mut self.reads[usize::from(fixed)], file, 1);
        add(&mut self.filled, file, filled);
        add(&mut self.nothing, file, u64::from(filled == 0));
        add(&mut self.short, file, u64::from(filled < window.length));
        add(&mut self.whole, file, u64::from(filled == file.size()));
        add(&mut self.several, file, u64::from(positions.len() > 1));
        let count = |lines: &mut [Line], place: Place| {
            if let Some(number) = PLACES.iter().position(|&(known, _)| known == place) {
                add(&mut lines[number], file, 1);
            }
        };
        let from = map.place(window.offset);
        count(&mut self.from, from);
        match window.length.checked_sub(1) {
            None => add(&mut self.empty, file, 1),
            Some(less) => {
                let to = map.place(window.offset.saturating_add(less));
                count(&mut self.to, to);
                let joined = from == Place::Header && matches!(to, Place::Trailer | Place::PastEnd);
                add(&mut self.joined, file, u64::from(joined));
            }
        }
        self.most_positions = self.most_positions.max(positions.len());
        self.longest_read = self.longest_read.max(filled);
    }

    pub fn wrongly_lent(&mut self, file: &File, way: usize) {
        add(&mut self.wrongly_lent[way], file, 1);
    }

    pub fn spoilt(&mut self, file: &File, original: &Read) {
        let way = match original {
            Read::Filled(_) => 0,
            Read::Refused { written } => 1 + usize::from(*written),
        };
        add(&mut self.spoilt[way], file, 1);
    }

    /// A query that is to be refused with 42, and a read too if it is one of both.
    pub fn no_file(&mut self, file: &File, fault: Fault, both: bool) {
        for lines in &mut self.no_file[..1 + usize::from(both)] {
            add(&mut lines[fault as usize], file, 1);
        }
    }

    /// The same where it is not to be.
    pub fn at_limit(&mut self, file: &File, fault: Fault, both: bool) {
        for lines in &mut self.at_limit[..1 + usize::from(both)] {
            add(&mut lines[fault as usize], file, 1);
        }
    }

    pub fn list(&mut self, file: &File, reads: u64, refused: u64, bytes: u64) {
        add(&mut self.lists, file, 1);
        add(&mut self.list_reads, file, reads);
        add(&mut self.list_refused, file, refused);
        add(&mut self.list_bytes, file, bytes);
    }
}

impl Counts {
    /// What is said of queries and reads, refused ones too.
    pub fn windows(&self, f: &mut fmt::Formatter<'_>) -> fmt::Result {
        let mut table = Table::new(f, 38)?;
        self.window_lines(&mut table)?;
        self.refused_lines(&mut table)?;
        self.longest(f)
    }

    fn window_lines(&self, table: &mut Table) -> fmt::Result {
        table.lines(&[
            ("queries, drawn", &self.queries[0]),
            ("queries, fixed", &self.queries[1]),
            ("  with positions needed", &self.needed),
            ("reads, drawn", &self.reads[0]),
            ("reads, fixed", &self.reads[1]),
            ("  bytes filled", &self.filled),
            ("  nothing filled", &self.nothing),
            ("  less filled than the buffer", &self.short),
            ("  of the whole file", &self.whole),
            ("  from the header past the sound", &self.joined),
            ("  of several positions", &self.several),
            ("  of an empty buffer", &self.empty),
        ])?;
        for (byte, lines) in [("begin", &self.from), ("end", &self.to)] {
            for ((_, place), line) in PLACES.iter().zip(lines) {
                table.line(&format!("  {byte} in {place}"), line)?;
            }
        }
        table.line("reads refused with 43, lent with", &sum(&self.wrongly_lent))?;
        for (way, line) in self.wrongly_lent.iter().enumerate() {
            table.line(&format!("  {}", way_name(way)), line)?;
        }
        Ok(())
    }

    fn refused_lines(&self, table: &mut Table) -> fmt::Result {
        for (title, of) in [("refused with 42, for", &self.no_file), ("accepted, at a limit of", &self.at_limit)] {
            for (word, lines) in ["queries", "reads"].into_iter().zip(of) {
                let all = sum(lines);
                if all != Line::default() {
                    table.line(&format!("{word} {title}"), &all)?;
                }
                // Only a query can be told the length of a part.
                for (name, line) in FAULTS.iter().zip(lines).filter(|(_, line)| **line != Line::default()) {
                    table.line(&format!("  {name}"), line)?;
                }
            }
        }
        Ok(())
    }

    fn longest(&self, f: &mut fmt::Formatter<'_>) -> fmt::Result {
        writeln!(f, "most positions of a read: {}; longest read: {} bytes", self.most_positions, self.longest_read)
    }
}

impl fmt::Display for Counts {
    fn fmt(&self, f: &mut fmt::Formatter<'_>) -> fmt::Result {
        let mut table = Table::new(f, 38)?;
        table.line("builds, drawn", &self.builds[0])?;
        for (name, line) in &self.facts {
            table.line(&format!("  {name}"), line)?;
        }
        table.lines(&[
            ("builds, fixed", &self.builds[1]),
            ("  of them read exhaustively", &self.exhausted),
            ("  reads (and queries) of these", &self.exhausting),
        ])?;
        self.window_lines(&mut table)?;
        table.line("reads refused with 43, spoilt", &sum(&self.spoilt))?;
        for (name, line) in SPOILT.iter().zip(&self.spoilt) {
            table.line(&format!("  the original {name}"), line)?;
        }
        self.refused_lines(&mut table)?;
        table.lines(&[
            ("lists of reads that cover a file", &self.lists),
            ("  reads in them", &self.list_reads),
            ("  refused reads between", &self.list_refused),
            ("  bytes gathered", &self.list_bytes),
        ])?;
        self.longest(f)?;
        writeln!(f, "builds refused on both sides: {}", self.refused_builds)
    }
}
