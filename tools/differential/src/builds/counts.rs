//! What the cases met.

use std::collections::{BTreeMap, BTreeSet};
use std::fmt;

use library::checks::{Verdict, COMT, DIIN, DSTI, PROP, SOUND};
use library::markers::{FIVE_POINT_ONE, STEREO, THREE_TWO, UNSPECIFIED};

use super::fixed::{local_orders, others};
use super::rooms::{Calls, Held};
use super::{Case, File, Outcome};
use crate::checks;
use crate::checks::fixed::{Fixed, Part};
use crate::chunks::{self, Chunk};
use crate::reads;

#[derive(Default)]
pub struct Counts {
    /// What holds of how many accepted builds, drawn and fixed.
    facts: Vec<(&'static str, [u64; 2])>,
    named: BTreeMap<&'static str, u64>,
    /// For DSD and DST the orders of the chunks in files, and those of drawn ones.
    orders: [BTreeSet<Vec<u8>>; 2],
    drawn_orders: [BTreeSet<Vec<u8>>; 2],
    calls: Calls,
    pub checks: checks::counts::Counts,
    pub reads: reads::counts::Counts,
}

/// A file's chunks, and how many of them are before the sound.
struct Parts<'a> {
    chunks: Vec<Chunk<'a>>,
    before: usize,
}

impl<'a> Parts<'a> {
    fn of(file: &'a File) -> Result<Parts<'a>, String> {
        let mut chunks = chunks::before_sound(&file.header)?;
        let before = chunks.len();
        chunks.extend(chunks::all(&file.trailer)?);
        Ok(Parts { chunks, before })
    }

    /// The chunk of this name, which no caller chunk has, and whether it is before the sound.
    fn find(&self, name: &[u8; 4]) -> Option<(&Chunk<'a>, bool)> {
        let place = self.chunks.iter().position(|chunk| &chunk.name == name)?;
        Some((&self.chunks[place], place < self.before))
    }

    /// The order of the local chunks.
    fn order(&self) -> Vec<u8> {
        let (before, after) = self.chunks.split_at(self.before);
        let name = |chunk: &Chunk| match &chunk.name {
            b"PROP" => Some(PROP),
            b"DSTI" => Some(DSTI),
            b"DIIN" => Some(DIIN),
            b"COMT" => Some(COMT),
            _ => None,
        };
        before.iter().filter_map(name).chain([SOUND]).chain(after.iter().filter_map(name)).collect()
    }
}

/// What can be said of an accepted build.
fn facts(case: &checks::Case, file: &File, parts: &Parts) -> Result<Vec<(&'static str, bool)>, String> {
    let (properties, info) = (&case.of.properties, &case.of.info);
    let dst = properties.dst;
    let layout = properties.layout.min(UNSPECIFIED);
    let channels = |channels: u8| layout == UNSPECIFIED && properties.channels == channels;
    let (index, diin, comt) = (parts.find(b"DSTI"), parts.find(b"DIIN"), parts.find(b"COMT"));
    let stands = |chunk: Option<(&Chunk, bool)>, before: bool| chunk.is_some_and(|(_, at)| at == before);
    let in_info = diin.map_or(Ok(Vec::new()), |(chunk, _)| chunks::all(chunk.data))?;
    let has = |name: &[u8; 4]| in_info.iter().any(|chunk| &chunk.name == name);
    let texts = comt.map_or(Ok(Vec::new()), |(chunk, _)| chunks::comment_texts(chunk.data))?;
    let comments = case.comments.iter().map(|comments| comments.count as usize).sum::<usize>();
    let written = parts.order().len();
    let source = info.source_track > 0 && !case.edited_master;
    let sizes: Vec<usize> = case.callers.iter().map(|caller| caller.data.len()).collect();
    let names = case.local_count as usize;
    Ok(vec![
        ("DSD", !dst),
        ("DST", dst),
        ("edited master", case.edited_master),
        ("stereo", layout == STEREO),
        ("three front, two rear", layout == THREE_TWO),
        ("five and one", layout == FIVE_POINT_ONE),
        ("unspecified, 1 channel", channels(1)),
        ("unspecified, 2 channels", channels(2)),
        ("unspecified, 3 channels", channels(3)),
        ("unspecified, 4 channels", channels(4)),
        ("unspecified, 5 channels", channels(5)),
        ("unspecified, 6 channels", channels(6)),
        ("  with channel numbers", layout == UNSPECIFIED && properties.numbers.given),
        ("start given", properties.start.given),
        ("PROP in another order", properties.order.map(|name| name.min(4)) != [0, 1, 2, 3, 4]),
        ("D1", properties.d1),
        ("D2", case.d2()),
        ("pads counted", info.switches.text_pad_counted),
        ("empty texts written", info.switches.empty_text),
        ("range from a place after 0", info.first > 0),
        ("2 names in the local order", names == 2),
        ("3 names", names == 3),
        ("4 names", names == 4),
        ("5 names", names == 5),
        ("  names of chunks not written", names > written),
        ("CRC", dst && case.dst_crc),
        ("no DSTI though DST", dst && index.is_none()),
        ("DSTI before the sound", stands(index, true)),
        ("DSTI behind it", stands(index, false)),
        ("  DSTI with FrameData", index.is_some() && case.frame_data),
        ("DIIN before the sound", stands(diin, true)),
        ("DIIN behind it", stands(diin, false)),
        ("  DIIN empty", diin.is_some() && in_info.is_empty()),
        ("  DIIN in another order", diin.is_some() && info.order.map(|name| name.min(3)) != [0, 1, 2, 3]),
        ("  EMID", has(b"EMID")),
        ("  MARK, custom", has(b"MARK") && info.custom_markers),
        ("  MARK of a source track", has(b"MARK") && !info.custom_markers && source),
        ("  MARK of a program", has(b"MARK") && !info.custom_markers && !source),
        ("  DIAR", has(b"DIAR")),
        ("  DITI", has(b"DITI")),
        ("no DIIN though info is on", info.on && diin.is_none()),
        ("COMT before the sound", stands(comt, true)),
        ("COMT behind it", stands(comt, false)),
        ("  comments left out of it", comt.is_some() && texts.len() < comments),
        ("no COMT though comments", comt.is_none() && comments > 0),
        ("caller chunks", !sizes.is_empty()),
        ("  one of odd size", sizes.iter().any(|size| size % 2 == 1)),
        ("  one of size 0", sizes.contains(&0)),
        ("no trailer", file.trailer.is_empty()),
        ("more than 4 GiB", file.size() > 1 << 32),
    ])
}

impl Counts {
    pub fn count(&mut self, case: &Case, outcome: &Outcome, held: &Held, original: Verdict) -> Result<(), String> {
        let build = &case.build;
        let fixed = build.fixed.is_some();
        self.checks.count(build, held.ours, original, held.found.is_empty());
        if let Some(Fixed { part: Part::Named(name), .. }) = build.fixed {
            *self.named.entry(name).or_default() += 1;
        }
        let Calls { built, header_short, trailer_short, refused, compared, stayed } = held.calls;
        let calls = &mut self.calls;
        calls.built += built;
        calls.header_short += header_short;
        calls.trailer_short += trailer_short;
        calls.refused += refused;
        calls.compared += compared;
        calls.stayed += stayed;
        let Outcome::Built(file) = outcome else {
            return Ok(());
        };
        let parts = Parts::of(file)?;
        let facts = facts(build, file, &parts)?;
        if self.facts.is_empty() {
            self.facts = facts.iter().map(|&(name, _)| (name, [0; 2])).collect();
        }
        for ((_, counts), (_, holds)) in self.facts.iter_mut().zip(facts) {
            counts[usize::from(fixed)] += u64::from(holds);
        }
        let kind = usize::from(build.of.properties.dst);
        self.orders[kind].insert(parts.order());
        if !fixed {
            self.drawn_orders[kind].insert(parts.order());
        }
        Ok(())
    }
}

impl fmt::Display for Counts {
    fn fmt(&self, f: &mut fmt::Formatter<'_>) -> fmt::Result {
        writeln!(f, "{:38}{:>9}{:>9}", "accepted builds", "drawn", "fixed")?;
        for (name, [drawn, fixed]) in &self.facts {
            writeln!(f, "  {name:36}{drawn:>9}{fixed:>9}")?;
        }
        writeln!(f, "orders of the chunks in the files")?;
        for (name, dst) in [("DSD", false), ("DST", true)] {
            let kind = usize::from(dst);
            let all = others(dst).iter().map(|others| local_orders(others).len()).sum::<usize>();
            let (drawn, met) = (self.drawn_orders[kind].len(), self.orders[kind].len());
            writeln!(f, "  {name}: {drawn} drawn, {met} with the fixed ones, of {all} that there are")?;
        }
        writeln!(f, "fixed cases of builds")?;
        for (name, count) in &self.named {
            writeln!(f, "  {name:45}{count:>9}")?;
        }
        let Calls { built, header_short, trailer_short, refused, compared, stayed } = self.calls;
        writeln!(f, "calls")?;
        for (name, count) in [
            ("built", built),
            ("refused 40, the header's buffer short", header_short),
            ("refused 41, the trailer's", trailer_short),
            ("refused 1 to 39", refused),
            ("bytes of headers and trailers compared", compared),
            ("bytes that had to stay", stayed),
        ] {
            writeln!(f, "  {name:40}{count:>14}")?;
        }
        self.reads.windows(f)?;
        write!(f, "{}", self.checks)
    }
}
