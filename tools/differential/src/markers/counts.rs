//! What the cases met.

use std::fmt;

use super::{meant, Case, MarkerOf};
use crate::chunks::{self, Chunk};
use crate::text::RULES;
use library::markers::{TRACK_START, UNSPECIFIED};

#[derive(Default)]
pub struct Counts {
    lines: Vec<(String, u64)>,
}

/// Frames from a start to an end.
type Span = (u32, u32);

/// The spans of a case's tracks, whole and clipped to the range, and those clipped ones that are not empty.
struct Spans {
    whole: Vec<Span>,
    clipped: Vec<Span>,
    left: Vec<Span>,
}

impl Spans {
    fn of(case: &Case) -> Spans {
        let tracks = case.tracks.iter();
        let whole: Vec<Span> = tracks.map(|track| (track.start, track.end())).collect();
        let clip = |&(start, end): &Span| (case.info.first.max(start), case.info.end.min(end));
        let clipped: Vec<Span> = whole.iter().map(clip).collect();
        let left = clipped.iter().copied().filter(|(start, end)| start < end).collect();
        Spans { whole, clipped, left }
    }

    /// Whether two neighbours of those left are so.
    fn neighbours(&self, are: impl Fn(u32, u32) -> bool) -> bool {
        self.left.windows(2).any(|pair| are(pair[0].1, pair[1].0))
    }
}

/// Why there are no markers of tracks, as document 01 has it.
fn reason(case: &Case, spans: &Spans) -> Reason {
    let play_range = is_play_range(case);
    if case.tracks.is_empty() {
        Reason::NoTracks
    } else if spans.left.is_empty() {
        Reason::NothingLeft
    } else if spans.neighbours(|end, next| end > next) {
        Reason::OutOfOrder
    } else if play_range {
        Reason::Unclipped
    } else if !case.info.clipped_program {
        Reason::SwitchedOff
    } else {
        Reason::Unknown
    }
}

#[derive(Clone, Copy, PartialEq)]
enum Reason {
    NoTracks,
    NothingLeft,
    OutOfOrder,
    SwitchedOff,
    Unclipped,
    Unknown,
}

fn is_play_range(case: &Case) -> bool {
    case.info.first == 0 && case.info.end == case.info.playtime
}

/// How many bytes the text of a MARK has.
fn text_length(mark: &Chunk<'_>) -> Result<u32, String> {
    let count = mark.data.get(18..22).and_then(|bytes| bytes.try_into().ok());
    count.map(u32::from_be_bytes).ok_or_else(|| "a short MARK".into())
}

impl Counts {
    pub fn count(&mut self, case: &Case, property: Chunk<'_>, info: Option<Chunk<'_>>) -> Result<(), String> {
        let met = met(case, property, info)?;
        if self.lines.is_empty() {
            self.lines = met.iter().map(|(name, _)| (name.clone(), 0)).collect();
        }
        for ((_, sum), (_, number)) in self.lines.iter_mut().zip(met) {
            *sum += number;
        }
        Ok(())
    }
}

/// What one case met, in the order of printing.
fn met(case: &Case, property: Chunk<'_>, info: Option<Chunk<'_>>) -> Result<Vec<(String, u64)>, String> {
    let mut lines = Vec::new();
    let mut add = |name: &str, number: usize| lines.push((name.to_owned(), number as u64));
    let is = usize::from;

    let p = &case.properties;
    let written = chunks::all(property.data.get(4..).ok_or("a short PROP")?)?;
    let unspecified = p.layout >= UNSPECIFIED;
    add("PROP", 1);
    add("  DSD", is(!p.dst));
    add("  DST", is(p.dst));
    for (layout, name) in ["stereo", "3/2", "5.1"].iter().enumerate() {
        add(&format!("  {name}"), is(usize::from(p.layout) == layout));
    }
    add("  unspecified", is(unspecified));
    add("    with given numbers", is(unspecified && p.numbers.given));
    add("  numbers given and not used", is(!unspecified && p.numbers.given));
    add("  with D1", is(p.d1));
    add("  with ABSS", is(chunks::only(&written, b"ABSS")?.is_some()));
    add("    of a start at 0", is(p.start.given && p.start.frame == 0));
    add("  with LSCO", is(chunks::only(&written, b"LSCO")?.is_some()));

    let i = &case.info;
    let parts = info.map_or(Ok(Vec::new()), |info| chunks::all(info.data))?;
    let marks: Vec<&Chunk<'_>> = parts.iter().filter(|chunk| &chunk.name == b"MARK").collect();
    let mut odd = 0;
    for mark in &marks {
        odd += text_length(mark)? as usize % 2;
    }
    let there = info.is_some();
    let emid = chunks::only(&parts, b"EMID")?;
    add("DIIN", is(there));
    add("  of size 0", is(there && parts.is_empty()));
    add("  after the sound", is(there && case.after_sound));
    add("  with EMID", is(emid.is_some()));
    add("    empty", is(emid.is_some_and(|emid| emid.data.is_empty())));
    add("  with DIAR", is(chunks::only(&parts, b"DIAR")?.is_some()));
    add("  with DITI", is(chunks::only(&parts, b"DITI")?.is_some()));
    add("no DIIN, info off", is(!there && !i.on));
    add("no DIIN, empty", is(!there && i.on));

    // All that follows is of a DIIN that is there.
    let spans = Spans::of(case);
    let some = !marks.is_empty();
    let from_tracks = there && !i.custom_markers && i.source_track == 0;
    let with = from_tracks && some;
    add("markers from tracks", is(with));
    add("  of the play range", is(with && is_play_range(case)));
    add("  of a clipped program", is(with && !is_play_range(case)));
    add("  a gap", is(with && spans.neighbours(|end, next| end < next)));
    add("  touching", is(with && spans.neighbours(|end, next| end == next)));
    add("  a span dropped", is(with && spans.left.len() < spans.whole.len()));
    add("  a span clipped", is(with && spans.clipped != spans.whole));
    let saturated = case.tracks.iter().any(|track| track.start.checked_add(track.duration).is_none());
    add("  an end saturated", is(with && saturated));
    add("  program before the first span", is(with && spans.left.first().is_some_and(|left| i.first < left.0)));
    let none = from_tracks && !some;
    let why = reason(case, &spans);
    add("none from tracks", is(none));
    for (reason, name) in [
        (Reason::NoTracks, "no tracks"),
        (Reason::NothingLeft, "nothing left"),
        (Reason::OutOfOrder, "clipped: out of order, overlapping"),
        (Reason::SwitchedOff, "no play range, switch off"),
        (Reason::Unclipped, "play range, unclipped not exact"),
        (Reason::Unknown, "another reason"),
    ] {
        add(&format!("  {name}"), is(none && why == reason));
    }

    let of_source = there && !i.custom_markers && i.source_track > 0;
    let source = usize::from(i.source_track).wrapping_sub(1);
    add("markers from a source track", is(of_source && some));
    add("  clipped", is(of_source && some && spans.clipped.get(source) != spans.whole.get(source)));
    add("none from a source track", is(of_source && !some));

    let titled = there && !i.custom_markers && some && i.titles;
    add("markers with titles", is(titled));
    let lengths = case.tracks.iter().zip(&spans.clipped).filter(|(_, (start, end))| start < end);
    let not_empty = lengths.map(|(track, _)| track.title.length).any(|length| length > 0);
    for rule in RULES {
        add(&format!("  not empty, {rule}"), is(titled && not_empty && meant(i.conversion.rule, &RULES) == rule));
    }
    add("  an odd text", is(titled && odd > 0));
    add("    with the pad counted", is(titled && odd > 0 && i.switches.text_pad_counted));

    let custom = there && i.custom_markers;
    let any = |like: fn(&Case, &MarkerOf) -> bool| is(custom && case.custom.iter().any(|marker| like(case, marker)));
    add("custom markers", is(custom));
    add("  none", is(custom && !some));
    add("  at first", any(|case, marker| marker.frame == case.info.first));
    add("  at the end", any(|case, marker| marker.frame == case.info.end));
    add("  an odd text", any(|_, marker| marker.text.length % 2 == 1));
    add("  flags that are not written", any(|_, marker| marker.kind != TRACK_START && marker.flags != 0));
    add("MARK, from tracks", if custom { 0 } else { marks.len() });
    add("MARK, custom", if custom { marks.len() } else { 0 });
    Ok(lines)
}

impl fmt::Display for Counts {
    fn fmt(&self, f: &mut fmt::Formatter<'_>) -> fmt::Result {
        for (name, number) in &self.lines {
            writeln!(f, "{name:38}{number:>9}")?;
        }
        Ok(())
    }
}
