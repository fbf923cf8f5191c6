//! Checks: the verdict on a build's inputs.

pub mod border;
pub mod counts;
pub mod draw;
mod faults;
pub mod fixed;
pub mod simplify;

use std::borrow::Cow;

use library::checks::{self as ours, Build, Lent, Verdict};
use library::checks::{COMT, OFF, ON, SWITCHES, UNSET};
use library::markers::{Marker, INDEX, OF_TRACK_THEN_ALBUM, PROGRAM_START, UNSPECIFIED};
use library::text::{D2, REMOVE};

use self::counts::Counts;
use self::fixed::Fixed;
use crate::markers::draw::LAYOUTS;
use crate::markers::{self, meant, order, LAST_TOLD};
use crate::original::Answer;
use crate::random::Random;
use crate::subject::{Disagreement, Fails, Halt, Subject};
use crate::text::{runs, utf8};
use crate::{hex, short_hex};

pub struct Checks;

/// The inputs of a build, at fault or not.
#[derive(Clone, PartialEq)]
pub struct Case {
    /// What PROP and DIIN tell, tracks, markers and pools. Where DIIN stands is not read; `buffers` decides what the words of
    /// switches are like, where several mean the same.
    pub of: markers::Case,
    pub edited_master: bool,
    /// The replacement under D2, which is tested though nothing uses it.
    pub idle: Option<u8>,
    pub dst_crc: bool,
    pub dst_index: bool,
    pub frame_data: bool,
    pub local_order: [u8; 5],
    pub local_count: u32,
    pub comments: Vec<Comments>,
    pub callers: Vec<Caller>,
    pub lengths: Lengths,
    /// What only one side is told.
    pub beyond: Vec<Beyond>,
    /// Decides the further calls with other words and markers; 0 for none.
    pub beside: u64,
    /// Of a fixed case, what it is for.
    pub fixed: Option<Fixed>,
}

/// So many comments of a kind, one after the other.
#[derive(Clone, Debug, PartialEq)]
pub struct Comments {
    pub date: [u32; 5],
    pub kind: u32,
    pub reference: u32,
    pub text: Vec<u32>,
    pub count: u32,
}

#[derive(Clone, Debug, PartialEq)]
pub struct Caller {
    pub name: [u8; 4],
    pub data: Vec<u8>,
}

/// The lengths of DST frames: as many as the range has positions and so many more, the usual ones in turn but for one.
#[derive(Clone, Debug, PartialEq)]
pub struct Lengths {
    pub more: i32,
    pub place: u32,
    pub value: u32,
    /// Not empty.
    pub usual: Vec<u32>,
}

pub const USUAL: u32 = 3;

/// What only one side is told, since the other has no words for it.
#[derive(Clone, Copy, Debug, PartialEq)]
pub enum Beyond {
    /// The original is told the source track 0.
    TrackZero,
    /// We are told an extent that ends one element outside its pool.
    Outside(Place),
    /// A row that ends too early.
    CutShort(Place),
    /// A text, or one more caller chunk, of so many elements, which no pool has.
    NoPool(Place, u32),
    /// A text with this value, which is no scalar.
    NoScalar(Place, u32),
    /// Another layout.
    Layout(u8),
    /// So many lengths for DSD.
    DsdLengths(u32),
    /// One more comment, with this number at this place of the date.
    Date(usize, u32),
    /// One more, of this kind.
    Kind(u32),
    /// One more, of this kind with this reference.
    Reference(u32, u32),
}

#[derive(Clone, Copy, Debug, PartialEq)]
pub enum Place {
    Tag(usize),
    Emid,
    Track,
    Marker,
    Comment,
    Caller,
}

impl Place {
    /// The most elements of what is there.
    fn longest(self) -> u32 {
        match self {
            Place::Caller => LONGEST_CALLER_DATA as u32,
            _ => LONGEST_TEXT,
        }
    }
}

const LOCAL_NAMES: [&str; 5] = ["prop", "sound", "dsti", "diin", "comt"];

// Limits that the original does not have.
pub const LONGEST_TEXT: u32 = 1_048_576;
const LONGEST_CALLER_DATA: usize = 16_777_216;
pub const MOST_TRACKS: usize = 65_535;
const MOST_CALLERS: usize = 255;
const MOST_MARKERS: usize = 65_535;
pub const LONGEST_PLAYTIME: u32 = 1_151_999;

/// Of an edited master (17). The original has it too.
pub const MOST_MASTER_TRACKS: usize = 255;

impl Beyond {
    /// Our refusal for it, and the first number of the original that is later.
    fn refusal(self) -> Option<(u32, u32)> {
        match self {
            Beyond::TrackZero => None,
            Beyond::NoPool(place, length) if length > place.longest() => Some((1, 1)),
            Beyond::Outside(_) | Beyond::CutShort(_) | Beyond::NoPool(..) => Some((2, 2)),
            Beyond::NoScalar(..) => Some((3, 3)),
            Beyond::Layout(_) => Some((8, 8)),
            Beyond::DsdLengths(_) => Some((9, 9)),
            // After all other comments.
            Beyond::Date(..) => Some((34, 37)),
            Beyond::Kind(_) | Beyond::Reference(..) => Some((35, 37)),
        }
    }

    fn name(self) -> &'static str {
        match self {
            Beyond::TrackZero => "13: source track 0",
            Beyond::Outside(_) => "2: an extent outside its pool",
            Beyond::CutShort(_) => "2: a row cut short",
            Beyond::NoPool(..) => "1 or 2: a long text or caller chunk that no pool has",
            Beyond::NoScalar(..) => "3: no scalar",
            Beyond::Layout(_) => "8: a layout without its channels",
            Beyond::DsdLengths(_) => "9: lengths for DSD",
            Beyond::Date(..) => "34: a date's number past its field",
            Beyond::Kind(_) => "35: no kind of comment",
            Beyond::Reference(..) => "35: a reference past its field",
        }
    }
}

/// The layout that channels and configuration make.
pub fn layout_of(channels: u8, config: u8) -> u8 {
    let named = LAYOUTS.iter().position(|&layout| layout == (channels, config % 8));
    named.map_or(UNSPECIFIED, |place| place as u8)
}

impl Case {
    pub fn positions(&self) -> u32 {
        self.of.info.end.saturating_sub(self.of.info.first)
    }

    pub fn d2(&self) -> bool {
        self.of.info.conversion.rule >= D2
    }

    fn replacement(&self) -> Option<u8> {
        match self.of.info.conversion.rule {
            REMOVE => None,
            _ if self.d2() => self.idle,
            _ => Some(self.of.info.conversion.replacement),
        }
    }

    /// What the original is told of PROP, DIIN and tracks. The source track of an edited master is not looked at, and a number
    /// that the original cannot hold is another one then.
    fn told_of(&self) -> Cow<'_, markers::Case> {
        if !self.edited_master || self.of.info.source_track <= LAST_TOLD {
            return Cow::Borrowed(&self.of);
        }
        let mut of = self.of.clone();
        of.info.source_track = LAST_TOLD;
        Cow::Owned(of)
    }

    /// The lengths of a DST build.
    fn lengths(&self) -> Vec<u32> {
        let Lengths { more, place, value, ref usual } = self.lengths;
        let count = self.positions().saturating_add_signed(more) as usize;
        let mut lengths: Vec<u32> = usual.iter().copied().cycle().take(count).collect();
        if let Some(last) = count.checked_sub(1) {
            lengths[last.min(place as usize)] = value;
        }
        lengths
    }

    /// How many bytes the byte pool has as it is lent.
    fn raw_bytes(&self) -> usize {
        self.of.raw.len() + self.callers.iter().map(|caller| caller.data.len()).sum::<usize>()
    }

    /// Whether an extent is outside the byte pool.
    fn is_outside(&self, [_, start, length]: [u32; 3]) -> bool {
        u64::from(start) + u64::from(length) > self.raw_bytes() as u64
    }

    /// Refusals of ours that the original does not have, though it is told the same (but for the extent of an EMID that is off).
    fn over(&self) -> Option<(&'static str, u32)> {
        let info = &self.of.info;
        let given = |text: [u32; 3]| text[0] != 0 && text[2] > LONGEST_TEXT;
        let tags = [info.album_artist, info.album_title, info.track_artist, info.track_title];
        let titles = self.of.tracks.iter().any(|track| track.title.length > LONGEST_TEXT);
        let texts = info.custom_markers && self.of.custom.iter().any(|marker| marker.text.length > LONGEST_TEXT);
        let comments = self.comments.iter().any(|comments| comments.text.len() > LONGEST_TEXT as usize);
        if tags.into_iter().any(given) {
            Some(("1: a long tag", 1))
        } else if given(info.emid) {
            Some(("1: a long EMID", 1))
        } else if info.emid[2] > LONGEST_TEXT {
            Some(("1: a long EMID that is off", 1))
        } else if titles {
            Some(("1: a long title", 1))
        } else if texts {
            Some(("1: a marker's long text", 1))
        } else if comments {
            Some(("1: a long comment", 1))
        } else if self.of.tracks.len() > MOST_TRACKS {
            Some(("1: more than 65,535 tracks", 1))
        } else if self.callers.len() > MOST_CALLERS {
            Some(("1: more than 255 caller chunks", 1))
        } else if info.custom_markers && self.of.custom.len() > MOST_MARKERS {
            Some(("1: more than 65,535 markers", 1))
        } else if self.callers.iter().any(|caller| caller.data.len() > LONGEST_CALLER_DATA) {
            Some(("1: a long caller chunk", 1))
        } else if info.emid[0] == 0 && self.is_outside(info.emid) {
            Some(("2: an EMID that is off outside its pool", 2))
        } else if info.playtime > LONGEST_PLAYTIME {
            Some(("6: a long playtime", 6))
        } else {
            None
        }
    }

    /// Of a fixed case, whether the answers are not those that it was made for.
    pub fn made_for(&self, ours: Verdict, original: Verdict) -> Option<Disagreement> {
        let fixed = self.fixed?;
        let same = [ours.number, original.number] == [fixed.ours, fixed.original];
        (!same).then(|| Disagreement {
            what: format!("{}: not as it was made for", fixed.told()),
            expected: format!("made for: ours {}, the original {}", fixed.ours, fixed.original),
            ours: format!("ours {}, the original {}", ours.number, original.number),
        })
    }

    /// The single values, with numbers that name something: those above the last name are as the last here.
    fn build(&self) -> Build {
        let (mut properties, mut info) = (self.of.properties, self.of.info);
        properties.layout = properties.layout.min(UNSPECIFIED);
        properties.order = properties.order.map(|name| name.min(4));
        info.order = info.order.map(|name| name.min(3));
        info.artist_title_source = info.artist_title_source.min(OF_TRACK_THEN_ALBUM);
        for beyond in &self.beyond {
            if let Beyond::Layout(layout) = *beyond {
                properties.layout = layout;
            }
        }
        let artist_title = match (self.of.info.artist_title, self.of.unset) {
            (true, _) => ON,
            (false, true) => UNSET,
            (false, false) => OFF,
        };
        Build {
            properties,
            info,
            edited_master: self.edited_master,
            dst_crc: self.dst_crc,
            dst_index: self.dst_index,
            frame_data: self.frame_data,
            artist_title,
            replacement: self.replacement(),
            d2: self.d2(),
            local_order: self.local_names(),
            local_count: self.local_count,
        }
    }

    /// The local order. Past the count a name is any, as it is not looked at.
    fn local_names(&self) -> [u8; 5] {
        let mut names = self.local_order.map(|name| name % (COMT + 1));
        let count = (self.local_count as usize).min(names.len());
        for (name, &meant) in names[..count].iter_mut().zip(&self.local_order) {
            *name = meant.min(COMT);
        }
        names
    }

    /// The markers. A kind without a name is an index here; where it is not looked at, it stays.
    fn marker_rows(&self) -> Vec<Marker> {
        let mut rows = self.of.marker_rows();
        if self.of.info.custom_markers && self.of.info.on {
            for row in rows.iter_mut().filter(|row| row[1] >> 16 > PROGRAM_START) {
                row[1] = INDEX << 16 | row[1] & 0xFFFF;
            }
        }
        rows
    }

    /// What the library is given.
    pub fn inputs(&self) -> Inputs {
        let of = &self.of;
        let mut inputs = Inputs {
            words: self.build().words().to_vec(),
            pool: of.pool.clone(),
            raw: of.raw.clone(),
            tracks: of.track_rows().concat(),
            markers: self.marker_rows().concat(),
            comments: Vec::new(),
            callers: Vec::new(),
            lengths: Vec::new(),
        };
        for comments in &self.comments {
            inputs.comment(comments);
        }
        for Caller { name, data } in &self.callers {
            inputs.callers.extend([u32::from_be_bytes(*name), inputs.raw.len() as u32, data.len() as u32]);
            inputs.raw.extend(data);
        }
        if of.properties.dst {
            inputs.lengths = self.lengths();
        }
        for beyond in &self.beyond {
            inputs.add(*beyond);
        }
        if of.buffers != 0 {
            inputs.disguise(&mut Random::of_case(of.buffers, 0));
        }
        inputs
    }
}

/// A comment's text of so many values may be that of another place too.
const LEAST_SHARED: usize = 65_536;

/// What the library is given, rows one after the other.
#[derive(Clone)]
pub struct Inputs {
    pub words: Vec<u32>,
    pub pool: Vec<u32>,
    pub raw: Vec<u8>,
    pub tracks: Vec<u32>,
    pub markers: Vec<u32>,
    pub comments: Vec<u32>,
    pub callers: Vec<u32>,
    pub lengths: Vec<u32>,
}

impl Inputs {
    fn comment(&mut self, comments: &Comments) {
        let Comments { date: [year, month, day, hour, minutes], kind, reference, ref text, count } = *comments;
        // A long text that the pool ends with is taken from there.
        if text.len() < LEAST_SHARED || !self.pool.ends_with(text) {
            self.pool.extend(text);
        }
        let (start, length) = ((self.pool.len() - text.len()) as u32, text.len() as u32);
        let row: ours::Comment = [year, month, day, hour, minutes, kind, reference, start, length];
        self.comments.extend(row.repeat(count as usize));
    }

    fn add(&mut self, beyond: Beyond) {
        let mut comment = Comments { date: [0; 5], kind: 0, reference: 0, text: Vec::new(), count: 1 };
        match beyond {
            Beyond::TrackZero | Beyond::Layout(_) => {}
            Beyond::Outside(place) => self.row(place, 1),
            Beyond::NoPool(place, length) => self.row(place, length),
            Beyond::CutShort(place) => {
                self.row(place, 0);
                let rows = match place {
                    Place::Track => &mut self.tracks,
                    Place::Marker => &mut self.markers,
                    Place::Comment => &mut self.comments,
                    _ => &mut self.callers,
                };
                rows.pop();
            }
            Beyond::NoScalar(place, value) => {
                self.row(place, 1);
                self.pool.push(value);
            }
            Beyond::DsdLengths(count) => self.lengths = vec![USUAL; count as usize],
            Beyond::Date(place, number) => {
                comment.date[place] = number;
                self.comment(&comment);
            }
            Beyond::Kind(kind) => {
                comment.kind = kind;
                self.comment(&comment);
            }
            Beyond::Reference(kind, reference) => {
                (comment.kind, comment.reference) = (kind, reference);
                self.comment(&comment);
            }
        }
    }

    /// A text, or one more row with a text, of so many elements at the end of its pool.
    fn row(&mut self, place: Place, length: u32) {
        let (pool, raw) = (self.pool.len() as u32, self.raw.len() as u32);
        match place {
            Place::Tag(number) => self.words[34 + 3 * number..][..3].copy_from_slice(&[1, pool, length]),
            Place::Emid => self.words[24..27].copy_from_slice(&[1, raw, length]),
            Place::Track => self.tracks.extend([0, 0, pool, length]),
            Place::Marker => {
                self.words[27] = 1;
                self.markers.extend([0, 0, raw, length]);
            }
            Place::Comment => self.comments.extend([0, 0, 0, 0, 0, 0, 0, pool, length]),
            Place::Caller => self.callers.extend([u32::from_be_bytes(*b"AAAA"), raw, length]),
        }
    }

    /// Other words that mean the same: a switch that is on.
    fn disguise(&mut self, random: &mut Random) {
        for place in SWITCHES {
            if self.words[place] != 0 && random.one_in(4) {
                self.words[place] = random.pick(&[2, 256, 0x8000_0000, u32::MAX]);
            }
        }
    }

    pub fn lent(&self) -> Lent<'_> {
        Lent {
            pool: &self.pool,
            raw: &self.raw,
            tracks: &self.tracks,
            markers: &self.markers,
            comments: &self.comments,
            callers: &self.callers,
            lengths: &self.lengths,
        }
    }
}

/// What our verdict should be.
#[derive(Clone, Copy, PartialEq)]
pub enum Wanted {
    Only(Verdict),
    /// Accepted, or a refusal after this number.
    After(u32),
}

impl Wanted {
    fn is(self, ours: Verdict) -> bool {
        match self {
            Wanted::Only(verdict) => ours == verdict,
            Wanted::After(number) => ours == Verdict::default() || ours.number > number,
        }
    }

    fn told(self) -> String {
        match self {
            Wanted::Only(verdict) => told(verdict),
            Wanted::After(number) => format!("accepted, or a refusal after {number}"),
        }
    }
}

pub fn told(Verdict { number, detail }: Verdict) -> String {
    match number {
        0 if detail == 0 => "accepted".into(),
        _ => format!("refused {number} {detail}"),
    }
}

/// Our verdict, from the original's and from what the case has that the original does not look at.
pub fn wanted(case: &Case, original: Verdict) -> Wanted {
    let over = case.over().map(|(_, number)| (number, number));
    let first = case.beyond.iter().filter_map(|beyond| beyond.refusal()).chain(over).min();
    match first {
        Some((_, later)) if original.number != 0 && original.number < later => Wanted::Only(original),
        Some((number, _)) => Wanted::Only(Verdict { number, detail: 0 }),
        None if original.number == 13 && case.beyond.contains(&Beyond::TrackZero) => Wanted::After(13),
        None => Wanted::Only(original),
    }
}

impl Subject for Checks {
    const NAME: &'static str = "checks";
    type Case = Case;
    type Counts = Counts;

    fn fixed() -> Vec<Case> {
        fixed::fixed()
    }

    fn draw(random: &mut Random) -> Case {
        draw::draw(random, true)
    }

    fn for_original(case: &Case) -> String {
        let bit = u8::from;
        let mut lines = case.told_of().lines();
        // What stands further down holds.
        lines.extend([
            format!("edited_master {}", bit(case.edited_master)),
            format!("dst_crc {}", bit(case.dst_crc)),
            format!("dst_index {}", bit(case.dst_index)),
            format!("dst_index_offset {}", if case.frame_data { "data" } else { "header" }),
        ]);
        let count = case.local_count as usize;
        let names = order(&case.local_order[..count.min(5)], &LOCAL_NAMES);
        let more = format!(",{}", meant(case.local_order[0], &LOCAL_NAMES)).repeat(count.saturating_sub(5));
        lines.push(format!("local_order {}{more}", if count == 0 { "-" } else { &names }));
        match case.replacement() {
            Some(byte) => lines.push(format!("replacement {byte}")),
            None => lines.push("replacement none".into()),
        }
        if case.of.info.emid[0] == 0 {
            // Not written, so not looked at.
            lines.push("emid 1f".into());
        }
        if case.beyond.contains(&Beyond::TrackZero) {
            lines.push("source_track 0".into());
        }
        for Comments { date: [year, month, day, hour, minutes], kind, reference, text, count } in &case.comments {
            // A general comment has no reference there.
            let reference = if *kind == 0 { 0 } else { *reference };
            let text = utf8(text);
            lines.push(format!("comment {year} {month} {day} {hour} {minutes} {kind} {reference} {text} {count}"));
        }
        for Caller { name, data } in &case.callers {
            lines.push(format!("caller {} {}", hex(name), short_hex(data)));
        }
        let lengths = if case.of.properties.dst { case.lengths() } else { Vec::new() };
        if !lengths.is_empty() {
            let lengths = runs(lengths.into_iter()).map(|(length, count)| format!("{length}x{count}"));
            lines.push(format!("lengths {}", lengths.collect::<Vec<_>>().join(",")));
        }
        lines.push(String::new());
        lines.join("\n")
    }

    fn for_us(case: &Case) -> String {
        let inputs = case.inputs();
        let mut lines = vec![format!("words {:?}", inputs.words), case.of.told()];
        lines.push(format!("edited master {}, local order {:?}", case.edited_master, case.local_order));
        lines.extend(case.comments.iter().map(|comments| format!("{comments:?}")));
        lines.extend(
            case.callers.iter().map(|caller| format!("caller {} {}", hex(&caller.name), short_hex(&caller.data))),
        );
        if case.of.properties.dst {
            let lengths = runs(case.lengths().into_iter()).map(|(length, count)| format!("{count} of {length}"));
            lines.push(format!("lengths: {}", lengths.collect::<Vec<_>>().join(", ")));
        }
        lines.extend(case.beyond.iter().map(|beyond| format!("told to one side only: {beyond:?}")));
        lines.join("\n")
    }

    fn compare(case: &Case, answer: &Answer, counts: &mut Counts) -> Result<Vec<Disagreement>, String> {
        let [number, detail] = answer.refusal()?;
        let original = Verdict { number, detail };
        let inputs = case.inputs();
        let ours = ours::verdict(&inputs.words, inputs.lent());
        let wanted = wanted(case, original);
        let mut found = Vec::new();
        if !wanted.is(ours) {
            found.push(Disagreement {
                what: format!("{} wanted, {} answered", wanted.told(), told(ours)),
                expected: format!("the original: {}; wanted: {}", told(original), wanted.told()),
                ours: format!("ours: {}", told(ours)),
            });
        }
        found.extend(case.made_for(ours, original));
        counts.count(case, ours, original, found.is_empty());
        let known = match wanted {
            Wanted::Only(verdict) => Some(verdict),
            Wanted::After(_) => None,
        };
        for beside in border::calls(case, &inputs, known) {
            counts.beside.count(&beside, case.fixed.is_some());
            // One tells enough.
            if let Some(differs) = beside.hold(&inputs) {
                found.push(differs);
                break;
            }
        }
        Ok(found)
    }

    fn simplify(case: &mut Case, fails: Fails<'_, Case>) -> Result<(), Halt> {
        simplify::simplify(case, fails)
    }
}
