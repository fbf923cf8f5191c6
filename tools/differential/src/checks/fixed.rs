//! Fixed cases: every pair of refusals, every refusal at once, and the limits that the original does not have.

use library::checks::{COMT, DIIN, DSTI, PROP, SOUND};
use library::markers::{ChannelNumbers, Info, Properties, Start, INDEX, OF_TRACK_THEN_ALBUM, STEREO, UNSPECIFIED};
use library::text::{Conversion, Extent, Switches, D2, REPLACE};

use super::{Beyond, Caller, Case, Comments, Lengths, Place, LONGEST_CALLER_DATA, LONGEST_TEXT, USUAL};
use super::{MOST_CALLERS, MOST_MARKERS, MOST_MASTER_TRACKS, MOST_TRACKS};
use crate::markers::{self, MarkerOf, TrackOf};

/// The last refusal of a build's inputs.
pub const LAST: u32 = 39;

/// What a fixed case is for.
#[derive(Clone, Copy, PartialEq)]
pub struct Fixed {
    pub part: Part,
    /// The numbers that are to be answered, 0 if accepted.
    pub ours: u32,
    pub original: u32,
}

#[derive(Clone, Copy, PartialEq)]
pub enum Part {
    /// Both refusals of a pair.
    Pair(u32, u32),
    /// The second one of the pair, the first put right.
    Left(u32, u32),
    /// The fault of the second in an earlier element than that of the first.
    Turned(u32, u32),
    /// Both in one element.
    Same(u32, u32),
    /// As many as go together, from this on.
    AtOnce(u32),
    /// A limit of 1.
    Limit,
    /// An accepted case, plain or with all options on, that the fixed calls at the border are made with.
    Border { full: bool },
    /// What this says.
    Named(&'static str),
}

impl Fixed {
    pub fn told(self) -> String {
        match self.part {
            Part::Pair(a, b) => format!("{a} and {b}"),
            Part::Left(a, b) => format!("{a} and {b}, {a} put right"),
            Part::Turned(a, b) => format!("{a} and {b}, {b} in an earlier element"),
            Part::Same(a, b) => format!("{a} and {b} in one element"),
            Part::AtOnce(first) => format!("all at once from {first} on"),
            Part::Limit => "a limit".into(),
            Part::Border { .. } => "the border of the words".into(),
            Part::Named(name) => name.into(),
        }
    }
}

/// Whether the original has the refusal.
pub fn shown(number: u32) -> bool {
    !matches!(number, 1 | 2 | 3 | 6 | 8)
}

/// Why two refusals, the lower first, cannot be met together so that the lower is the answer.
pub fn apart(a: u32, b: u32) -> Option<&'static str> {
    match (a, b) {
        (8, 16 | 25..=27) => Some("8 is of a defined layout, 16 and 25 to 27 are of an unspecified one"),
        (10, 12) => Some("an empty range has no lengths"),
        (13, 14) => Some("14 is of a track that exists"),
        (13 | 14, 15..=23) => Some("13 and 14 are not for an edited master, 15 to 23 for nothing else"),
        (17..=23, 25..=27) => Some("25 to 27 are of an unspecified layout, for which 16 refuses an edited master"),
        (22 | 23, 32 | 33) => Some("32 and 33 are of custom markers, for which 21 refuses an edited master"),
        (23, 31) => Some("31 is of an EMID, which 23 misses"),
        _ => None,
    }
}

/// Pairs that are decided element by element.
const BY_ELEMENT: [(u32, u32); 6] = [(4, 5), (26, 27), (32, 33), (34, 35), (34, 36), (35, 36)];

/// What else decides what a case can be at fault in.
#[derive(Clone, Copy)]
pub struct Context {
    pub dst: bool,
    pub edited_master: bool,
}

const CONTEXTS: [Context; 4] = [
    Context { dst: false, edited_master: false },
    Context { dst: true, edited_master: false },
    Context { dst: false, edited_master: true },
    Context { dst: true, edited_master: true },
];

/// How faults of a pair that is decided by element lie; and whether 17 is of no tracks or of too many.
#[derive(Clone, Copy, PartialEq)]
enum Form {
    InOrder,
    Turned,
    Same,
    Many,
}

/// Stereo, one position, and the original's defaults; an edited master has one track.
pub fn plain(Context { dst, edited_master }: Context) -> Case {
    let start = Start { given: false, frame: 0 };
    let numbers = ChannelNumbers { given: false, count: 0, numbers: [0; 6] };
    let properties = Properties {
        order: [0, 1, 2, 3, 4],
        dst,
        layout: STEREO,
        channels: 2,
        numbers,
        start,
        loudspeaker_configuration: true,
        unspecified_loudspeaker_configuration: false,
        d1: false,
    };
    let info = Info {
        order: [0, 1, 2, 3],
        on: false,
        empty_info: true,
        emid: [1, 0, 0],
        custom_markers: false,
        first: 0,
        end: 1,
        playtime: 1,
        source_track: 0,
        source_track_markers: false,
        clipped_program: false,
        titles: false,
        start,
        conversion: Conversion { rule: REPLACE, replacement: 0x3F },
        switches: Switches { empty_text: false, text_pad_counted: false },
        artist_title: false,
        artist_title_source: 0,
        album_artist: [0; 3],
        album_title: [0; 3],
        track_artist: [0; 3],
        track_title: [0; 3],
    };
    let of = markers::Case {
        properties,
        info,
        tracks: Vec::new(),
        custom: Vec::new(),
        pool: Vec::new(),
        raw: vec![0x1F],
        config: 0,
        unset: true,
        after_sound: false,
        buffers: 0,
    };
    let mut case = Case {
        of,
        edited_master,
        idle: None,
        dst_crc: false,
        dst_index: true,
        frame_data: false,
        local_order: [PROP, COMT, DIIN, SOUND, DSTI],
        local_count: 5,
        comments: Vec::new(),
        callers: Vec::new(),
        lengths: Lengths { more: 0, place: 0, value: USUAL, usual: vec![USUAL] },
        beyond: Vec::new(),
        beside: 0,
        fixed: None,
    };
    if edited_master {
        case.of.tracks.push(track(0, 75));
    }
    case
}

pub fn track(start: u32, duration: u32) -> TrackOf {
    TrackOf { start, duration, title: Extent::default(), untitled: false }
}

pub fn comments(month: u32, [kind, reference]: [u32; 2], count: u32) -> Comments {
    Comments { date: [0, month, 0, 0, 0], kind, reference, text: vec![0x41], count }
}

/// The one byte of the byte pool, which no text has, and none.
const BAD: Extent = Extent { start: 0, length: 1 };
pub const NONE: Extent = Extent { start: 0, length: 0 };

pub fn marker(frame: u32, text: Extent) -> MarkerOf {
    MarkerOf { frame, kind: INDEX, flags: 0, text }
}

pub fn caller(name: &[u8; 4]) -> Caller {
    Caller { name: *name, data: Vec::new() }
}

/// A case with these faults. Where they exclude one another, a lower one hides a higher one.
fn faulty(context: Context, faults: &[u32], form: Form) -> Case {
    let has = |number: u32| faults.contains(&number);
    let any = |numbers: &[u32]| numbers.iter().any(|&number| has(number));
    let mut case = plain(context);
    let mut callers = Vec::new();

    if has(1) {
        case.beyond.push(Beyond::NoPool(Place::Tag(1), LONGEST_TEXT + 1));
    }
    // In this order: what follows in the pool would be inside it.
    if has(3) {
        case.beyond.push(Beyond::NoScalar(Place::Comment, 0xD800));
    }
    if has(2) {
        case.beyond.push(Beyond::Outside(Place::Tag(0)));
    }
    if has(4) {
        callers.push(caller(b"\x1FAAA"));
    }
    if has(5) {
        callers.push(caller(b"FVER"));
    }
    if form == Form::Turned {
        callers.reverse();
    }
    case.callers = callers;

    let of = &mut case.of;
    let (properties, info) = (&mut of.properties, &mut of.info);
    if any(&[16, 25, 26, 27]) {
        (properties.layout, properties.channels) = (UNSPECIFIED, 3);
    }
    if has(7) {
        (properties.layout, properties.channels) = (UNSPECIFIED, 7);
    }
    if has(8) {
        case.beyond.push(Beyond::Layout(if properties.channels == 2 { 2 } else { STEREO }));
    }
    if has(9) && context.dst {
        case.lengths.more = 1;
    } else if has(9) {
        case.beyond.push(Beyond::DsdLengths(1));
    }
    if has(10) {
        case.lengths.value = 0;
    }
    // An edited master is the play range, unless it is refused for that.
    info.playtime = if has(6) { 1_152_000 } else { 1 };
    let whole = if context.edited_master { info.playtime } else { 1 };
    let empty = has(12) && !has(10);
    (info.first, info.end) = match (has(11), empty) {
        (true, true) => (info.playtime + 1, info.playtime + 1),
        (true, false) => (info.playtime - 1, info.playtime + 1),
        (false, true) => (0, 0),
        (false, false) => (0, whole),
    };
    if has(15) && !has(11) && !empty {
        (info.playtime, info.end) = (info.playtime.max(2), 1);
    }
    if has(13) {
        info.source_track = 9;
    } else if has(14) {
        info.source_track = 1;
    }
    if has(14) {
        of.tracks = vec![track(5_000_000, 1)];
    }
    if any(&[18, 19, 20]) {
        // The last is short, or out of order, or ends late.
        let late = if has(20) { 1_152_000 } else { 75 };
        of.tracks = match (has(18), has(19)) {
            (true, true) => vec![track(75, 75), track(0, late), track(0, 74)],
            (true, false) => vec![track(0, 74), track(75, late)],
            (false, true) => vec![track(75, 75), track(0, late)],
            (false, false) => vec![track(0, late)],
        };
        if has(18) && has(19) && has(20) {
            of.tracks.push(track(0, late));
        }
    }
    if has(17) && form == Form::Many {
        // Before the faulty ones as many as an edited master can have.
        let step = if has(19) { 0 } else { 75 };
        let count = MOST_MASTER_TRACKS as u32;
        let before = (0..count).map(|number| track(step * number, 75));
        let behind = of.tracks.iter().map(|faulty| track(faulty.start + 75 * count, faulty.duration));
        of.tracks = before.chain(behind).collect();
    } else if has(17) {
        of.tracks.clear();
    }
    if any(&[21, 32, 33]) {
        info.custom_markers = true;
    }
    properties.loudspeaker_configuration = !has(22);
    if has(23) {
        info.emid[0] = 0;
    } else if has(31) {
        info.emid = [1, BAD.start, BAD.length];
    }
    if has(24) {
        info.conversion.replacement = 0x1F;
    }
    if any(&[25, 26, 27]) {
        let [a, b, c] = match (form, has(26), has(27)) {
            (Form::Turned, ..) => [5, 5, 1000],
            (_, true, true) => [1000, 5, 5],
            (_, true, false) => [1000, 1, 2],
            (_, false, true) => [5, 5, 1],
            (_, false, false) => [1, 2, 3],
        };
        let count = if has(25) { 2 } else { 3 };
        properties.numbers = ChannelNumbers { given: true, count, numbers: [a, b, c, 0, 0, 0] };
    }
    if has(28) {
        properties.order = [0, 0, 1, 2, 4];
    }
    if has(29) {
        properties.start = Start { given: true, frame: 6_480_000 };
        info.start = properties.start;
    }
    if any(&[30, 31, 32, 33]) {
        info.on = true;
    }
    if has(30) {
        info.order = [0, 0, 2, 3];
    }
    let outside = info.playtime + 9;
    of.custom = match (has(32), has(33), form) {
        (true, true, Form::Same) => vec![marker(outside, BAD)],
        (true, true, Form::Turned) => vec![marker(info.end, BAD), marker(outside, NONE)],
        (true, true, _) => vec![marker(outside, NONE), marker(info.end, BAD)],
        (true, false, _) => vec![marker(info.end, NONE), marker(outside, NONE)],
        (false, true, _) => vec![marker(info.end, NONE), marker(info.end, BAD)],
        (false, false, _) => Vec::new(),
    };

    // A kind and its reference.
    let (good, bad) = ([0, 0], [2, 3]);
    let month = if has(34) { 13 } else { 0 };
    let reference = if has(35) { bad } else { good };
    let mut elements = Vec::new();
    if form == Form::Same && has(36) {
        elements = vec![comments(0, good, 65_535), comments(month, reference, 1)];
    } else if form == Form::Same && any(&[34, 35]) {
        elements = vec![comments(month, reference, 1)];
    } else {
        if has(34) {
            elements.push(comments(13, good, 1));
        }
        if has(35) {
            elements.push(comments(0, bad, 1));
        }
        if has(36) {
            elements.push(comments(0, good, 65_536));
        }
        if form == Form::Turned {
            elements.reverse();
        }
    }
    case.comments = elements;

    (case.local_order, case.local_count) = match (has(37), has(38), has(39)) {
        (false, false, false) => (case.local_order, 5),
        (true, false, false) => ([PROP, COMT, DIIN, SOUND, SOUND], 5),
        (true, true, false) => ([PROP, PROP, 0, 0, 0], 2),
        (true, true, true) => ([SOUND, PROP, SOUND, 0, 0], 3),
        (true, false, true) => ([SOUND, PROP, COMT, DIIN, SOUND], 5),
        (false, true, false) => ([PROP, COMT, DIIN, DSTI, 0], 4),
        (false, true, true) => ([SOUND, PROP, 0, 0, 0], 2),
        (false, false, true) => ([SOUND, PROP, COMT, DIIN, DSTI], 5),
    };
    if has(38) && has(39) {
        // So that there is something that the order lacks.
        case.of.info.on = true;
    }
    case
}

/// The first of these refusals that the original shows.
fn of_original(context: Context, faults: &[u32]) -> u32 {
    let seen = |&&number: &&u32| shown(number) && (number != 9 || context.dst);
    faults.iter().find(seen).copied().unwrap_or(0)
}

/// The case with faults in rising order.
fn made(context: Context, faults: &[u32], form: Form, part: Part) -> Case {
    let mut case = faulty(context, faults, form);
    case.fixed =
        Some(Fixed { part, ours: faults.first().copied().unwrap_or(0), original: of_original(context, faults) });
    case
}

/// Whether the pair can be met in the context.
fn goes(Context { dst, edited_master }: Context, a: u32, b: u32) -> bool {
    let has = |number: u32| a == number || b == number;
    let either = |least: u32, most: u32| (least..=most).any(has);
    // Only custom markers and unspecified layouts can be at fault in these.
    let elsewhere = either(25, 27) && !matches!(a, 15 | 16) || either(32, 33) && !(15..=21).contains(&a);
    let master = either(15, 23);
    apart(a, b).is_none()
        && (dst || !has(10))
        && (!edited_master || !either(13, 14) && !elsewhere)
        && (edited_master || !master)
        // A file of very many frames.
        && !(has(6) && dst && edited_master)
}

fn pairs(cases: &mut Vec<Case>) {
    for a in 1..LAST {
        for b in a + 1..=LAST {
            for context in CONTEXTS.into_iter().filter(|&context| goes(context, a, b)) {
                // Tracks that are not there have no fault.
                let many = a == 17 && matches!(b, 18..=20);
                if !many {
                    cases.push(made(context, &[a, b], Form::InOrder, Part::Pair(a, b)));
                }
                if a == 17 || b == 17 {
                    cases.push(made(context, &[a, b], Form::Many, Part::Pair(a, b)));
                }
                // An edited master could not be at fault in the second alone.
                let edited_master = context.edited_master && !matches!(b, 25..=27 | 32 | 33);
                cases.push(made(Context { edited_master, ..context }, &[b], Form::InOrder, Part::Left(a, b)));
            }
        }
    }
    for (a, b) in BY_ELEMENT {
        for context in CONTEXTS.into_iter().filter(|&context| goes(context, a, b)) {
            let mut turned = made(context, &[a, b], Form::Turned, Part::Turned(a, b));
            turned.fixed = turned.fixed.map(|fixed| Fixed { ours: b, original: b, ..fixed });
            cases.push(turned);
            if a >= 32 {
                cases.push(made(context, &[a, b], Form::Same, Part::Same(a, b)));
            }
        }
    }
}

/// Faults all at once, put right from the lowest on.
fn at_once(cases: &mut Vec<Case>) {
    for context in CONTEXTS {
        let goes = |&number: &u32| match number {
            9 | 10 => context.dst,
            13 | 14 | 25..=27 | 32 | 33 => !context.edited_master,
            15..=23 => context.edited_master,
            _ => shown(number),
        };
        let faults: Vec<u32> = (1..=LAST).filter(goes).collect();
        for from in 0..=faults.len() {
            let left = &faults[from..];
            let first = left.first().copied().unwrap_or(LAST + 1);
            cases.push(made(context, left, Form::InOrder, Part::AtOnce(first)));
            if left.contains(&17) {
                cases.push(made(context, left, Form::Many, Part::AtOnce(first)));
            }
        }
    }
}

/// Gives the case a text, of these values or bytes.
pub fn set_text(case: &mut Case, place: Place, values: &[u32]) {
    let of = &mut case.of;
    let length = values.len() as u32;
    let bytes = values.iter().map(|&value| value as u8);
    let text = Extent { start: of.pool.len() as u32, length };
    let raw = Extent { start: of.raw.len() as u32, length };
    let info = &mut of.info;
    let tags = [&mut info.album_artist, &mut info.album_title, &mut info.track_artist, &mut info.track_title];
    match place {
        Place::Tag(number) => {
            for (_, tag) in (0..).zip(tags).filter(|&(place, _)| place == number) {
                *tag = [1, text.start, length];
            }
            of.pool.extend(values);
        }
        Place::Emid => {
            info.emid = [1, raw.start, length];
            of.raw.extend(bytes);
        }
        Place::Track => {
            of.tracks.push(TrackOf { title: text, ..track(0, 75) });
            of.pool.extend(values);
        }
        Place::Marker => {
            info.custom_markers = true;
            of.custom.push(marker(info.first, raw));
            of.raw.extend(bytes);
        }
        Place::Comment => case.comments.push(Comments { text: values.to_vec(), ..comments(0, [0, 0], 1) }),
        Place::Caller => case.callers.push(Caller { data: bytes.collect(), ..caller(b"AAAA") }),
    }
}

/// Where a text can be.
pub const TEXTS: [Place; 8] = [
    Place::Tag(0),
    Place::Tag(1),
    Place::Tag(2),
    Place::Tag(3),
    Place::Emid,
    Place::Track,
    Place::Marker,
    Place::Comment,
];

/// What two bytes can count. A text can be longer.
pub const TWO_BYTES: u32 = 65_535;

/// A plain case with a change, which is refused with 1 or not; for an edited master and not.
fn limit(cases: &mut Vec<Case>, refused: bool, change: impl Fn(&mut Case)) {
    for edited_master in [false, true] {
        let mut case = plain(Context { dst: false, edited_master });
        change(&mut case);
        let tracks = edited_master && case.of.tracks.len() > MOST_MASTER_TRACKS;
        let original = match (tracks, edited_master && case.of.info.custom_markers) {
            (true, _) => 17,
            (false, true) => 21,
            (false, false) => 0,
        };
        let ours = if refused { 1 } else { original };
        case.fixed = Some(Fixed { part: Part::Limit, ours, original });
        cases.push(case);
    }
}

/// A text of so many letters in each place.
fn texts(cases: &mut Vec<Case>, length: u32) {
    let letters = vec![0x41; length as usize];
    for place in TEXTS {
        limit(cases, length > LONGEST_TEXT, |case| {
            if case.edited_master && place == Place::Track {
                case.of.tracks.clear();
            }
            set_text(case, place, &letters);
        });
    }
}

/// Both sides of each limit of 1, but for that of a text; texts on both sides of what two bytes can count.
fn limits(cases: &mut Vec<Case>) {
    for more in [0, 1] {
        let refused = more == 1;
        texts(cases, TWO_BYTES + more);
        limit(cases, refused, |case| case.of.tracks = vec![track(0, 75); MOST_TRACKS + more as usize]);
        limit(cases, refused, |case| case.callers = vec![caller(b"AAAA"); MOST_CALLERS + more as usize]);
        limit(cases, refused, |case| {
            case.of.info.custom_markers = true;
            case.of.custom = vec![marker(0, NONE); MOST_MARKERS + more as usize];
        });
    }
    for more in [0, 1] {
        let mut case = plain(CONTEXTS[0]);
        case.callers = vec![Caller { data: vec![0; LONGEST_CALLER_DATA + more], ..caller(b"AAAA") }];
        case.fixed = Some(Fixed { part: Part::Limit, ours: more as u32, original: 0 });
        cases.push(case);
    }
}

/// An accepted case with all options on but the edited master, which excludes custom markers.
fn full() -> Case {
    let mut case = plain(CONTEXTS[1]);
    (case.dst_crc, case.dst_index, case.frame_data) = (true, true, true);
    case.idle = Some(0x3F);
    case.comments = vec![comments(1, [2, 1], 1)];
    case.callers = vec![caller(b"AAAA")];
    let of = &mut case.of;
    (of.pool, of.raw) = (vec![0x41], vec![0x41]);
    of.tracks = vec![track(0, 1)];
    of.custom = vec![marker(0, NONE)];
    let start = Start { given: true, frame: 1 };
    of.properties = Properties {
        layout: UNSPECIFIED,
        channels: 3,
        numbers: ChannelNumbers { given: true, count: 3, numbers: [1, 2, 3, 4, 5, 6] },
        start,
        unspecified_loudspeaker_configuration: true,
        d1: true,
        ..of.properties
    };
    let text = [1, 0, 1];
    of.info = Info {
        on: true,
        emid: text,
        custom_markers: true,
        source_track: 1,
        source_track_markers: true,
        clipped_program: true,
        titles: true,
        start,
        conversion: Conversion { rule: D2, ..of.info.conversion },
        switches: Switches { empty_text: true, text_pad_counted: true },
        artist_title: true,
        artist_title_source: OF_TRACK_THEN_ALBUM,
        album_artist: text,
        album_title: text,
        track_artist: text,
        track_title: text,
        ..of.info
    };
    case
}

/// The cases that the fixed calls at the border are made with.
fn border(cases: &mut Vec<Case>) {
    for (full, mut case) in [(false, plain(CONTEXTS[0])), (true, full())] {
        case.fixed = Some(Fixed { part: Part::Border { full }, ours: 0, original: 0 });
        cases.push(case);
    }
}

pub fn fixed() -> Vec<Case> {
    let mut cases = Vec::new();
    pairs(&mut cases);
    at_once(&mut cases);
    limits(&mut cases);
    border(&mut cases);
    for length in [LONGEST_TEXT, LONGEST_TEXT + 1] {
        texts(&mut cases, length);
    }
    for (number, case) in (1..).zip(&mut cases) {
        case.beside = number;
    }
    cases
}
