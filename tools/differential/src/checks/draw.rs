//! Drawing cases: a build that is accepted, and then up to three faults.

use library::checks::{COMT, DIIN, DSTI, PROP, SOUND};
use library::markers::{FIVE_POINT_ONE, STEREO, THREE_TWO, UNSPECIFIED};
use library::text::Extent;

use super::faults::{self, Fault};
use super::fixed::{set_text, shown, LAST};
use super::{layout_of, Beyond, Caller, Case, Comments, Lengths, Place, LONGEST_TEXT, USUAL};
use super::{MOST_CALLERS, MOST_MASTER_TRACKS};
use crate::markers::draw::{self as of, draw_numbers, last_number, percent, LAST_FRAME, LAYOUTS};
use crate::markers::TrackOf;
use crate::random::Random;
use crate::text::draw_values;

/// More positions than this are given no length each.
const MOST_POSITIONS: u32 = 400;

/// What the faults ask of the build that they are put into.
pub struct Wishes {
    pub dst: bool,
    pub edited_master: bool,
    pub unspecified: bool,
    pub info: bool,
    pub custom: bool,
}

fn draw_faults(random: &mut Random) -> Vec<Fault> {
    let mut numbers: Vec<u32> = (1..=LAST).filter(|&number| shown(number)).collect();
    // What 38 asks takes more to decide.
    numbers.extend([38, 38]);
    let count = match random.between(0, 99) {
        0..=9 => 0,
        10..=49 => 1,
        50..=79 => 2,
        _ => 3,
    };
    let mut faults: Vec<Fault> = Vec::new();
    while faults.len() < count {
        let number = random.pick(&numbers);
        let outside = percent(random, 60);
        // 36 takes very many comments.
        if number != 36 || random.one_in(4) {
            faults.push(Fault { number, outside });
        }
    }
    faults
}

fn wishes(random: &mut Random, faults: &[Fault]) -> Wishes {
    let any = |least: u32, most: u32| faults.iter().any(|fault| (least..=most).contains(&fault.number));
    let mostly = |random: &mut Random, wish: bool, otherwise: u32| {
        let times = if wish { 95 } else { otherwise };
        percent(random, times)
    };
    let edited_master =
        any(15, 23) && !any(13, 14) || !any(13, 14) && !any(25, 27) && !any(32, 33) && percent(random, 25);
    Wishes {
        dst: mostly(random, any(9, 10), 40),
        edited_master: edited_master && !random.one_in(20),
        unspecified: any(25, 27),
        info: mostly(random, any(30, 33), 80),
        custom: mostly(random, any(32, 33), 25),
    }
}

/// `outside` says whether an EMID that is off may be left outside its pool.
pub fn draw(random: &mut Random, outside: bool) -> Case {
    let mut faults = draw_faults(random);
    let wishes = wishes(random, &faults);
    let mut case = good(random, &wishes);
    // Those of the area and its range first: others go by them.
    faults.sort_by_key(|fault| (!matches!(fault.number, 7 | 11 | 12 | 15 | 16), fault.number));
    for fault in faults {
        faults::put(random, &mut case, fault);
    }
    if percent(random, 8) {
        go_beyond(random, &mut case);
    }
    settle_id(&mut case, outside);
    case
}

/// The extent of an EMID that is off is tested too: brings it inside the pool. One of twelve stays where it is, if it may be
/// outside.
pub fn settle_id(case: &mut Case, outside: bool) {
    let told = !case.beyond.contains(&Beyond::Outside(Place::Emid));
    if case.of.info.emid[0] != 0 || outside && told && case.of.buffers.is_multiple_of(12) {
        return;
    }
    let pool = case.raw_bytes() as u32;
    let [_, start, length] = &mut case.of.info.emid;
    *start = pool.min(*start);
    *length = (pool - *start).min(LONGEST_TEXT).min(*length);
}

/// An accepted build.
pub fn good(random: &mut Random, wishes: &Wishes) -> Case {
    let mut of = of::draw(random);
    // Here an empty title has to be inside the pool.
    for track in &mut of.tracks {
        track.title.start = track.title.start.min(of.pool.len() as u32);
    }
    of.properties.dst = wishes.dst;
    of.info.on = wishes.info;
    of.info.custom_markers = wishes.custom;
    let mut local_order = [PROP, SOUND, DSTI, DIIN, COMT];
    random.shuffle(&mut local_order);
    let place = |name: u8| local_order.iter().position(|&other| other == name).unwrap_or(0);
    let (prop, sound) = (place(PROP), place(SOUND));
    if prop > sound {
        local_order.swap(prop, sound);
    }
    let local_order = local_order.map(|name| if name == COMT { last_number(random, COMT) } else { name });
    let idle = if random.one_in(2) { Some(random.between(0x20, 0x7E) as u8) } else { None };
    let callers = (0..random.pick(&[0, 0, 1, 2])).map(|_| Caller {
        name: random.pick(&[*b"ABCD", *b"ID3 ", *b"    ", *b"A   ", *b"MARK", *b"~!~!"]),
        data: (0..random.between(0, 5)).map(|_| random.between(0, 255) as u8).collect(),
    });
    let callers = callers.collect();
    let beside = of.buffers;
    let mut case = Case {
        of,
        edited_master: false,
        idle,
        dst_crc: random.one_in(2),
        dst_index: percent(random, 70),
        frame_data: random.one_in(2),
        local_order,
        local_count: 5,
        comments: Vec::new(),
        callers,
        lengths: Lengths { more: 0, place: random.between(0, 20), value: USUAL, usual: vec![USUAL] },
        beyond: Vec::new(),
        beside,
        fixed: None,
    };
    for _ in 0..random.pick(&[0, 0, 1, 2, 3]) {
        let comments = draw_comments(random, case.of.properties.channels);
        case.comments.push(comments);
    }
    let unspecified = case.of.properties.layout >= UNSPECIFIED;
    if wishes.edited_master {
        make_master(random, &mut case);
    } else if wishes.unspecified && !unspecified {
        set_layout(random, &mut case, UNSPECIFIED);
    }
    fit(&mut case);
    case
}

/// Comments in their limits.
pub fn draw_comments(random: &mut Random, channels: u8) -> Comments {
    let date = [65_535, 12, 31, 23, 59].map(|most| {
        let any = random.between(0, most);
        random.pick(&[0, most, any])
    });
    let kind = random.between(0, 3);
    let reference = match most_reference(kind, channels) {
        None => random.pick(&[0, 1, 65_535, u32::MAX]),
        Some(most) => random.between(0, most),
    };
    let length = random.between(0, 4);
    Comments { date, kind, reference, text: draw_values(random, length), count: random.pick(&[1, 1, 2]) }
}

/// The largest reference of a kind that has one.
pub fn most_reference(kind: u32, channels: u8) -> Option<u32> {
    match kind {
        0 => None,
        1 => Some(channels.into()),
        2 => Some(2),
        _ => Some(4),
    }
}

/// Another layout, with the channels and the configuration for it.
pub fn set_layout(random: &mut Random, case: &mut Case, layout: u8) {
    let (channels, config) = match LAYOUTS.get(usize::from(layout)) {
        Some(&named) => named,
        None => loop {
            let drawn = (random.between(1, 6) as u8, random.between(0, 7) as u8);
            if !LAYOUTS.contains(&drawn) {
                break drawn;
            }
        },
    };
    set_channels(random, case, channels, config);
}

/// Other channels, with numbers for them.
pub fn set_channels(random: &mut Random, case: &mut Case, channels: u8, config: u8) {
    let properties = &mut case.of.properties;
    let layout = layout_of(channels, config);
    case.of.config = config;
    (properties.layout, properties.channels) = (layout, channels);
    properties.numbers = draw_numbers(random, layout, channels.min(6));
    for comments in case.comments.iter_mut().filter(|comments| comments.kind == 1) {
        comments.reference = comments.reference.min(channels.into());
    }
}

/// Makes an edited master of an accepted build.
fn make_master(random: &mut Random, case: &mut Case) {
    case.edited_master = true;
    if case.of.properties.layout >= UNSPECIFIED {
        let layout = random.pick(&[STEREO, STEREO, THREE_TWO, FIVE_POINT_ONE]);
        set_layout(random, case, layout);
    }
    let of = &mut case.of;
    let pool = of.pool.len() as u32;
    if of.properties.dst {
        of.info.playtime = of.info.playtime.min(MOST_POSITIONS);
    }
    (of.info.first, of.info.end) = (0, of.info.playtime);
    if of.tracks.is_empty() {
        let title = Extent { start: pool, length: 0 };
        of.tracks.push(TrackOf { start: 0, duration: 75, title, untitled: false });
    }
    let mut at = random.pick(&[0, 0, 1, 500]);
    for track in &mut of.tracks {
        (track.start, track.duration) = (at, random.pick(&[75, 75, 76, 100, 1000]));
        at += track.duration + random.pick(&[0, 0, 1, 75]);
    }
    of.info.custom_markers = false;
    of.info.source_track = random.pick(&[0, 0, 1, 200]);
    of.properties.loudspeaker_configuration = true;
    if of.info.emid[0] == 0 {
        of.info.emid = [1, 0, 0];
    }
}

/// Puts right what goes by the range.
pub fn fit(case: &mut Case) {
    if case.of.properties.dst && case.positions() > MOST_POSITIONS {
        let info = &mut case.of.info;
        info.end = info.first + MOST_POSITIONS;
        if case.edited_master {
            info.playtime = info.end;
        }
    }
    let positions = case.positions();
    let of = &mut case.of;
    let (first, end) = (of.info.first, of.info.end);
    if first <= end {
        for marker in &mut of.custom {
            marker.frame = marker.frame.clamp(first, end);
        }
    }
    let source = of.tracks.get(usize::from(of.info.source_track).wrapping_sub(1));
    let overlaps = |track: &TrackOf| first.max(track.start) < end.min(track.end());
    if !case.edited_master && !source.is_some_and(overlaps) {
        of.info.source_track = 0;
    }
    let start = &mut of.properties.start;
    if start.given {
        start.frame = start.frame.min(LAST_FRAME.saturating_sub(positions));
    }
    of.info.start = *start;
}

/// Something that the original is not told, or does not look at.
fn go_beyond(random: &mut Random, case: &mut Case) {
    let place =
        random.pick(&[Place::Tag(0), Place::Tag(1), Place::Tag(2), Place::Tag(3), Place::Track, Place::Comment]);
    let any_place = random.pick(&[place, place, Place::Emid, Place::Marker, Place::Caller]);
    let row = random.pick(&[Place::Track, Place::Marker, Place::Comment, Place::Caller]);
    let scalar = random.pick(&[0xD800, 0xDFFF, 0x11_0000, u32::MAX]);
    let channels = case.of.properties.channels;
    let beyond = match random.between(0, 11) {
        0 => {
            too_much(random, case);
            return;
        }
        1 => {
            case.of.info.playtime = random.pick(&[1_152_000, 1_152_001, 1_166_880]);
            return;
        }
        2 | 3 => Beyond::Outside(any_place),
        4 => Beyond::CutShort(row),
        5 => Beyond::NoScalar(place, scalar),
        6 => {
            let others = LAYOUTS.iter().zip(STEREO..).filter(|((named, _), _)| *named != channels);
            let others: Vec<u8> = others.map(|(_, number)| number).collect();
            Beyond::Layout(random.pick(&others))
        }
        7 if !case.of.properties.dst => Beyond::DsdLengths(random.between(1, 3)),
        8 => {
            let place = random.place(5);
            // The low byte or two alone would do.
            Beyond::Date(place, if place == 0 { 65_536 } else { 256 } * random.between(1, 9))
        }
        9 => Beyond::Kind(random.pick(&[4, 256, 65_536, u32::MAX])),
        10 => Beyond::Reference(random.between(1, 3), random.pick(&[65_536, 65_537, u32::MAX])),
        _ => {
            case.of.info.source_track = 0;
            Beyond::TrackZero
        }
    };
    case.beyond.push(beyond);
}

/// More than a limit of 1, or more tracks than an edited master can have.
fn too_much(random: &mut Random, case: &mut Case) {
    let of = &mut case.of;
    match random.between(0, 3) {
        0 => {
            let track = of.tracks.last().copied();
            let title = Extent { start: 0, length: 0 };
            let track = track.unwrap_or(TrackOf { start: 0, duration: 1, title, untitled: true });
            of.tracks.resize(MOST_MASTER_TRACKS + 1, track);
        }
        1 => case.callers.resize(MOST_CALLERS + 1, Caller { name: *b"AAAA", data: Vec::new() }),
        2 => {
            let value = random.pick(&[0x41, 0x1F]);
            set_too_long(case, Place::Comment, value);
        }
        _ => set_too_long(case, Place::Tag(2), 0x41),
    }
}

/// A text of one value more than it can have. One of twenty has its pool, and is told to the original.
fn set_too_long(case: &mut Case, place: Place, value: u32) {
    match case.of.buffers.is_multiple_of(20) {
        true => set_text(case, place, &vec![value; LONGEST_TEXT as usize + 1]),
        false => case.beyond.push(Beyond::NoPool(place, LONGEST_TEXT + 1)),
    }
}
