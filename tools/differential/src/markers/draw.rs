//! Drawing cases. Only such that the original accepts.

use library::markers::{
    self as ours, ChannelNumbers, Info, Properties, Start, FIVE_POINT_ONE, INDEX, OF_TRACK_THEN_ALBUM, PROGRAM_START,
    STEREO, THREE_TWO, TRACK_START, TRACK_STOP, UNSPECIFIED,
};
use library::text::{Conversion, Extent, Switches, D2, REMOVE, REPLACE};

use super::{Case, MarkerOf, TrackOf};
use crate::random::Random;
use crate::text::{draw_other, draw_values, lay, nowhere};

/// The last frame that a time can tell.
pub const LAST_FRAME: u32 = 6_479_999;

/// The channels and the configuration of each layout that has a name.
pub const LAYOUTS: [(u8, u8); 3] = [(2, 0), (5, 3), (6, 4)];

/// True so many times in a hundred.
pub fn percent(random: &mut Random, times: u32) -> bool {
    random.between(1, 100) <= times
}

/// A number that means the last of so many: mostly its place, at times any above.
pub fn last_number(random: &mut Random, last: u8) -> u8 {
    if random.one_in(4) {
        random.between(last.into(), 255) as u8
    } else {
        last
    }
}

pub fn draw_order<const N: usize>(random: &mut Random) -> [u8; N] {
    let mut order = std::array::from_fn(|place| place as u8);
    if percent(random, 80) {
        random.shuffle(&mut order);
    }
    let last = N as u8 - 1;
    order.map(|number| if number == last { last_number(random, last) } else { number })
}

/// A text that is given, in words.
fn given(random: &mut Random, Extent { start, length }: Extent) -> ours::Text {
    let word = if random.one_in(4) { random.between(1, u32::MAX) } else { 1 };
    [word, start, length]
}

/// A text that is not given, from a pool of so many elements.
fn absent(random: &mut Random, pool: usize) -> ours::Text {
    let Extent { start, length } = nowhere(random, pool);
    [0, start, length]
}

fn draw_length(random: &mut Random, least: u32) -> u32 {
    let most = if random.one_in(30) { 40 } else { 6 };
    random.between(least, most)
}

/// Bytes that may be written as they are, also those that D2 adds.
pub fn draw_bytes(random: &mut Random, length: u32, d2: bool) -> Vec<u8> {
    let bytes = (0..length).map(|_| match random.between(0, 5) {
        0 => 0x20,
        1 => 0x7E,
        2 if d2 => random.pick(&[0xA0, 0xFF]),
        3 if d2 => random.between(0xA0, 0xFF),
        _ => random.between(0x20, 0x7E),
    });
    bytes.map(|byte| byte as u8).collect()
}

/// Layout, channels and configuration.
fn draw_layout(random: &mut Random) -> (u8, u8, u8) {
    let layout = random.pick(&[STEREO, STEREO, THREE_TWO, FIVE_POINT_ONE, UNSPECIFIED, UNSPECIFIED, UNSPECIFIED]);
    if let Some(&(channels, config)) = LAYOUTS.get(usize::from(layout)) {
        return (layout, channels, config);
    }
    loop {
        let (channels, config) = (random.between(1, 6) as u8, random.between(0, 7) as u8);
        if !LAYOUTS.contains(&(channels, config)) {
            return (last_number(random, UNSPECIFIED), channels, config);
        }
    }
}

/// The channels' numbers, if they are given: each once, and up to 999. The others are not read.
pub fn draw_numbers(random: &mut Random, layout: u8, channels: u8) -> ChannelNumbers {
    let unspecified = layout >= UNSPECIFIED;
    let mut numbers = std::array::from_fn(|_| random.between(0, 65_535) as u16);
    if !percent(random, if unspecified { 60 } else { 20 }) {
        return ChannelNumbers { given: false, count: random.between(0, 6), numbers };
    }
    let (least, most) = random.pick(&[(0, 9), (0, 99), (0, 999), (990, 999)]);
    let count = if unspecified { channels.into() } else { 1 + random.place(6) };
    let mut list: Vec<u16> = (least..=most).collect();
    random.shuffle(&mut list);
    numbers[..count].copy_from_slice(&list[..count]);
    ChannelNumbers { given: true, count: count as u32, numbers }
}

/// First, end and playtime.
fn draw_range(random: &mut Random, dst: bool) -> (u32, u32, u32) {
    let playtime = match random.between(0, 7) {
        0 => random.pick(&[74, 75, 150, 151, 300]),
        1 => random.pick(&[1_151_999, 1_151_998, 270_000, 4_500, 500_000]),
        _ => random.between(1, 20),
    };
    let (mut first, mut end) = (0, playtime);
    if !percent(random, 45) {
        first = random.between(0, playtime - 1);
        end = random.between(first + 1, playtime);
        match random.between(0, 9) {
            0 | 1 => first = 0,
            2 | 3 => end = playtime,
            _ => {}
        }
    }
    // DST has a length for each frame.
    if dst && end - first > 400 {
        end = first + random.between(1, 20);
    }
    (first, end, playtime)
}

#[derive(Clone, Copy)]
enum Style {
    /// In order, often with a gap.
    Ordered,
    /// Each where the last ended.
    Touching,
    /// Some empty or overlapping.
    Loose,
    Wild,
}

/// Start and duration of each track.
fn draw_spans(random: &mut Random, first: u32, playtime: u32) -> Vec<[u32; 2]> {
    let count = match random.between(0, 99) {
        0 => random.between(7, 255),
        _ => random.pick(&[0, 1, 1, 2, 2, 3, 3, 4, 5, 6]),
    };
    let scale = (playtime / random.pick(&[1, 2, 3, 5, 8])).max(1);
    use Style::{Loose, Ordered, Touching, Wild};
    let style = random.pick(&[Ordered, Ordered, Ordered, Touching, Loose, Loose, Wild]);
    let anywhere = random.between(0, playtime);
    let mut at = random.pick(&[0, 0, 0, first, first.saturating_sub(1), anywhere]);
    let mut spans = Vec::new();
    for _ in 0..count {
        let mut duration = random.between(1, scale);
        match style {
            Style::Ordered => {
                spans.push([at, duration]);
                let gap = random.between(0, scale);
                at += duration + random.pick(&[0, 0, 0, 1, gap]);
            }
            Style::Touching => {
                duration = random.pick(&[1, 1, 2, 3, scale]);
                spans.push([at, duration]);
                at += duration;
            }
            Style::Loose => {
                if percent(random, 12) {
                    duration = 0;
                }
                spans.push([at, duration]);
                at += duration;
                if percent(random, 30) {
                    at += random.between(0, 3);
                }
                if percent(random, 10) {
                    at = at.saturating_sub(random.between(1, 2));
                }
            }
            Style::Wild => {
                let any = random.between(0, playtime + 3);
                spans.push([random.between(0, playtime + 2), random.pick(&[0, 1, 2, duration, duration, any])]);
            }
        }
    }
    if !spans.is_empty() && percent(random, 12) {
        // Ends near the largest number.
        let place = if random.one_in(2) { spans.len() - 1 } else { random.place(spans.len()) };
        let rest = u32::MAX - spans[place][0];
        spans[place][1] = random.pick(&[u32::MAX, u32::MAX - 1, rest, rest.saturating_add(1), rest.saturating_sub(1)]);
    }
    if let (Some(last), true) = (spans.last_mut(), percent(random, 6)) {
        last[0] = random.pick(&[u32::MAX, u32::MAX - 1, u32::MAX - 5]);
        last[1] = random.pick(&[0, 1, 2, 5, 6, u32::MAX]);
    }
    if percent(random, 6) {
        random.shuffle(&mut spans);
    }
    if spans.len() > 1 && percent(random, 3) {
        spans.swap(0, 1);
    }
    spans
}

/// The number of a track that has frames in the range; 0 for none.
fn draw_source(random: &mut Random, spans: &[[u32; 2]], first: u32, end: u32) -> u16 {
    let inside = |[start, duration]: [u32; 2]| first.max(start) < end.min(start.saturating_add(duration));
    let numbers: Vec<u16> =
        (1..=u16::MAX).zip(spans).filter(|(_, &span)| inside(span)).map(|(number, _)| number).collect();
    if numbers.is_empty() || !percent(random, 30) {
        return 0;
    }
    random.pick(&numbers)
}

/// A start from which so many frames can still be told.
fn draw_start(random: &mut Random, frames: u32) -> Start {
    let most = LAST_FRAME - frames;
    let any = random.between(0, most);
    match random.between(0, 99) {
        0..=34 => Start { given: false, frame: random.pick(&[0, 1, any, u32::MAX]) },
        35..=49 => Start { given: true, frame: 0 },
        50..=74 => Start { given: true, frame: random.between(1, 100) },
        _ => Start { given: true, frame: random.pick(&[most, any, most.min(270_000), most.min(4_499)]) },
    }
}

fn draw_conversion(random: &mut Random) -> Conversion {
    let rule = match random.between(0, 99) {
        0..=34 => REPLACE,
        35..=64 => REMOVE,
        _ => last_number(random, D2),
    };
    let replacement =
        if rule == REPLACE || random.one_in(2) { random.between(0x20, 0x7E) } else { random.between(0, 255) };
    Conversion { rule, replacement: replacement as u8 }
}

/// A marker in the range, without its text.
fn draw_marker(random: &mut Random, first: u32, end: u32) -> MarkerOf {
    let between = random.between(first, end);
    let flags = random.between(0, 65_535);
    let mut kind = random.pick(&[TRACK_START, TRACK_STOP, PROGRAM_START, INDEX]);
    if kind == INDEX && random.one_in(2) {
        kind = random.between(PROGRAM_START + 1, 65_535);
    }
    MarkerOf {
        frame: random.pick(&[first, end, between]),
        kind,
        flags: random.pick(&[0, 1, 0x8000, 65_535, flags]),
        text: Extent::default(),
    }
}

pub fn draw(random: &mut Random) -> Case {
    let dst = percent(random, 40);
    let (layout, channels, config) = draw_layout(random);
    let numbers = draw_numbers(random, layout, channels);
    let (first, end, playtime) = draw_range(random, dst);
    let spans = draw_spans(random, first, playtime);
    let source_track = draw_source(random, &spans, first, end);
    let start = draw_start(random, end - first);
    let conversion = draw_conversion(random);
    let d2 = conversion.rule >= D2;

    let custom_markers = percent(random, 25);
    // If they are not custom, markers are not read, and mostly not there.
    let there = custom_markers || random.one_in(3);
    let count = match random.between(0, 99) {
        _ if !there => 0,
        0 => random.between(9, 300),
        _ => random.pick(&[0, 1, 1, 2, 3, 5, 8]),
    };
    let mut custom: Vec<MarkerOf> = (0..count).map(|_| draw_marker(random, first, end)).collect();

    // EMID, then the markers' texts.
    let bytes = (0..=custom.len()).map(|number| {
        let length = draw_length(random, 0);
        draw_bytes(random, length, d2 && number > 0)
    });
    let bytes: Vec<Vec<u8>> = bytes.collect();
    let (raw, places) = lay(random, &bytes, |random| random.between(0, 255) as u8);
    let emid = if random.one_in(2) { given(random, places[0]) } else { absent(random, raw.len()) };
    for (marker, &place) in custom.iter_mut().zip(&places[1..]) {
        marker.text = place;
    }

    // The tags, then the titles. Tags are not empty.
    let mut texts = Vec::new();
    let tagged: [bool; 4] = std::array::from_fn(|_| percent(random, 60));
    for least in tagged.map(u32::from).into_iter().chain(spans.iter().map(|_| 0)) {
        let length = draw_length(random, least);
        texts.push(draw_values(random, length));
    }
    let (pool, places) = lay(random, &texts, draw_other);
    let [album_artist, album_title, track_artist, track_title] =
        std::array::from_fn(
            |number| {
                if tagged[number] {
                    given(random, places[number])
                } else {
                    absent(random, pool.len())
                }
            },
        );
    let tracks = spans.iter().zip(&places[4..]).map(|(&[start, duration], &title)| {
        let untitled = percent(random, 20);
        // An empty title may be anywhere.
        let title = if untitled { Extent { length: 0, ..nowhere(random, pool.len()) } } else { title };
        TrackOf { start, duration, title, untitled }
    });
    let tracks = tracks.collect();

    let properties = Properties {
        order: draw_order(random),
        dst,
        layout,
        channels,
        numbers,
        start,
        loudspeaker_configuration: percent(random, 60),
        unspecified_loudspeaker_configuration: random.one_in(2),
        d1: percent(random, 40),
    };
    let artist_title = percent(random, 60);
    let info = Info {
        order: draw_order(random),
        on: percent(random, 90),
        empty_info: percent(random, 40),
        emid,
        custom_markers,
        first,
        end,
        playtime,
        source_track,
        source_track_markers: percent(random, 70),
        clipped_program: percent(random, 60),
        titles: random.one_in(2),
        start,
        conversion,
        switches: Switches { empty_text: random.one_in(2), text_pad_counted: random.one_in(2) },
        artist_title,
        artist_title_source: match random.between(0, 2) as u8 {
            OF_TRACK_THEN_ALBUM => last_number(random, OF_TRACK_THEN_ALBUM),
            number => number,
        },
        album_artist,
        album_title,
        track_artist,
        track_title,
    };
    let (unset, after_sound) = (random.one_in(2), random.one_in(4));
    let buffers = random.word();
    Case { properties, info, tracks, custom, pool, raw, config, unset, after_sound, buffers }
}
