//! Putting a refusal's fault into a drawn build, at the limit: just outside of it, or just inside.

use library::checks::{COMT, DIIN, DSTI, PROP, SOUND};
use library::markers::{ChannelNumbers, Start, FIVE_POINT_ONE, STEREO, THREE_TWO, UNSPECIFIED};
use library::text::{Extent, D2, REMOVE, REPLACE};

use super::draw::{draw_comments, fit, most_reference, set_channels, set_layout};
use super::{Caller, Case, Comments, LONGEST_PLAYTIME};
use crate::markers::draw::{percent, LAST_FRAME};
use crate::markers::{MarkerOf, TrackOf};
use crate::random::Random;

#[derive(Clone, Copy)]
pub struct Fault {
    pub number: u32,
    pub outside: bool,
}

const RESERVED: [[u8; 4]; 9] =
    [*b"FRM8", *b"FVER", *b"PROP", *b"DSD ", *b"DST ", *b"DSTI", *b"COMT", *b"DIIN", *b"MANF"];
const FREE: [[u8; 4]; 9] = [*b"FRTE", *b"DSTF", *b"DSTC", *b"EMID", *b"frm8", *b"DSD1", *b"DSTA", *b"SND ", *b"MANE"];

pub fn put(random: &mut Random, case: &mut Case, Fault { number, outside }: Fault) {
    match number {
        4 | 5 => caller(random, case, number, outside),
        7 => channels(random, case, outside),
        9 => case.lengths.more = if outside { random.pick(&[-1, 1]) } else { 0 },
        10 => {
            case.lengths.value = if outside { random.pick(&[0, 65_537, u32::MAX]) } else { random.pick(&[1, 65_536]) }
        }
        11 | 12 => range(random, case, number, outside),
        13 | 14 => source(random, case, number, outside),
        15..=23 => master(random, case, number, outside),
        24 => replacement(random, case, outside),
        25..=27 => numbers(random, case, number, outside),
        28 => order(random, &mut case.of.properties.order, outside),
        29 => start(random, case, outside),
        30 => order(random, &mut case.of.info.order, outside),
        31 => id(random, case, outside),
        32 | 33 => marker(random, case, number, outside),
        34..=36 => comment(random, case, number, outside),
        _ => local(random, case, number, outside),
    }
}

fn caller(random: &mut Random, case: &mut Case, number: u32, outside: bool) {
    let mut name: [u8; 4] = std::array::from_fn(|_| random.between(0x21, 0x7E) as u8);
    let place = random.place(4);
    match (number, outside) {
        (4, true) if random.one_in(2) => name[random.place(3)] = b' ',
        (4, true) => name[place] = random.pick(&[0x00, 0x1F, 0x7F, 0x80, 0xA0, 0xFF]),
        // Spaces at the end alone.
        (4, false) => name[place..].fill(b' '),
        (_, true) => name = random.pick(&RESERVED),
        (_, false) => name = random.pick(&FREE),
    }
    let data = (0..random.between(0, 3)).map(|_| random.between(0, 255) as u8).collect();
    let place = random.place(case.callers.len() + 1);
    case.callers.insert(place, Caller { name, data });
}

fn channels(random: &mut Random, case: &mut Case, outside: bool) {
    let config = random.between(0, 7) as u8;
    if outside {
        let channels = random.pick(&[0, 7, 8, 255]);
        set_channels(random, case, channels, config);
    } else if case.edited_master {
        set_layout(random, case, FIVE_POINT_ONE);
    } else {
        let channels = random.pick(&[1, 6]);
        set_channels(random, case, channels, config);
    }
}

fn range(random: &mut Random, case: &mut Case, number: u32, outside: bool) {
    let info = &mut case.of.info;
    let playtime = info.playtime;
    let near = playtime.saturating_sub(random.between(0, 3));
    (info.first, info.end) = match (number, outside) {
        (11, true) => random.pick(&[(near, playtime + 1), (playtime + 1, playtime + 1), (playtime, playtime - 1)]),
        (11, false) => (near.min(playtime - 1), playtime),
        (_, true) => (near, near),
        (_, false) => (near.min(playtime - 1), near.min(playtime - 1) + 1),
    };
    if !outside && case.edited_master {
        (info.first, info.end) = (0, playtime);
    }
    fit(case);
}

fn no_title(case: &Case) -> Extent {
    Extent { start: case.of.pool.len() as u32, length: 0 }
}

fn source(random: &mut Random, case: &mut Case, number: u32, outside: bool) {
    case.of.tracks.truncate(200);
    if number == 13 && outside {
        let next = case.of.tracks.len() as u16 + 1;
        case.of.info.source_track = random.pick(&[next, next, 255]);
        return;
    }
    let (first, end) = (case.of.info.first, case.of.info.end);
    let (start, duration) = match (outside, random.between(0, 2)) {
        (true, 0) => (first.saturating_sub(1), u32::from(first > 0)),
        (true, 1) => (end, 5),
        (true, _) => (first, 0),
        (false, 0) => (first.saturating_sub(1), 2),
        (false, 1) => (end.saturating_sub(1), u32::MAX),
        (false, _) => (first, 1),
    };
    let title = no_title(case);
    let place = if number == 13 { case.of.tracks.len() } else { random.place(case.of.tracks.len() + 1) };
    case.of.tracks.insert(place, TrackOf { start, duration, title, untitled: true });
    case.of.info.source_track = place as u16 + 1;
}

fn master(random: &mut Random, case: &mut Case, number: u32, outside: bool) {
    let last = case.of.tracks.len().saturating_sub(1);
    let info = &mut case.of.info;
    match (number, outside) {
        (15, true) => {
            info.playtime = info.playtime.max(2);
            (info.first, info.end) = random.pick(&[(0, info.playtime - 1), (1, info.playtime)]);
            fit(case);
        }
        (15, false) => {
            (info.first, info.end) = (0, info.playtime);
            fit(case);
        }
        (16, true) => set_layout(random, case, UNSPECIFIED),
        (16, false) => {
            let layout = random.pick(&[STEREO, THREE_TWO, FIVE_POINT_ONE]);
            set_layout(random, case, layout);
        }
        (17, true) => case.of.tracks.clear(),
        (17, false) => case.of.tracks.truncate(1),
        (21, true) => info.custom_markers = true,
        (21, false) => info.custom_markers = false,
        (22, true) => case.of.properties.loudspeaker_configuration = false,
        (22, false) => case.of.properties.unspecified_loudspeaker_configuration = false,
        (23, true) => info.emid[0] = 0,
        (23, false) => info.emid = [1, 0, 0],
        _ if case.of.tracks.is_empty() => {}
        (18, _) => {
            // Two of them, or one.
            for _ in 0..2 {
                let place = random.place(last + 1);
                case.of.tracks[place].duration = if outside { random.pick(&[74, 0, 1, 74]) } else { 75 };
            }
        }
        (19, true) if last == 0 || random.one_in(5) => case.of.tracks[last].start = u32::MAX,
        (19, true) => {
            let place = 1 + random.place(last);
            match random.one_in(2) {
                true => case.of.tracks.swap(place - 1, place),
                false => case.of.tracks[place].start = case.of.tracks[place - 1].end().saturating_sub(1),
            }
        }
        (19, false) => {
            for place in 1..=last {
                case.of.tracks[place].start = case.of.tracks[place - 1].end();
            }
        }
        _ => {
            let end = if outside { LONGEST_PLAYTIME + 1 } else { LONGEST_PLAYTIME };
            let track = &mut case.of.tracks[last];
            match random.one_in(2) && track.start < end {
                true => track.duration = end - track.start,
                false => (track.start, track.duration) = (end - 75, 75),
            }
        }
    }
}

fn replacement(random: &mut Random, case: &mut Case, outside: bool) {
    let byte = match outside {
        true => random.pick(&[0x00, 0x1F, 0x7F, 0x80, 0xA0, 0xFF]),
        false => random.pick(&[0x20, 0x7E]),
    };
    let conversion = &mut case.of.info.conversion;
    // Under D2 too, which does not use it.
    if conversion.rule < D2 {
        conversion.rule = REPLACE;
    }
    conversion.replacement = byte;
    case.idle = Some(byte);
}

fn numbers(random: &mut Random, case: &mut Case, number: u32, outside: bool) {
    let channels = case.of.properties.channels;
    let count = usize::from(channels.clamp(1, 6));
    // Of a defined layout they are not looked at.
    let ChannelNumbers { mut numbers, count: mut given, given: were } = case.of.properties.numbers;
    if !were || numbers[..count].iter().any(|&number| number > 999) {
        let least = random.pick(&[0, 500, 993]);
        numbers = std::array::from_fn(|place| least + place as u16);
        given = channels.into();
    }
    let place = random.place(count);
    match (number, outside) {
        (25, true) => given = random.pick(&[given + 1, given.saturating_sub(1), 0, 7]),
        (25, false) => given = channels.into(),
        (26, true) => numbers[place] = random.pick(&[1000, 1000, 65_535]),
        (26, false) => {
            for number in &mut numbers {
                *number = if *number == 999 { 998 } else { *number };
            }
            numbers[place] = 999;
        }
        (_, true) if count > 1 => numbers[place] = numbers[(place + 1 + random.place(count - 1)) % count],
        _ => {}
    }
    case.of.properties.numbers = ChannelNumbers { given: true, count: given, numbers };
}

fn order<const N: usize>(random: &mut Random, order: &mut [u8; N], outside: bool) {
    random.shuffle(order);
    if outside {
        let place = random.place(N);
        order[place] = order[(place + 1 + random.place(N - 1)) % N];
    }
}

fn start(random: &mut Random, case: &mut Case, outside: bool) {
    let most = LAST_FRAME.saturating_sub(case.positions());
    let frame = match outside {
        true => random.pick(&[most + 1, most + 1, u32::MAX]),
        false => most,
    };
    case.of.properties.start = Start { given: true, frame };
    case.of.info.start = case.of.properties.start;
}

/// Appends to the byte pool a text with this byte at any place.
fn bytes_with(random: &mut Random, case: &mut Case, byte: u8) -> Extent {
    let raw = &mut case.of.raw;
    let start = raw.len() as u32;
    let length = random.between(1, 4);
    raw.extend((0..length).map(|_| random.between(0x20, 0x7E) as u8));
    raw[start as usize + random.place(length as usize)] = byte;
    Extent { start, length }
}

fn id(random: &mut Random, case: &mut Case, outside: bool) {
    let byte = match outside {
        true => random.pick(&[0x00, 0x1F, 0x7F, 0x80, 0xA0, 0xFF]),
        false => random.pick(&[0x20, 0x7E]),
    };
    let Extent { start, length } = bytes_with(random, case, byte);
    // Seldom it is not there.
    let given = if case.edited_master || percent(random, 90) { 1 } else { 0 };
    case.of.info.emid = [given, start, length];
}

fn marker(random: &mut Random, case: &mut Case, number: u32, outside: bool) {
    let (first, end) = (case.of.info.first, case.of.info.end);
    let byte = match (number == 33 && outside, case.d2()) {
        (true, false) => random.pick(&[0x00, 0x1F, 0x7F, 0x80, 0xA0, 0xFF]),
        (true, true) => random.pick(&[0x00, 0x1F, 0x7F, 0x80, 0x9F]),
        (false, false) => random.pick(&[0x20, 0x7E]),
        (false, true) => random.pick(&[0x20, 0x7E, 0xA0, 0xFF]),
    };
    let frame = match number == 32 && outside {
        true => random.pick(&[end.saturating_add(1), end.saturating_add(1), first.wrapping_sub(1), u32::MAX]),
        false => random.pick(&[first, end]),
    };
    let text = bytes_with(random, case, byte);
    let kind = random.between(0, 5);
    let place = random.place(case.of.custom.len() + 1);
    case.of.custom.insert(place, MarkerOf { frame, kind, flags: 1, text });
}

fn comment(random: &mut Random, case: &mut Case, number: u32, outside: bool) {
    let channels = case.of.properties.channels;
    let mut new = draw_comments(random, channels);
    match number {
        34 => {
            let limits = [12, 31, 23, 59];
            let place = random.place(4);
            let over = random.pick(&[limits[place] + 1, limits[place] + 1, 255]);
            new.date[1 + place] = if outside { over } else { limits[place] };
        }
        35 => {
            new.kind = random.between(1, 3);
            let most = most_reference(new.kind, channels).unwrap_or(0);
            new.reference = if outside { random.pick(&[most + 1, most + 1, 65_535]) } else { most };
        }
        _ => {
            // These are written always, those before only if something is left of their texts.
            let count = if outside { 65_536 } else { 65_535 };
            if !outside {
                case.comments.retain(|comments| comments.text.is_empty());
                case.of.info.switches.empty_text = false;
            }
            new.text = vec![0x41];
            new.count = count;
        }
    }
    let place = random.place(case.comments.len() + 1);
    case.comments.insert(place, Comments { count: if number == 36 { new.count } else { 1 }, ..new });
}

fn local(random: &mut Random, case: &mut Case, number: u32, outside: bool) {
    let count = (case.local_count as usize).min(5);
    let mut names: Vec<u8> = case.local_order[..count].iter().map(|&name| name.min(COMT)).collect();
    let find = |names: &[u8], name: u8| names.iter().position(|&other| other == name);
    match (number, outside) {
        (37, true) if !names.is_empty() => match random.one_in(4) {
            true => names.push(random.pick(&[PROP, SOUND, DSTI, DIIN, COMT])),
            false => {
                let place = random.place(names.len());
                let other = random.place(names.len());
                names[place] = names[other];
                if place == other {
                    names.push(names[other]);
                }
            }
        },
        (38, true) if random.one_in(8) => names.clear(),
        (38, true) => {
            // Not all of them are always needed.
            let gone = random.pick(&[PROP, SOUND, DSTI, DIIN, DIIN, DIIN, COMT, COMT]);
            names.retain(|&name| name != gone);
            // Mostly DIIN and COMT are there only if something else is in them.
            let info = &mut case.of.info;
            if gone == DIIN && !case.edited_master && !random.one_in(4) {
                (info.emid[0], info.empty_info) = (0, false);
                info.artist_title &= random.one_in(2);
            }
            if gone == COMT && !random.one_in(4) {
                info.switches.empty_text = false;
                info.conversion.rule = info.conversion.rule.max(REMOVE);
            }
        }
        (38, false) => {
            let dst_index = case.of.properties.dst && case.dst_index;
            let info = case.of.info.on || case.edited_master;
            let comments = !case.comments.is_empty();
            names.retain(|&name| match name {
                DSTI => dst_index,
                DIIN => info,
                COMT => comments,
                _ => true,
            });
        }
        (39, _) => {
            if let (Some(prop), Some(sound)) = (find(&names, PROP), find(&names, SOUND)) {
                if (prop < sound) == outside {
                    names.swap(prop, sound);
                }
            }
        }
        _ => {}
    }
    case.local_count = names.len() as u32;
    names.resize(names.len().max(5), 0);
    case.local_order.copy_from_slice(&names[..5]);
}
