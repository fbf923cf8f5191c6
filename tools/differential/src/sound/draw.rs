//! Cases: those drawn from random numbers, and those of every run.

use std::ops::RangeInclusive;

use super::file::{Content, File, Index, Kind};
use super::{Case, Window};
use crate::random::Random;

const READS: usize = 8;
const QUERIES: usize = 4;

pub fn draw(random: &mut Random) -> Case {
    let file = draw_file(random);
    let boundaries = file.boundaries();
    let reads = (0..READS).map(|_| draw_read(random, &file, &boundaries)).collect();
    let queries = (0..QUERIES).map(|_| draw_query(random, &file, &boundaries)).collect();
    let crc_of = random.place(file.positions()) as u32;
    Case { file, reads, queries, crc_of, choices: random.word(), fixed: false }
}

fn draw_file(random: &mut Random) -> File {
    let channels = if random.one_in(4) { random.between(1, 6) } else { random.between(1, 2) };
    let first = if random.one_in(2) { 0 } else { random.between(0, 9_000) };
    let seed = random.between(0, 255);
    let kind = if random.one_in(4) { Kind::Dsd { positions: random.between(1, 4) } } else { draw_dst(random) };
    let mut file = File { channels: channels as u8, first, seed, kind, contents: Vec::new() };
    if random.one_in(3) {
        let position = random.place(file.positions()) as u32;
        file.contents.push((position, draw_content(random)));
    }
    file
}

fn draw_dst(random: &mut Random) -> Kind {
    let crc = random.one_in(2);
    let index = random.one_in(2).then(|| Index { before_sound: random.one_in(2), frame_data: random.one_in(2) });
    let most = random.pick(&[2, 5, 12, 30]);
    let longest = match random.between(0, 99) {
        0 => 65_536,
        1..=5 => 5_000,
        6..=15 => 600,
        16..=40 => 4,
        _ => 40,
    };
    let count = random.between(1, most);
    let lengths = (0..count).map(|_| draw_length(random, longest)).collect();
    Kind::Dst { crc, index, lengths }
}

fn draw_length(random: &mut Random, longest: u32) -> u32 {
    match random.between(0, 9) {
        // Both sides of a full byte of the size, and the longest.
        0 if longest > 40 => random.pick(&[255, 256, 257, longest - 1, longest]),
        1 if longest > 40 => random.between(1, longest),
        _ => random.between(1, longest.min(40)),
    }
}

pub fn draw_content(random: &mut Random) -> Content {
    let bytes = |random: &mut Random| {
        let length = random.between(0, 8);
        (0..length).map(|_| random.between(0, 255) as u8).collect::<Vec<u8>>()
    };
    let any = random.between(0, 255) as u8;
    let fill = random.pick(&[0x00, 0x55, 0x80, 0xFF, any]);
    Content { front: bytes(random), fill, back: bytes(random) }
}

/// A place of the sound: mostly at a boundary or next to one, sometimes anywhere, or past the end.
fn draw_place(random: &mut Random, boundaries: &[u64]) -> u64 {
    let sound = *boundaries.last().expect("an end");
    match random.between(0, 19) {
        0 => sound + u64::from(random.between(0, 40)),
        1..=4 => u64::from(random.between(0, sound as u32)),
        5..=11 => random.pick(boundaries),
        _ => (random.pick(boundaries) + u64::from(random.between(0, 4))).saturating_sub(2),
    }
}

/// As far as a place of the file can lie from the sound's first byte.
fn last_place(random: &mut Random, file: &File) -> u64 {
    u64::MAX - file.header_bytes() - u64::from(random.between(0, 2))
}

fn draw_read(random: &mut Random, file: &File, boundaries: &[u64]) -> Window {
    let sound = file.sound_bytes();
    let long_in = if file.is_dst() { 2 } else { 6 };
    match random.between(0, 59) {
        0 => Window { place: last_place(random, file), length: u64::from(random.between(0, 40)) },
        1 => Window { place: 0, length: sound },
        2 => Window { place: 0, length: sound + u64::from(random.between(1, 40)) },
        _ if random.one_in(long_in) => {
            let [one, other] = [draw_place(random, boundaries), draw_place(random, boundaries)];
            Window { place: one.min(other), length: one.abs_diff(other) }
        }
        _ => {
            let most = random.pick(&[1, 4, 20, 40]);
            Window { place: draw_place(random, boundaries), length: u64::from(random.between(0, most)) }
        }
    }
}

fn draw_query(random: &mut Random, file: &File, boundaries: &[u64]) -> Window {
    let [one, other] = [draw_place(random, boundaries), draw_place(random, boundaries)];
    let place = if random.one_in(20) { last_place(random, file) } else { one };
    let length = match random.between(0, 9) {
        0 => random.pick(&[0, u64::from(u32::MAX), u64::MAX - 1, u64::MAX]),
        1 => u64::from(random.between(0, 4)),
        _ => one.abs_diff(other),
    };
    Window { place, length }
}

/// The cases of every run.
pub fn fixed() -> Vec<Case> {
    let index = |frame_data, before_sound| Some(Index { frame_data, before_sound });
    let small: [&[u32]; 7] = [&[1], &[2], &[3], &[3, 4], &[2, 2], &[1, 1, 1], &[2, 2, 5]];
    let small = small.iter().flat_map(|lengths| {
        let frame_data = lengths.len() % 2 == 1;
        [false, true].map(|crc| Kind::Dst { crc, index: index(frame_data, crc), lengths: lengths.to_vec() })
    });
    let small = small.map(|kind| fixed_case(kind, 1, all_windows));
    let dsd = [(1, 1), (1, 2), (1, 3), (2, 2), (6, 2)];
    let dsd = dsd.map(|(channels, positions)| fixed_case(Kind::Dsd { positions }, channels, boundary_windows));
    let everywhere = fixed_case(Kind::Dsd { positions: 2 }, 1, short_windows);
    // More than 4 GiB.
    let lengths = vec![65_536; 70_000];
    let large = [
        Kind::Dst { crc: false, index: index(true, true), lengths: lengths.clone() },
        Kind::Dst { crc: true, index: index(false, false), lengths },
        Kind::Dsd { positions: 160_000 },
    ];
    let large = large.map(|kind| fixed_case(kind, 6, far_windows));
    small.chain(dsd).chain([everywhere]).chain(large).collect()
}

fn fixed_case(kind: Kind, channels: u8, windows: fn(&File) -> Vec<Window>) -> Case {
    let file = File { channels, first: 0, seed: 17, kind, contents: Vec::new() };
    let reads = windows(&file);
    Case { file, reads, queries: Vec::new(), crc_of: 0, choices: 0, fixed: true }
}

/// From every place, so many bytes of every number: up to 3 past the end.
fn all_windows(file: &File) -> Vec<Window> {
    let most = file.sound_bytes() + 3;
    (0..=most).flat_map(|place| (0..=most).map(move |length| Window { place, length })).collect()
}

/// The places within 3 of a place.
fn near(place: u64) -> RangeInclusive<u64> {
    place.saturating_sub(3)..=place + 3
}

/// From each place within 3 of a position's boundary to each such place.
fn boundary_windows(file: &File) -> Vec<Window> {
    let places: Vec<u64> = file.boundaries().into_iter().flat_map(near).collect();
    let to = |place: u64| places.iter().filter(move |&&end| place <= end).map(move |end| (place, end - place));
    let windows = places.iter().flat_map(|&place| to(place));
    windows.map(|(place, length)| Window { place, length }).collect()
}

/// From every place, up to 2 bytes.
fn short_windows(file: &File) -> Vec<Window> {
    let places = 0..=file.sound_bytes() + 3;
    places.flat_map(|place| (0..=2).map(move |length| Window { place, length })).collect()
}

/// From each place near 4 GiB, near the boundaries on both sides of it and near the sound's end.
fn far_windows(file: &File) -> Vec<Window> {
    let far = 1 << 32;
    let boundaries = file.boundaries();
    let above = boundaries.partition_point(|&boundary| boundary < far);
    let places = [far, boundaries[above - 1], boundaries[above], file.sound_bytes()].map(near);
    let lengths = [0, 1, 5, 40, 70_000];
    let windows = places.into_iter().flatten().flat_map(|place| lengths.map(|length| Window { place, length }));
    windows.collect()
}
