//! Drawing cases: builds that are accepted, with little sound, and windows of their files.

use library::markers::STEREO;

use super::asked::Asked;
use super::file::File;
use super::{Case, Window};
use crate::builds;
use crate::checks::draw::{fit, set_channels, set_layout};
use crate::checks::Case as Build;
use crate::markers::draw::percent;
use crate::random::Random;
use crate::sound::draw::draw_content;

/// So many windows of a file are read at least.
const READS: usize = 1_000;
/// So many are drawn at least, beside those of its boundaries.
const DRAWN_READS: usize = 250;
const QUERIES: usize = 50;

/// So many windows of a build's file are read in the subject builds, and so many more asked for.
const FEW_READS: usize = 12;
const FEW_QUERIES: usize = 4;
/// A longer one of them is of so many positions of usual length at most.
const MOST_LENT: u64 = 40;

/// A file of more bytes has few long reads.
const LONG_FILE: u64 = 20_000;

pub fn draw(random: &mut Random) -> Case {
    let mut build = builds::draw::accepted(random);
    draw_channels(random, &mut build);
    draw_positions(random, &mut build);
    fit(&mut build);
    let seed = random.between(0, 255);
    let mut contents = Vec::new();
    if random.one_in(3) {
        contents.push((random.place(build.positions() as usize) as u32, draw_content(random)));
    }
    let mut case = Case::of(build, seed, contents);
    case.asked.choices = random.word();
    if let Ok(file) = &case.built {
        let boundaries = file.boundaries();
        case.asked.reads = draw_reads(random, file, &boundaries);
        case.asked.queries = (0..QUERIES).map(|_| draw_query(random, file, &boundaries)).collect();
    }
    case
}

/// A few windows of any file, which may be long. Their boundaries are of few positions.
pub fn draw_few(random: &mut Random, file: &File) -> Asked {
    let boundaries = file.boundaries_of(draw_few_positions(random, file));
    Asked {
        reads: (0..FEW_READS).map(|_| draw_limited_read(random, file, &boundaries)).collect(),
        queries: (0..FEW_QUERIES).map(|_| draw_query(random, file, &boundaries)).collect(),
        choices: random.word(),
    }
}

/// The first position, the last, one between them, and that at 4 GiB of the file if it is so long.
fn draw_few_positions(random: &mut Random, file: &File) -> Vec<usize> {
    let count = file.sound.positions();
    if count == 0 {
        return Vec::new();
    }
    let mut positions = vec![0, random.place(count), count - 1];
    let far = (1u64 << 32).checked_sub(file.header_bytes());
    positions.extend(far.and_then(|far| file.sound.position_at(far)));
    positions.sort_unstable();
    positions.dedup();
    positions
}

/// Mostly one or two channels.
fn draw_channels(random: &mut Random, build: &mut Build) {
    if build.of.properties.channels <= 2 || percent(random, 20) {
        return;
    }
    match random.between(0, 3) {
        0 if !build.edited_master => {
            let config = random.between(0, 7) as u8;
            set_channels(random, build, 1, config);
        }
        1 if !build.edited_master => {
            let config = random.between(1, 7) as u8;
            set_channels(random, build, 2, config);
        }
        _ => set_layout(random, build, STEREO),
    }
}

/// Few positions, and mostly short frames.
fn draw_positions(random: &mut Random, build: &mut Build) {
    let longest = match random.between(0, 99) {
        0 => 65_536,
        1..=4 => 5_000,
        5..=14 => 600,
        15..=40 => 4,
        _ => 40,
    };
    let most = match build.of.properties.dst {
        true if longest > 600 => 3,
        true => random.pick(&[2, 5, 12, 20]),
        false => 3,
    };
    let count = random.pick(&[1, 2, 3, 7, 20]);
    let lengths = &mut build.lengths;
    lengths.usual = (0..count).map(|_| random.between(1, longest)).collect();
    if longest > 40 {
        lengths.usual[0] = random.pick(&[255, 256, 257, longest - 1, longest]);
    }
    lengths.value = lengths.usual[random.place(count)];
    let positions = build.positions().min(random.between(1, most));
    let info = &mut build.of.info;
    info.end = info.first + positions;
    if build.edited_master {
        info.playtime = info.end;
    }
}

fn draw_short(random: &mut Random) -> u64 {
    let most = random.pick(&[2, 4, 16, 16, 40, 64]);
    random.between(0, most).into()
}

/// From each place within 2 of a boundary some bytes, and some bytes up to each; then drawn ones.
fn draw_reads(random: &mut Random, file: &File, boundaries: &[u64]) -> Vec<Window> {
    let size = file.size();
    let mut reads = vec![
        file.whole(),
        Window { offset: 0, length: size + 1 },
        Window { offset: 1, length: size - 1 },
        Window { offset: 0, length: size - 1 },
        Window { offset: size, length: draw_short(random) },
        Window { offset: size - 1, length: 1 },
        Window { offset: u64::MAX, length: draw_short(random) },
    ];
    for boundary in boundaries {
        for further in 0..=4 {
            let place = (boundary + further).saturating_sub(2);
            reads.push(Window { offset: place, length: draw_short(random) });
            let offset = place.saturating_sub(draw_short(random));
            reads.push(Window { offset, length: place - offset });
        }
    }
    let wanted = READS.max(reads.len() + DRAWN_READS);
    reads.resize_with(wanted, || draw_read(random, file, boundaries));
    reads
}

/// A place within 2 of a boundary.
fn near(random: &mut Random, boundary: u64) -> u64 {
    (boundary + u64::from(random.between(0, 4))).saturating_sub(2)
}

/// Any place of the file, or one past its end.
fn anywhere(random: &mut Random, file: &File) -> u64 {
    random.place(file.size() as usize + 3) as u64
}

/// A place that is mostly near a boundary.
fn draw_place(random: &mut Random, file: &File, boundaries: &[u64]) -> u64 {
    if random.one_in(4) {
        return anywhere(random, file);
    }
    let boundary = random.pick(boundaries);
    near(random, boundary)
}

fn between([one, other]: [u64; 2]) -> Window {
    Window { offset: one.min(other), length: one.abs_diff(other) }
}

fn draw_read(random: &mut Random, file: &File, boundaries: &[u64]) -> Window {
    let long_in = if file.size() > LONG_FILE { 60 } else { 12 };
    if random.one_in(long_in) {
        return between([draw_place(random, file, boundaries), draw_place(random, file, boundaries)]);
    }
    draw_short_read(random, file, boundaries)
}

/// A read that is mostly short, at times of some thousand bytes, seldom longer.
fn draw_limited_read(random: &mut Random, file: &File, boundaries: &[u64]) -> Window {
    let most = match random.between(0, 399) {
        0 => 70_000,
        1..=12 => 3_000,
        13..=24 => 400,
        _ => return draw_short_read(random, file, boundaries),
    };
    if file.size() <= most.into() {
        return match random.one_in(2) {
            true => file.whole(),
            false => between([draw_place(random, file, boundaries), draw_place(random, file, boundaries)]),
        };
    }
    // Not of too many positions, each of which has a content.
    let position = file.sound_bytes / (file.sound.positions() as u64).max(1);
    let length = u64::from(random.between(1, most)).min(MOST_LENT * position.max(1));
    Window { offset: draw_place(random, file, boundaries), length }
}

/// A read that is short, or of few stretches and of at most 200 bytes.
fn draw_short_read(random: &mut Random, file: &File, boundaries: &[u64]) -> Window {
    let size = file.size();
    let short = draw_short(random);
    match random.between(0, 49) {
        0 => Window { offset: u64::MAX - u64::from(random.between(0, 80)), length: short },
        1 => Window { offset: size + u64::from(random.between(0, 80)), length: short },
        2 => Window { offset: size - size.min(short), length: short + u64::from(random.between(0, 40)) },
        3 | 4 => Window { offset: draw_place(random, file, boundaries), length: 0 },
        5..=14 => Window { offset: anywhere(random, file), length: short },
        _ => {
            // From near a boundary to near one that follows soon, if it is not far.
            let first = random.place(boundaries.len());
            let last = (first + random.place(7)).min(boundaries.len() - 1);
            let window = between([near(random, boundaries[first]), near(random, boundaries[last])]);
            Window { length: if window.length > 200 { short } else { window.length }, ..window }
        }
    }
}

fn draw_query(random: &mut Random, file: &File, boundaries: &[u64]) -> Window {
    let mut window = between([draw_place(random, file, boundaries), draw_place(random, file, boundaries)]);
    if random.one_in(8) {
        window.offset = u64::MAX - u64::from(random.between(0, 80));
    }
    if random.one_in(3) {
        let rest = u64::MAX - window.offset;
        window.length = random.pick(&[0, 1, u32::MAX.into(), 1 << 40, rest, rest.saturating_add(1), u64::MAX]);
    }
    window
}
