//! Drawing cases: mostly accepted builds, the others as the checks draw them.

use library::checks::{COMT, DIIN, DSTI, PROP, SOUND};
use library::text::{D2, REMOVE};

use super::Case;
use crate::checks::draw::{self as checks, Wishes};
use crate::checks::{Beyond, Caller, Case as Build, USUAL};
use crate::markers::draw::{last_number, percent};
use crate::random::Random;
use crate::text::draw_values;

/// `outside` as for the checks.
pub fn draw(random: &mut Random, outside: bool) -> Case {
    let mut build = match percent(random, 35) {
        true => checks::draw(random, outside),
        false => accepted(random),
    };
    // The original says 13 to it, and there is no file to compare with.
    build.beyond.retain(|&beyond| beyond != Beyond::TrackZero);
    draw_lengths(random, &mut build);
    Case::of(build).with_windows(random)
}

/// A build that is accepted.
pub fn accepted(random: &mut Random) -> Build {
    let wishes = Wishes {
        dst: percent(random, 50),
        edited_master: percent(random, 15),
        unspecified: percent(random, 15),
        info: percent(random, 75),
        custom: percent(random, 40),
    };
    let mut build = checks::good(random, &wishes);
    if percent(random, 40) {
        draw_callers(random, &mut build);
    }
    for comments in &mut build.comments {
        if random.one_in(8) {
            let length = random.between(5, 40);
            comments.text = draw_values(random, length);
        }
    }
    if percent(random, 10) && !build.edited_master {
        empty_info(random, &mut build);
    }
    draw_order(random, &mut build);
    checks::settle_id(&mut build, false);
    build
}

/// Lengths of frames, a few in turn.
pub fn draw_lengths(random: &mut Random, build: &mut Build) {
    let count = random.pick(&[1, 2, 3, 7, 20]);
    let most = random.pick(&[2, 5, 40, 40, 300, 65_536]);
    build.lengths.usual = (0..count).map(|_| random.between(1, most)).collect();
    if percent(random, 10) {
        build.lengths.usual[0] = random.pick(&[1, 65_535, 65_536]);
    }
    if build.lengths.value == USUAL {
        build.lengths.value = build.lengths.usual[random.place(count)];
    }
}

fn draw_callers(random: &mut Random, build: &mut Build) {
    let callers = (0..random.between(1, 4)).map(|_| {
        let any = random.between(6, 60);
        let size = random.pick(&[0, 1, 2, 3, 4, 5, any]);
        Caller {
            name: random.pick(&[*b"ABCD", *b"ID3 ", *b"    ", *b"A   ", *b"MARK", *b"FRTE", *b"~!~!"]),
            data: (0..size).map(|_| random.between(0, 255) as u8).collect(),
        }
    });
    build.callers = callers.collect();
}

/// Nothing that DIIN could have.
fn empty_info(random: &mut Random, build: &mut Build) {
    let info = &mut build.of.info;
    info.on = true;
    info.emid[0] = 0;
    info.artist_title = false;
    if info.custom_markers {
        build.of.custom.clear();
    } else {
        build.of.tracks.clear();
        info.source_track = 0;
    }
    info.empty_info = percent(random, 60);
}

/// Whether there is surely nothing of this chunk in the file.
fn is_unwritten(build: &Build, name: u8) -> bool {
    let info = &build.of.info;
    match name {
        DSTI => !build.of.properties.dst || !build.dst_index,
        DIIN if build.edited_master => false,
        DIIN => {
            let markers = if info.custom_markers { !build.of.custom.is_empty() } else { !build.of.tracks.is_empty() };
            !info.on || info.emid[0] == 0 && !info.artist_title && !info.empty_info && !markers
        }
        COMT => {
            let rule = info.conversion.rule;
            let passes = |value: &u32| match rule {
                REMOVE => (0x20..=0x7E).contains(value),
                _ if rule >= D2 => matches!(value, 0x20..=0x7E | 0xA0..=0xFF),
                _ => true,
            };
            let written = |text: &[u32]| info.switches.empty_text || text.iter().any(passes);
            !build.comments.iter().any(|comments| written(&comments.text))
        }
        _ => false,
    }
}

/// An order of the local chunks, in which those that are not written may be missing.
fn draw_order(random: &mut Random, build: &mut Build) {
    let mut names = vec![PROP, SOUND, DSTI, DIIN, COMT];
    let all = random.one_in(3);
    names.retain(|&name| !is_unwritten(build, name) || !all && random.one_in(2));
    random.shuffle(&mut names);
    let place = |name: u8| names.iter().position(|&other| other == name).unwrap_or(0);
    let (prop, sound) = (place(PROP), place(SOUND));
    if prop > sound {
        names.swap(prop, sound);
    }
    build.local_count = names.len() as u32;
    // What is past the count may be anything.
    names.resize_with(5, || random.between(0, 255) as u8);
    build.local_order.copy_from_slice(&names);
    for name in build.local_order.iter_mut().filter(|name| **name == COMT) {
        *name = last_number(random, COMT);
    }
}
