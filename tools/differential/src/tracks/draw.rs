//! Drawing cases: an accepted build, which then gets other tracks, another range and another source track.

use library::text::Extent;

use crate::builds::draw::draw_lengths;
use crate::builds::Case;
use crate::checks::draw::{fit, good, settle_id, Wishes};
use crate::checks::{Case as Build, LONGEST_PLAYTIME};
use crate::markers::draw::percent;
use crate::markers::TrackOf;
use crate::random::Random;
use crate::text::draw_values;

pub fn draw(random: &mut Random) -> Case {
    let wishes = Wishes {
        dst: percent(random, 25),
        edited_master: percent(random, 25),
        unspecified: percent(random, 15),
        info: percent(random, 95),
        custom: percent(random, 5),
    };
    let mut build = good(random, &wishes);
    settle_id(&mut build, false);
    let count = draw_count(random);
    let spans = draw_spans(random, count, if build.edited_master { 75 } else { 1 });
    draw_titles(random, &mut build, &spans);
    let source_track = draw_source(random, count);
    draw_range(random, &mut build, source_track);
    build.of.info.source_track = 0;
    fit(&mut build);
    build.of.info.source_track = source_track;
    draw_lengths(random, &mut build);
    Case::of(build).with_windows(random)
}

/// At a limit, or of any number of digits.
fn draw_count(random: &mut Random) -> usize {
    let digits = random.between(0, 15);
    let any = random.between(1 << digits, (2 << digits) - 1) as usize;
    match random.between(0, 19) {
        0..=5 => random.pick(&[255, 256, 257]),
        6 | 7 => random.pick(&[65_535, 65_535, 65_536]),
        _ => any,
    }
}

/// Start and duration of each track, of at least so many frames: in order, or not.
fn draw_spans(random: &mut Random, count: usize, least: u32) -> Vec<[u32; 2]> {
    // So that they fit into the longest area, or not all of them.
    let room = (LONGEST_PLAYTIME / count as u32).max(1);
    let any = random.between(1, room);
    let longest = random.pick(&[1, 3, room, room, any, 2 * room]).max(least);
    let gap = random.pick(&[0, 0, 1, any]);
    let mut at = random.pick(&[0, 0, 1, any]);
    let spans = (0..count).map(|_| {
        let span = [at, random.between(least, longest)];
        at = span[0] + span[1] + random.pick(&[0, gap]);
        span
    });
    let mut spans = spans.collect::<Vec<[u32; 2]>>();
    if percent(random, 30) {
        spoil(random, &mut spans);
    }
    if percent(random, 3) {
        random.shuffle(&mut spans);
    }
    spans
}

/// Makes one track short, empty, early, late or long, or changes it with the next.
fn spoil(random: &mut Random, spans: &mut [[u32; 2]]) {
    let last = spans.len() - 1;
    let any = random.place(spans.len());
    let place = random.pick(&[0, 1, 254, 255, 256, last - last / 100, last, any]).min(last);
    match random.between(0, 5) {
        0 => spans[place][1] = random.pick(&[0, 0, 1, 74]),
        1 => spans[place][0] = spans[place][0].saturating_sub(random.between(1, 3)),
        2 => spans[place][1] = random.pick(&[LONGEST_PLAYTIME, u32::MAX - 1, u32::MAX]),
        3 => spans[place][0] = random.pick(&[0, LONGEST_PLAYTIME, u32::MAX]),
        _ => spans.swap(place, last.min(place + 1)),
    }
}

/// Gives the build these tracks, with a few texts in turn as titles.
fn draw_titles(random: &mut Random, build: &mut Build, spans: &[[u32; 2]]) {
    let pool = &mut build.of.pool;
    let texts = (0..random.between(1, 9)).map(|_| {
        let start = pool.len() as u32;
        let length = random.pick(&[0, 1, 2, 3, 4, 5, 9, 30]);
        pool.extend(draw_values(random, length));
        Extent { start, length }
    });
    let texts = texts.collect::<Vec<Extent>>();
    let untitled = random.pick(&[0, 5, 95]);
    build.of.info.titles = percent(random, 60);
    build.of.tracks = spans
        .iter()
        .map(|&[start, duration]| match percent(random, untitled) {
            true => TrackOf { start, duration, title: Extent::default(), untitled: true },
            false => TrackOf { start, duration, title: random.pick(&texts), untitled: false },
        })
        .collect();
}

/// A track, or one that there is not; 0 for none.
fn draw_source(random: &mut Random, count: usize) -> u16 {
    let any = 1 + random.place(count);
    let number = random.pick(&[0, 0, 0, 0, 0, 0, 1, 255, 256, 257, count, count, count + 1, 65_535, any, any, any]);
    number.min(65_535) as u16
}

/// The play range, or one near the ends of two tracks. The source track mostly has frames in it.
fn draw_range(random: &mut Random, build: &mut Build, source_track: u16) {
    let tracks = &build.of.tracks;
    let last = tracks.iter().map(TrackOf::end).filter(|&end| end <= LONGEST_PLAYTIME).max().unwrap_or(1);
    let any = random.between(1, LONGEST_PLAYTIME);
    let playtime = random.pick(&[last, last, last, last + 1, last.saturating_sub(1), LONGEST_PLAYTIME, any]);
    let playtime = playtime.clamp(1, LONGEST_PLAYTIME);
    let (mut first, mut end) = (0, playtime);
    if !build.edited_master && !percent(random, 45) {
        let source = usize::from(source_track).checked_sub(1).filter(|_| percent(random, 80));
        let mut near = || {
            let track = tracks.get(source.unwrap_or(random.place(tracks.len()))).unwrap_or(&tracks[0]);
            let place =
                random.pick(&[track.start, track.end(), track.start.saturating_add(1), track.end().saturating_sub(1)]);
            place.min(playtime)
        };
        let (a, b) = (near(), near());
        first = a.min(b).min(playtime - 1);
        end = a.max(b).max(first + 1);
    }
    let info = &mut build.of.info;
    (info.first, info.end, info.playtime) = (first, end, playtime);
}
