//! Drawing cases: an accepted build, of which one to four texts become long.

use library::markers::{OF_ALBUM, OF_TRACK, OF_TRACK_THEN_ALBUM};
use library::text::Extent;

use super::{with_windows, LEAST};
use crate::builds::draw::draw_lengths;
use crate::builds::Case;
use crate::checks::draw::{draw_comments, fit, good, settle_id, Wishes};
use crate::checks::fixed::{marker, track, NONE, TEXTS};
use crate::checks::{Case as Build, Comments, Place, LONGEST_TEXT};
use crate::markers::draw::{draw_bytes, percent};
use crate::markers::TrackOf;
use crate::random::Random;
use crate::text::{draw_other, draw_values, part};

pub fn draw(random: &mut Random) -> Case {
    let count = random.pick(&[1, 1, 1, 1, 2, 2, 3, 4]);
    let places: Vec<Place> = (0..count).map(|_| random.pick(&TEXTS)).collect();
    let of_track = |place: &Place| matches!(place, Place::Tag(2 | 3) | Place::Marker);
    let wishes = Wishes {
        dst: percent(random, 25),
        edited_master: percent(random, 20) && !places.iter().any(of_track),
        unspecified: percent(random, 15),
        info: percent(random, 95),
        custom: places.contains(&Place::Marker) || percent(random, 10),
    };
    let mut build = good(random, &wishes);
    let mut long = Long { values: Vec::new(), bytes: Vec::new() };
    for place in places {
        if percent(random, 90) {
            have_written(random, &mut build, place);
        }
        long.give(random, &mut build, place);
    }
    settle_id(&mut build, false);
    fit(&mut build);
    draw_lengths(random, &mut build);
    with_windows(Case::of(build), random)
}

/// At a limit, or of any number of digits.
fn draw_length(random: &mut Random) -> u32 {
    let digits = random.between(16, 19);
    let any = random.between(1 << digits, (2 << digits) - 1);
    match random.between(0, 29) {
        0 | 1 => random.pick(&[LEAST, LEAST + 1]),
        2 | 3 => random.pick(&[LONGEST_TEXT - 1, LONGEST_TEXT]),
        4 => LONGEST_TEXT + 1,
        _ => any,
    }
}

/// So many elements, drawn one by one, or a few of them in turn.
fn draw_long<T: Copy>(random: &mut Random, length: u32, draw: impl Fn(&mut Random, u32) -> Vec<T>) -> Vec<T> {
    let own = random.pick(&[1, 2, 7, 40, 1_000, length]);
    let drawn = draw(random, own);
    drawn.iter().copied().cycle().take(length as usize).collect()
}

/// The long stretches of the two pools.
struct Long {
    values: Vec<Extent>,
    bytes: Vec<Extent>,
}

impl Long {
    /// Gives the place a long text: one of its own, or a stretch of another's.
    fn give(&mut self, random: &mut Random, build: &mut Build, place: Place) {
        let of_bytes = matches!(place, Place::Emid | Place::Marker);
        let laid = if of_bytes { &mut self.bytes } else { &mut self.values };
        let text = match laid.is_empty() || percent(random, 70) {
            true if of_bytes => lay_bytes(random, build, place == Place::Marker),
            true => lay_values(random, build),
            false => {
                let text = random.pick(laid);
                part(random, text, LEAST.min(text.length))
            }
        };
        laid.push(text);
        point(random, build, place, text);
    }
}

/// A long text at the end of the pool, mostly after other values.
fn lay_values(random: &mut Random, build: &mut Build) -> Extent {
    let length = draw_length(random);
    let between = random.between(0, 3);
    let pool = &mut build.of.pool;
    pool.extend((0..between).map(|_| draw_other(random)));
    let start = pool.len() as u32;
    pool.extend(draw_long(random, length, draw_values));
    Extent { start, length }
}

/// The same of the byte pool.
fn lay_bytes(random: &mut Random, build: &mut Build, of_marker: bool) -> Extent {
    let (length, d2) = (draw_length(random), build.d2() && of_marker);
    let between = random.between(0, 3);
    let raw = &mut build.of.raw;
    raw.extend((0..between).map(|_| random.between(0, 255) as u8));
    let start = raw.len() as u32;
    raw.extend(draw_long(random, length, |random, length| draw_bytes(random, length, d2)));
    Extent { start, length }
}

/// Makes it the text of the place; of one track or marker of several.
fn point(random: &mut Random, build: &mut Build, place: Place, text: Extent) {
    let of = &mut build.of;
    let info = &mut of.info;
    let given = [1, text.start, text.length];
    match place {
        Place::Tag(0) => info.album_artist = given,
        Place::Tag(1) => info.album_title = given,
        Place::Tag(2) => info.track_artist = given,
        Place::Tag(_) => info.track_title = given,
        Place::Emid => info.emid = given,
        Place::Track => {
            if of.tracks.is_empty() {
                of.tracks.push(track(info.first, 75));
            }
            let number = random.place(of.tracks.len());
            of.tracks[number] = TrackOf { title: text, untitled: false, ..of.tracks[number] };
        }
        Place::Marker => {
            if of.custom.is_empty() {
                of.custom.push(marker(info.first, NONE));
            }
            let number = random.place(of.custom.len());
            of.custom[number].text = text;
        }
        _ => {
            let values = of.pool[text.start as usize..][..text.length as usize].to_vec();
            let place = random.place(build.comments.len() + 1);
            let comments = draw_comments(random, of.properties.channels);
            build.comments.insert(place, Comments { text: values, ..comments });
        }
    }
}

/// Sets what decides whether the text of the place is written, so that it mostly is.
fn have_written(random: &mut Random, build: &mut Build, place: Place) {
    let edited_master = build.edited_master;
    let of = &mut build.of;
    let info = &mut of.info;
    info.on = true;
    match place {
        Place::Tag(number) => {
            info.artist_title = true;
            let sources = if number < 2 { [OF_ALBUM, OF_TRACK_THEN_ALBUM] } else { [OF_TRACK, OF_TRACK_THEN_ALBUM] };
            info.artist_title_source = random.pick(&sources);
            if number >= 2 && info.source_track == 0 {
                of.tracks.push(track(info.first, 1));
                info.source_track = of.tracks.len() as u16;
            }
        }
        Place::Track => {
            (info.titles, info.custom_markers) = (true, false);
            (info.source_track_markers, info.clipped_program) = (true, true);
            // One track of the whole range, which surely has a marker.
            if !edited_master && percent(random, 60) {
                of.tracks = vec![track(info.first, info.end - info.first)];
                info.source_track = info.source_track.min(1);
            }
        }
        Place::Marker => info.custom_markers = true,
        _ => {}
    }
}
