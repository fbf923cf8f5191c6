//! Fixed cases: long texts in each place, written and not, on both sides of each limit.

use library::checks::{COMT, DIIN, DSTI, PROP, SOUND};
use library::markers::OF_TRACK;
use library::text::{Extent, D2, REMOVE, REPLACE};

use super::{with_windows, LEAST};
use crate::builds::fixed::{set_order, set_range, with, DSD, DST};
use crate::builds::Case;
use crate::checks::fixed::{comments, marker, plain, set_text, track, Context, Fixed, Part, TEXTS};
use crate::checks::{Case as Build, Comments, Place, LONGEST_TEXT};
use crate::markers::TrackOf;
use crate::random::Random;

/// Values of which a rule takes all, two or three of five.
const MIXED: [u32; 5] = [0x41, 0xE9, 0x10_FFFF, 0x7E, 0x9F];

/// Bytes that EMID can have, and those that a marker can have under D2.
const LETTERS: [u32; 3] = [0x41, 0x20, 0x7E];
const LATIN: [u32; 3] = [0x41, 0xFF, 0xA0];

fn cycled(values: &[u32], length: u32) -> Vec<u32> {
    values.iter().copied().cycle().take(length as usize).collect()
}

/// A long text for the place, with values that the rule does not take where it may have them.
fn values(place: Place, rule: u8, length: u32) -> Vec<u32> {
    match place {
        Place::Marker if rule == D2 => cycled(&LATIN, length),
        Place::Emid | Place::Marker => cycled(&LETTERS, length),
        _ => cycled(&MIXED, length),
    }
}

/// A build that writes the text of this place.
fn writing(context: Context, place: Place) -> Build {
    with(plain(context), |build| {
        set_range(build, 2);
        let info = &mut build.of.info;
        (info.on, info.artist_title, info.titles) = (true, true, true);
        if let Place::Tag(2 | 3) = place {
            (info.source_track, info.artist_title_source) = (1, OF_TRACK);
            build.of.tracks.push(track(0, 2));
        }
    })
}

/// Accepted, or refused with this number, which the original does not have.
fn case(name: &'static str, number: u32, mut build: Build) -> Case {
    build.fixed = Some(Fixed { part: Part::Named(name), ours: number, original: 0 });
    Case::of(build)
}

/// 1 if the text is too long.
fn refusal(length: u32) -> u32 {
    u32::from(length > LONGEST_TEXT)
}

/// The text of this place written, DIIN and COMT before the sound or behind it.
fn written(context: Context, place: Place, rule: u8, length: u32, behind: bool) -> Build {
    with(writing(context, place), |build| {
        build.of.info.conversion.rule = rule;
        set_text(build, place, &values(place, rule, length));
        stand(build, behind);
    })
}

/// DIIN and COMT before the sound, or behind it.
fn stand(build: &mut Build, behind: bool) {
    if behind {
        set_order(build, &[PROP, SOUND, DIIN, COMT, DSTI]);
    }
}

const RULES: [u8; 3] = [REPLACE, REMOVE, D2];

/// Each place on both sides of what two bytes can count, and of the limit.
fn limits(cases: &mut Vec<Case>) {
    for (number, length) in [LEAST - 1, LEAST, LONGEST_TEXT, LONGEST_TEXT + 1].into_iter().enumerate() {
        for (other, place) in TEXTS.into_iter().enumerate() {
            let context = if number % 2 == 0 { DSD } else { DST };
            let build = written(context, place, RULES[(number + other) % 3], length, other % 2 == 1);
            cases.push(case("a long text, at a limit", refusal(length), build));
        }
    }
}

/// Each place by each rule, with pads counted and not, texts odd and even.
fn rules(cases: &mut Vec<Case>) {
    for place in TEXTS {
        for rule in RULES {
            for counted in [false, true] {
                // What is left of these is odd and even, whatever the rule.
                for more in [0, 1, 3] {
                    let mut build = written(DSD, place, rule, LEAST + more, counted == (more == 0));
                    build.of.info.switches.text_pad_counted = counted;
                    cases.push(case("a long text, by each rule", 0, build));
                }
            }
        }
    }
}

/// The longest text in each place, by each rule.
pub fn longest() -> Vec<Case> {
    let mut cases = Vec::new();
    for place in TEXTS {
        for (number, rule) in RULES.into_iter().enumerate() {
            let build = written(DSD, place, rule, LONGEST_TEXT, number % 2 == 1);
            cases.push(case("the longest text, by each rule", 0, build));
        }
    }
    cases
}

/// A text that is not written, and what is changed so that it is not.
type Unwritten = (Place, fn(&mut Build));

const UNWRITTEN: [Unwritten; 11] = [
    (Place::Tag(0), |build| build.of.info.on = false),
    (Place::Tag(1), |build| build.of.info.artist_title = false),
    (Place::Tag(2), |build| build.of.info.source_track = 0),
    (Place::Tag(3), |build| build.of.info.artist_title_source = 0),
    (Place::Emid, |build| build.of.info.on = false),
    (Place::Emid, |build| build.of.info.emid[0] = 0),
    (Place::Track, |build| build.of.info.on = false),
    (Place::Track, |build| build.of.info.titles = false),
    (Place::Marker, |build| build.of.info.on = false),
    (Place::Comment, |build| {
        build.of.info.conversion.rule = REMOVE;
        build.comments[0].text.fill(0x1F);
    }),
    // These are not looked at.
    (Place::Marker, |build| build.of.info.custom_markers = false),
];

/// Both sides of the limit where nothing is written.
fn unwritten(cases: &mut Vec<Case>) {
    for (place, change) in UNWRITTEN {
        for length in [LONGEST_TEXT, LONGEST_TEXT + 1] {
            let mut build = writing(DSD, place);
            set_text(&mut build, place, &cycled(&[0x41], length));
            change(&mut build);
            let tested = place != Place::Marker || build.of.info.custom_markers;
            cases.push(case("a long text that is not written", if tested { refusal(length) } else { 0 }, build));
        }
    }
}

/// One long stretch for artist, title and comments, the middle of it for titles, with short texts around.
fn shared_values(context: Context, length: u32) -> Build {
    with(writing(context, Place::Track), |build| {
        let text = cycled(&MIXED, length);
        set_text(build, Place::Tag(0), &text);
        let info = &mut build.of.info;
        let [_, start, length] = info.album_artist;
        info.album_title = [1, start + 1, length - 1];
        let titles = [[0, 0], [7, LEAST + 1], [8, LEAST], [3, 2]];
        let titled = |(number, [from, length]): (u32, [u32; 2])| TrackOf {
            title: Extent { start: start + from, length },
            ..track(number, 1)
        };
        build.of.tracks = (0..).zip(titles).map(titled).collect();
        set_range(build, titles.len() as u32);
        let note = |from: usize, count| Comments { text: text[from..].to_vec(), ..comments(1, [0, 0], count) };
        build.comments = vec![comments(1, [0, 0], 1), note(0, 2), comments(2, [0, 0], 3), note(1, 1)];
    })
}

/// One long stretch for EMID and markers.
fn shared_bytes(context: Context, length: u32) -> Build {
    with(writing(context, Place::Marker), |build| {
        set_text(build, Place::Emid, &cycled(&LETTERS, length));
        let [_, start, length] = build.of.info.emid;
        let parts = [[0, length], [length, 0], [1, length - 1], [length - 1, 1], [length - LEAST, LEAST]];
        build.of.info.custom_markers = true;
        build.of.custom = parts.map(|[from, length]| marker(0, Extent { start: start + from, length })).to_vec();
    })
}

/// Several long texts in one case, in stretches that overlap.
fn shared(cases: &mut Vec<Case>) {
    for (context, length, behind) in [(DSD, LONGEST_TEXT, false), (DST, 3 * LEAST + 1, true)] {
        for build in [shared_values(context, length), shared_bytes(context, length)] {
            cases.push(case("long texts that overlap", 0, with(build, |build| stand(build, behind))));
        }
    }
}

pub fn fixed() -> Vec<Case> {
    let mut cases = Vec::new();
    for of in [limits, rules, unwritten, shared] {
        of(&mut cases);
    }
    cases.extend(longest());
    let cases = (0..).zip(cases).map(|(number, mut case)| {
        case.build.beside = number + 1;
        with_windows(case, &mut Random::of_case(0, number))
    });
    cases.collect()
}
