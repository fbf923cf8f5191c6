//! Making a failing case simpler.

use std::ops::Range;

use library::markers::{self as ours, UNSPECIFIED};
use library::text::{Extent, D2, REPLACE};

use super::draw::{LAST_FRAME, LAYOUTS};
use super::{extent, Case};
use crate::subject::{keep, simplify_list, smaller, Fails, Halt};
use crate::text::shrunk;

const ABSENT: ours::Text = [0; 3];

/// The value that all others become if the case still fails.
const PLAIN: u8 = 0x41;

/// Keeps to cases that the original accepts.
pub fn simplify(case: &mut Case, fails: Fails<'_, Case>) -> Result<(), Halt> {
    simplify_any(case, &mut |case| Ok(is_accepted(case) && fails(case)?))
}

pub fn simplify_any(case: &mut Case, fails: Fails<'_, Case>) -> Result<(), Halt> {
    keep(case, fails, |case| case.info.source_track = 0)?;
    simplify_list(case, |case| case.tracks.len(), without_tracks, fails)?;
    let without_markers = |case: &Case, gone: Range<usize>| {
        let mut simpler = case.clone();
        simpler.custom.drain(gone);
        Some(simpler)
    };
    simplify_list(case, |case| case.custom.len(), without_markers, fails)?;

    for text in TEXTS {
        keep(case, fails, |case| *text(case) = ABSENT)?;
        keep(case, fails, |case| text(case)[0] = text(case)[0].min(1))?;
    }
    for switch in SWITCHES {
        keep(case, fails, |case| *switch(case) = false)?;
    }
    keep(case, fails, |case| case.properties.order = [0, 1, 2, 3, 4])?;
    keep(case, fails, |case| case.info.order = [0, 1, 2, 3])?;
    keep(case, fails, |case| case.properties.numbers.given = false)?;
    let unnumbered = |case: &mut Case| {
        let numbers = &mut case.properties.numbers;
        if !numbers.given {
            (numbers.count, numbers.numbers) = (0, [0; 6]);
        }
    };
    keep(case, fails, unnumbered)?;
    keep(case, fails, |case| {
        (case.properties.layout, (case.properties.channels, case.config)) = (0, LAYOUTS[0]);
    })?;
    keep(case, fails, |case| case.properties.layout = case.properties.layout.min(UNSPECIFIED))?;
    keep(case, fails, |case| set_start(case, false, 0))?;
    if case.properties.start.given {
        let now = case.properties.start.frame;
        smaller(case, fails, now.into(), 0, |case, frame| set_start(case, true, frame as u32))?;
    }
    for rule in REPLACE..case.info.conversion.rule.min(D2 + 1) {
        if keep(case, fails, |case| case.info.conversion.rule = rule)? {
            break;
        }
    }
    keep(case, fails, |case| case.info.conversion.replacement = 0x3F)?;
    keep(case, fails, |case| case.info.artist_title_source = 0)?;

    for number in 0..case.tracks.len() {
        let track = case.tracks[number];
        keep(case, fails, |case| {
            let track = &mut case.tracks[number];
            (track.title, track.untitled) = (Extent::default(), false);
        })?;
        smaller(case, fails, track.duration.into(), 0, |case, now| case.tracks[number].duration = now as u32)?;
        smaller(case, fails, track.start.into(), 0, |case, now| case.tracks[number].start = now as u32)?;
    }
    for number in 0..case.custom.len() {
        let marker = case.custom[number];
        keep(case, fails, |case| case.custom[number].text = Extent::default())?;
        smaller(case, fails, marker.frame.into(), 0, |case, now| case.custom[number].frame = now as u32)?;
        smaller(case, fails, marker.kind.into(), 0, |case, now| case.custom[number].kind = now as u32)?;
        smaller(case, fails, marker.flags.into(), 0, |case, now| case.custom[number].flags = now as u32)?;
    }
    let now = case.info.playtime;
    smaller(case, fails, now.into(), 0, |case, now| {
        case.info.end = case.info.end.min(now as u32);
        case.info.playtime = now as u32;
    })?;
    let now = case.info.end;
    smaller(case, fails, now.into(), 0, |case, now| case.info.end = now as u32)?;
    let now = case.info.first;
    smaller(case, fails, now.into(), 0, |case, now| case.info.first = now as u32)?;

    simplify_list(case, |case| case.pool.len(), without_values, fails)?;
    simplify_list(case, |case| case.raw.len(), without_bytes, fails)?;
    keep(case, fails, |case| case.pool.fill(PLAIN.into()))?;
    keep(case, fails, |case| case.raw.fill(PLAIN))?;
    keep(case, fails, |case| case.buffers = 0)?;
    Ok(())
}

/// Texts that may be missing.
const TEXTS: [fn(&mut Case) -> &mut ours::Text; 5] = [
    |case| &mut case.info.emid,
    |case| &mut case.info.album_artist,
    |case| &mut case.info.album_title,
    |case| &mut case.info.track_artist,
    |case| &mut case.info.track_title,
];

const SWITCHES: [fn(&mut Case) -> &mut bool; 15] = [
    |case| &mut case.properties.dst,
    |case| &mut case.properties.loudspeaker_configuration,
    |case| &mut case.properties.unspecified_loudspeaker_configuration,
    |case| &mut case.properties.d1,
    |case| &mut case.info.on,
    |case| &mut case.info.empty_info,
    |case| &mut case.info.custom_markers,
    |case| &mut case.info.source_track_markers,
    |case| &mut case.info.clipped_program,
    |case| &mut case.info.titles,
    |case| &mut case.info.artist_title,
    |case| &mut case.info.switches.empty_text,
    |case| &mut case.info.switches.text_pad_counted,
    |case| &mut case.unset,
    |case| &mut case.after_sound,
];

fn set_start(case: &mut Case, given: bool, frame: u32) {
    case.properties.start = ours::Start { given, frame };
    case.info.start = case.properties.start;
}

/// Whether the original accepts the case, which is one that it accepted made simpler.
fn is_accepted(case: &Case) -> bool {
    let Case { properties, info, .. } = case;
    let conversion = info.conversion;
    let d2 = conversion.rule >= D2;
    let range = info.first < info.end && info.end <= info.playtime;
    let told = |frame: u32| range && frame <= LAST_FRAME - (info.end - info.first);
    let source = info.source_track == 0
        || case
            .tracks
            .get(usize::from(info.source_track) - 1)
            .is_some_and(|track| info.first.max(track.start) < info.end.min(track.end()));
    let passes = |&byte: &u8| (0x20..=0x7E).contains(&byte) || d2 && byte >= 0xA0;
    let markers = !info.custom_markers
        || case.custom.iter().all(|marker| {
            (info.first..=info.end).contains(&marker.frame) && case.bytes(marker.text).iter().all(passes)
        });
    let tags = case.tags().iter().all(|(_, tag)| tag[0] == 0 || tag[2] > 0);
    let replacement = conversion.rule != REPLACE || (0x20..=0x7E).contains(&conversion.replacement);
    let lengths = !properties.dst || range && info.end - info.first <= 400;
    range
        && (!properties.start.given || told(properties.start.frame))
        && source
        && markers
        && tags
        && replacement
        && lengths
}

/// The case without these tracks; `None` if the source track is one of them.
fn without_tracks(case: &Case, gone: Range<usize>) -> Option<Case> {
    let mut simpler = case.clone();
    simpler.tracks.drain(gone.clone());
    let source = usize::from(case.info.source_track);
    if source > gone.end {
        simpler.info.source_track -= gone.len() as u16;
    } else if source > gone.start {
        return None;
    }
    Some(simpler)
}

fn shrink_text(text: &mut ours::Text, gone: &Range<usize>) {
    if text[0] != 0 {
        let Extent { start, length } = shrunk(extent(*text), gone);
        (text[1], text[2]) = (start, length);
    }
}

/// The case without these values of the pool.
fn without_values(case: &Case, gone: Range<usize>) -> Option<Case> {
    let mut simpler = case.clone();
    simpler.pool.drain(gone.clone());
    for text in &TEXTS[1..] {
        shrink_text(text(&mut simpler), &gone);
    }
    for track in &mut simpler.tracks {
        track.title = shrunk(track.title, &gone);
    }
    Some(simpler)
}

/// The case without these bytes of the byte pool.
fn without_bytes(case: &Case, gone: Range<usize>) -> Option<Case> {
    let mut simpler = case.clone();
    simpler.raw.drain(gone.clone());
    shrink_text(&mut simpler.info.emid, &gone);
    for marker in &mut simpler.custom {
        marker.text = shrunk(marker.text, &gone);
    }
    Some(simpler)
}
