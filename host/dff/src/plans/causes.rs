//! What a refusal is about, where its words leave open which track or count it is. Nothing is judged here.

use crate::sources::open::MOST_READ;
use crate::times::counted;
use jangqeruz::{Area, BuildError, CallerChunk, Options, Refusal, Track};

/// The line on the cause of a refusal, if there is more to say; `frames` is how many the source has.
pub fn cause(error: &BuildError, area: &Area, options: &Options, frames: u32) -> Option<String> {
    let BuildError::Refused(refusal) = error else { return None };
    let Area { first, end, playtime, tracks, .. } = area;
    let there_are = there_are(tracks.len(), "track");
    match refusal {
        Refusal::Limits => limited(tracks, options),
        Refusal::LengthsCount if first <= end => None,
        Refusal::LengthsCount | Refusal::Range | Refusal::RangeEmpty => {
            let other = if *playtime == frames { String::new() } else { format!(", the playtime is {playtime}") };
            Some(format!("the source has {}, the range is {first} to {end}{other}", counted(frames)))
        }
        Refusal::SourceTrack => Some(format!("source_track is {}, {there_are}", options.source_track)),
        Refusal::SourceTrackOutside => {
            let number = options.source_track;
            let track = number.checked_sub(1).and_then(|place| tracks.get(usize::try_from(place).ok()?))?;
            let (start, stop) = (track.start, ends(track));
            Some(format!("track {number} is {start} to {stop}, the range is {first} to {end}"))
        }
        Refusal::MasterTracks => Some(there_are),
        Refusal::TrackShort(number) => {
            let track = number.checked_sub(1).and_then(|place| tracks.get(usize::try_from(place).ok()?))?;
            Some(format!("track {number} has {}", counted(track.duration)))
        }
        Refusal::MasterSpans => out_of_order(tracks),
        Refusal::MasterEnd => tracks.last().map(|track| format!("track {} ends at {}", tracks.len(), ends(track))),
        _ => None,
    }
}

/// One past a track's last frame.
fn ends(track: &Track) -> u64 {
    u64::from(track.start) + u64::from(track.duration)
}

fn there_are(count: usize, what: &str) -> String {
    match count {
        1 => format!("there is 1 {what}"),
        count => format!("there are {count} {what}s"),
    }
}

/// All that has a limit, of what there is.
fn limited(tracks: &[Track], options: &Options) -> Option<String> {
    let markers = options.custom_markers.as_ref().map_or(0, Vec::len);
    let counts = [(tracks.len(), "track"), (markers, "marker")].into_iter().filter(|(count, _)| *count > 0);
    let counts = counts.map(|(count, what)| there_are(count, what));
    let parts: Vec<String> = counts.chain(chunks(&options.chunks)).chain(longest_text(tracks, options)).collect();
    Some(parts.join("; ")).filter(|parts| !parts.is_empty())
}

/// How many chunks there are, if any, and the bytes of the longest.
fn chunks(chunks: &[CallerChunk]) -> Option<String> {
    let longest = chunks.iter().map(|chunk| chunk.data.len()).max()?;
    let bytes = match longest {
        1 => "byte",
        read if read as u64 == MOST_READ => "bytes or more",
        _ => "bytes",
    };
    Some(format!("{}, the longest of {longest} {bytes}", there_are(chunks.len(), "chunk")))
}

/// The first of the longest texts, if there is any text.
fn longest_text(tracks: &[Track], options: &Options) -> Option<String> {
    let Options { album, track, edited_master_id, custom_markers, comments, .. } = options;
    let characters = |text: &String| text.chars().count();
    let mut texts: Vec<(String, usize)> = Vec::new();
    for (what, text) in [
        ("the album's artist", &album.artist),
        ("the album's title", &album.title),
        ("the source track's artist", &track.artist),
        ("the source track's title", &track.title),
    ] {
        texts.extend(text.iter().map(|text| (what.to_string(), characters(text))));
    }
    texts.extend(edited_master_id.iter().map(|id| ("edited_master_id".to_string(), id.len())));
    let mut number = |what: &str, counts: &mut dyn Iterator<Item = usize>| {
        texts.extend((1u32..).zip(counts).map(|(number, count)| (format!("{what} {number}"), count)));
    };
    number("the title of track", &mut tracks.iter().map(|track| characters(&track.title)));
    number("the text of marker", &mut custom_markers.iter().flatten().map(|marker| marker.text.len()));
    number("the text of comment", &mut comments.iter().map(|comment| characters(&comment.text)));
    let longer = |one: (String, usize), other: (String, usize)| if other.1 > one.1 { other } else { one };
    let (what, count) = texts.into_iter().reduce(longer).filter(|(_, count)| *count > 0)?;
    let characters = if count == 1 { "1 character".into() } else { format!("{count} characters") };
    Some(format!("the longest text is {what}, {characters}"))
}

/// The first track that is empty, or that begins before the one before it ends.
fn out_of_order(tracks: &[Track]) -> Option<String> {
    let mut last = 0;
    (1u32..).zip(tracks).find_map(|(number, track)| {
        let (start, before) = (track.start, last);
        last = ends(track);
        if track.duration == 0 {
            Some(format!("track {number} is empty"))
        } else {
            let words = || format!("track {number} begins at {start}, track {} ends at {before}", number - 1);
            (u64::from(start) < before).then(words)
        }
    })
}
