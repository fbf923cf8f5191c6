//! What an entry asks for and its file won't have, though it can be written. Nothing of it is judged or altered here.

use super::entries::{Entry, TextOrFalse};
use jangqeruz::{Area, ArtistTitleSource, CommentKind, MarkerKind, Options, Track};

/// So many notes on titles of tracks are listed, on markers and on comments too; the others are counted.
const MOST_LISTED: usize = 20;

/// The notes on a file, in the words that stand behind `note:`.
pub fn notes(entry: &Entry, area: &Area, options: &Options) -> Vec<String> {
    let info = options.edited_master || options.edited_master_info;
    let mut notes = Vec::new();
    if info {
        switched_off(entry, options, &mut notes);
        info_texts(area, options, &mut notes);
        markers(area, options, &mut notes);
    } else {
        notes
            .extend(without_info(entry).iter().map(|what| format!("edited_master_info is off, so {what} not written")));
    }
    comments(options, &mut notes);
    notes
}

/// What is given of the chunk DIIN.
fn without_info(entry: &Entry) -> Vec<&'static str> {
    let id = matches!(entry.edited_master_id, Some(TextOrFalse(Some(_))));
    let given = [
        (!entry.marker.is_empty(), "markers are"),
        (id, "edited_master_id is"),
        (entry.album.is_some(), "album is"),
        (entry.source_track_text.is_some(), "source_track_text is"),
        (entry.artist_title == Some(true), "artist and title are"),
        (entry.marker_titles == Some(true), "titles of markers are"),
    ];
    given.into_iter().filter(|(given, _)| *given).map(|(_, what)| what).collect()
}

/// What is given and has its own switch off.
fn switched_off(entry: &Entry, options: &Options, notes: &mut Vec<String>) {
    if options.custom_markers.is_none() && !entry.marker.is_empty() {
        notes.push("custom_markers is off, so markers are not written".to_string());
    }
    if !artist_title(options) {
        let given = [(entry.album.is_some(), "album"), (entry.source_track_text.is_some(), "source_track_text")];
        for (_, what) in given.iter().filter(|(given, _)| *given) {
            notes.push(format!("artist_title is off, so {what} is not written"));
        }
    }
}

/// Whether artist and title are written: left out, in an edited master only.
fn artist_title(options: &Options) -> bool {
    options.artist_title.unwrap_or(options.edited_master)
}

/// The number of the track that the file is of; an edited master is of none.
fn source_track(options: &Options) -> Option<u32> {
    Some(options.source_track).filter(|number| *number > 0 && !options.edited_master)
}

fn info_texts(area: &Area, options: &Options, notes: &mut Vec<String>) {
    if artist_title(options) {
        let (album, track) = (&options.album, source_track(options).map(|_| &options.track));
        let texts = [
            ("artist", &album.artist, track.and_then(|track| track.artist.as_ref())),
            ("title", &album.title, track.and_then(|track| track.title.as_ref())),
        ];
        for (what, album, track) in texts {
            let text = match options.artist_title_source {
                ArtistTitleSource::Album => album.as_ref(),
                ArtistTitleSource::Track => track,
                ArtistTitleSource::TrackThenAlbum => track.or(album.as_ref()),
            };
            if let Some(text) = text {
                notes.extend(of_text(what, text, options, !options.empty_text));
            }
        }
    }
    if options.marker_titles {
        let titles = with_start(area, options)
            .filter_map(|(number, track)| of_text(&format!("title of track {number}"), &track.title, options, false));
        listed(notes, "titles of tracks", titles);
    }
}

/// Puts the first of many notes on the same into the list, and how many more there are.
fn listed(notes: &mut Vec<String>, what: &str, mut many: impl Iterator<Item = String>) {
    notes.extend(many.by_ref().take(MOST_LISTED));
    match many.count() {
        0 => {}
        1 => notes.push(format!("and 1 more note on {what}")),
        more => notes.push(format!("and {more} more notes on {what}")),
    }
}

/// The tracks that have a marker for their start, with their numbers.
fn with_start<'a>(area: &'a Area, options: &Options) -> impl Iterator<Item = (u32, &'a Track)> {
    let source = source_track(options);
    let made = match source {
        Some(_) => options.source_track_markers,
        None => disorder(area).is_none() && (whole(area) || options.clipped_program),
    } && options.custom_markers.is_none();
    let numbered = (1..).zip(&area.tracks).filter(move |_| made);
    numbered.filter(move |(number, track)| match source {
        Some(source) => source == *number,
        None => is_left(clipped(track, area)),
    })
}

fn whole(area: &Area) -> bool {
    area.first == 0 && area.end == area.playtime
}

/// From where to where a track goes.
fn full(track: &Track) -> (u32, u32) {
    (track.start, track.start.saturating_add(track.duration))
}

/// What is left of a track in the range.
fn clipped(track: &Track, area: &Area) -> (u32, u32) {
    let (start, end) = full(track);
    (start.max(area.first), end.min(area.end))
}

fn is_left((start, end): (u32, u32)) -> bool {
    start < end
}

/// The number of the first track that begins before the one before it has ended; of the whole playtime, also of the
/// first that is empty. Of a part only what is left of the tracks counts.
fn disorder(area: &Area) -> Option<u32> {
    let mut last = 0;
    let at_fault = |(_, track): &(u32, &Track)| {
        let span = if whole(area) { full(track) } else { clipped(track, area) };
        if !is_left(span) {
            return whole(area);
        }
        let early = span.0 < last;
        last = span.1;
        early
    };
    (1..).zip(&area.tracks).find(at_fault).map(|(number, _)| number)
}

fn markers(area: &Area, options: &Options, notes: &mut Vec<String>) {
    let given = (1..).zip(options.custom_markers.iter().flatten());
    let flagged = given.filter(|(_, marker)| marker.kind != MarkerKind::TrackStart && marker.track_flags != 0);
    let idle = flagged
        .map(|(number, _): (u32, _)| format!("marker {number} is no track-start, so its track_flags are written as 0"));
    listed(notes, "markers", idle);
    let of_tracks = options.custom_markers.is_none() && source_track(options).is_none() && !area.tracks.is_empty();
    if !of_tracks || !whole(area) && !options.clipped_program {
        return;
    }
    if let Some(number) = disorder(area) {
        let words = "tracks are empty, overlap or are out of order, so they make no markers";
        notes.push(format!("{words}; the first of these is track {number}"));
    } else if !area.tracks.iter().any(|track| is_left(clipped(track, area))) {
        notes.push("nothing of the tracks is in the range, so they make no markers".to_string());
    }
}

fn comments(options: &Options, notes: &mut Vec<String>) {
    let each = (1..).zip(&options.comments).flat_map(|(number, comment): (u32, _)| {
        let what = format!("comment {number}");
        let left_out = !options.empty_text && passed(&comment.text, options) == 0;
        let idle = comment.kind == CommentKind::General && comment.reference != 0 && !left_out;
        let reference = idle.then(|| format!("{what} is a general one, so its reference is written as 0"));
        of_text(&what, &comment.text, options, !options.empty_text).into_iter().chain(reference)
    });
    listed(notes, "comments", each);
}

/// The note on a text that isn't written as it is; with `skipped`, on one that comes out empty and is left out.
fn of_text(what: &str, text: &str, options: &Options, skipped: bool) -> Option<String> {
    if skipped && passed(text, options) == 0 {
        return Some(format!("{what}: the text comes out empty, so it is left out"));
    }
    let other = text.chars().filter(|character| !passes(*character, options)).count();
    let (number, are) =
        if other == 1 { ("1 character".to_string(), "is") } else { (format!("{other} characters"), "are") };
    let done = match replacement(options) {
        Some(replacement) => format!("{are} written as `{replacement}`"),
        None => format!("{are} left out"),
    };
    (other > 0).then(|| format!("{what}: {number} {done}"))
}

/// How many characters a text comes out with.
fn passed(text: &str, options: &Options) -> usize {
    let replaced = replacement(options).is_some();
    text.chars().filter(|character| replaced || passes(*character, options)).count()
}

fn passes(character: char, options: &Options) -> bool {
    matches!(character, ' '..='~') || options.d2 && matches!(character, '\u{A0}'..='\u{FF}')
}

/// What stands for a character that a text cannot have; none where it is left out.
fn replacement(options: &Options) -> Option<char> {
    options.text_replacement.filter(|_| !options.d2).and_then(char::from_u32)
}
