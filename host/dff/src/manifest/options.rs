//! What an entry says, in the library's types. Nothing is judged here.

use super::entries::{CommentEntry, Entry, MarkerEntry, Order, Replacement, TextOrFalse, TextsEntry, TrackEntry};
use super::names::Named;
use super::table::Table;
use jangqeruz::{ArtistTitle, Comment, CommentKind, Marker, Options, Track, text_bytes};

/// The entry's options: those that it has, else the defaults. Its chunks are not read here.
pub fn options(entry: &Entry) -> Options {
    let default = Options::default();
    let custom = entry.custom_markers.unwrap_or(!entry.marker.is_empty());
    Options {
        channel_numbers: entry.channel_numbers.clone(),
        unspecified_loudspeaker_configuration: entry
            .unspecified_loudspeaker_configuration
            .unwrap_or(default.unspecified_loudspeaker_configuration),
        loudspeaker_configuration: entry.loudspeaker_configuration.unwrap_or(default.loudspeaker_configuration),
        absolute_start: entry.absolute_start.map_or(default.absolute_start, |time| Some(time.0)),
        dst_crc: entry.dst_crc.as_ref().map_or(default.dst_crc, |given| *given.get_ref()),
        dst_index: entry.dst_index.unwrap_or(default.dst_index),
        dst_index_offset: entry.dst_index_offset.map_or(default.dst_index_offset, |Named(offset)| offset),
        source_track: entry.source_track.unwrap_or(default.source_track),
        edited_master: entry.edited_master.unwrap_or(default.edited_master),
        edited_master_info: entry.edited_master_info.unwrap_or(default.edited_master_info),
        edited_master_id: match &entry.edited_master_id {
            None => default.edited_master_id,
            Some(TextOrFalse(text)) => text.as_deref().map(text_bytes),
        },
        custom_markers: custom.then(|| entry.marker.iter().map(marker).collect()),
        source_track_markers: entry.source_track_markers.unwrap_or(default.source_track_markers),
        clipped_program: entry.clipped_program.unwrap_or(default.clipped_program),
        marker_titles: entry.marker_titles.unwrap_or(default.marker_titles),
        text_pad_counted: entry.text_pad_counted.unwrap_or(default.text_pad_counted),
        artist_title: entry.artist_title.or(default.artist_title),
        artist_title_source: entry.artist_title_source.map_or(default.artist_title_source, |Named(source)| source),
        album: entry.album.as_ref().map_or(default.album, texts),
        track: entry.source_track_text.as_ref().map_or(default.track, texts),
        text_replacement: match entry.text_replacement {
            None => default.text_replacement,
            Some(Replacement(character)) => character.map(u32::from),
        },
        empty_text: entry.empty_text.unwrap_or(default.empty_text),
        empty_info: entry.empty_info.unwrap_or(default.empty_info),
        d1: entry.d1.unwrap_or(default.d1),
        d2: entry.d2.unwrap_or(default.d2),
        property_order: entry.property_order.as_ref().map_or(default.property_order, |Order(order)| *order),
        info_order: entry.info_order.as_ref().map_or(default.info_order, |Order(order)| *order),
        local_order: match &entry.local_order {
            None => default.local_order,
            Some(order) => order.iter().map(|Named(chunk)| *chunk).collect(),
        },
        comments: entry.comment.iter().map(comment).collect(),
        chunks: default.chunks,
    }
}

pub fn tracks(entry: &Entry) -> Vec<Track> {
    let track = |Table(track): &Table<TrackEntry>| Track {
        start: track.start.0,
        duration: track.duration.0,
        title: track.title.clone(),
    };
    entry.track.iter().map(track).collect()
}

fn marker(Table(marker): &Table<MarkerEntry>) -> Marker {
    let Named(kind) = marker.kind;
    Marker { frame: marker.frame.0, kind, track_flags: marker.track_flags, text: text_bytes(&marker.text) }
}

fn comment(Table(comment): &Table<CommentEntry>) -> Comment {
    Comment {
        year: comment.year,
        month: comment.month,
        day: comment.day,
        hour: comment.hour,
        minutes: comment.minutes,
        kind: comment.kind.map_or(CommentKind::General, |Named(kind)| kind),
        reference: comment.reference,
        text: comment.text.clone(),
    }
}

fn texts(Table(texts): &Table<TextsEntry>) -> ArtistTitle {
    ArtistTitle { artist: texts.artist.clone(), title: texts.title.clone() }
}
