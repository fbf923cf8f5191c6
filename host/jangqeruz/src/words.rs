//! Area and options as the library takes them: words, pools and rows.

use library::checks::Lent;
use library::names::*;

use crate::area::Area;
use crate::chunks::ArtistTitle;
use crate::errors::BuildError;
use crate::options::Options;
use crate::pools::{Pool, Stretch, rows};
use crate::values::Value;

/// All that a build is lent, but for the lengths.
pub(crate) struct Inputs {
    pub(crate) words: [u32; WORDS],
    texts: Pool<u32>,
    raw: Pool<u8>,
    tracks: Vec<u32>,
    markers: Vec<u32>,
    comments: Vec<u32>,
    callers: Vec<u32>,
}

impl Inputs {
    pub(crate) fn new(area: &Area, options: &Options) -> Result<Inputs, BuildError> {
        let (mut texts, mut raw) = (Pool::default(), Pool::default());
        let mut words = [0; WORDS];
        put_area(&mut words, area);
        put_choices(&mut words, options);
        put_orders(&mut words, options);
        put_texts(&mut words, options, &mut texts, &mut raw)?;
        let tracks = rows(&area.tracks, |track| {
            let [start, length] = texts.text(&track.title)?;
            Ok::<[u32; TRACK_ROW_WORDS], _>([track.start, track.duration, start, length])
        })?;
        let markers = rows(options.custom_markers.as_deref().unwrap_or_default(), |marker| {
            let [start, length] = raw.bytes(&marker.text)?;
            let kind_and_flags = marker.kind.value() << 16 | u32::from(marker.track_flags);
            Ok::<[u32; MARKER_ROW_WORDS], _>([marker.frame, kind_and_flags, start, length])
        })?;
        let comments = rows(&options.comments, |comment| {
            let [start, length] = texts.text(&comment.text)?;
            let kind = comment.kind.value();
            let [year, month, day] = [comment.year, comment.month, comment.day];
            let [hour, minutes, reference] = [comment.hour, comment.minutes, comment.reference];
            Ok::<[u32; COMMENT_ROW_WORDS], _>([year, month, day, hour, minutes, kind, reference, start, length])
        })?;
        let callers = rows(&options.chunks, |chunk| {
            let [start, length] = raw.bytes(&chunk.data)?;
            Ok::<[u32; CALLER_ROW_WORDS], _>([u32::from_be_bytes(chunk.name), start, length])
        })?;
        Ok(Inputs { words, texts, raw, tracks, markers, comments, callers })
    }

    pub(crate) fn lent<'a>(&'a self, lengths: &'a [u32]) -> Lent<'a> {
        Lent {
            pool: self.texts.values(),
            raw: self.raw.values(),
            tracks: &self.tracks,
            markers: &self.markers,
            comments: &self.comments,
            callers: &self.callers,
            lengths,
        }
    }
}

/// Puts values into the words from a place on.
fn put(words: &mut [u32; WORDS], place: usize, values: impl IntoIterator<Item = u32>) {
    for (word, value) in words.iter_mut().skip(place).zip(values) {
        *word = value;
    }
}

/// As many as there are, as a word.
fn count<T>(items: &[T]) -> u32 {
    u32::try_from(items.len()).unwrap_or(u32::MAX)
}

fn put_area(words: &mut [u32; WORDS], area: &Area) {
    words[WORD_SOUND] = area.kind.value();
    words[WORD_PLAYTIME] = area.playtime;
    words[WORD_CHANNELS] = area.channels;
    words[WORD_LAYOUT] = area.layout.value();
    words[WORD_FIRST] = area.first;
    words[WORD_END] = area.end;
}

fn put_choices(words: &mut [u32; WORDS], options: &Options) {
    // The border has six numbers; of more it is told how many, and refuses them by that.
    let numbers = options.channel_numbers.as_deref();
    words[WORD_CHANNEL_NUMBERS_GIVEN] = numbers.is_some().value();
    words[WORD_CHANNEL_NUMBERS_COUNT] = count(numbers.unwrap_or_default());
    put(words, WORD_CHANNEL_NUMBERS, numbers.unwrap_or_default().iter().copied().take(6));
    words[WORD_UNSPECIFIED_LOUDSPEAKER_CONFIGURATION] = options.unspecified_loudspeaker_configuration.value();
    words[WORD_LOUDSPEAKER_CONFIGURATION] = options.loudspeaker_configuration.value();
    words[WORD_ABSOLUTE_START_GIVEN] = options.absolute_start.is_some().value();
    words[WORD_ABSOLUTE_START] = options.absolute_start.unwrap_or_default();
    words[WORD_DST_CRC] = options.dst_crc.value();
    words[WORD_DST_INDEX] = options.dst_index.value();
    words[WORD_DST_INDEX_OFFSET] = options.dst_index_offset.value();
    words[WORD_SOURCE_TRACK] = options.source_track;
    words[WORD_EDITED_MASTER] = options.edited_master.value();
    words[WORD_EDITED_MASTER_INFO] = options.edited_master_info.value();
    words[WORD_EDITED_MASTER_ID_WRITTEN] = options.edited_master_id.is_some().value();
    words[WORD_CUSTOM_MARKERS] = options.custom_markers.is_some().value();
    words[WORD_SOURCE_TRACK_MARKERS] = options.source_track_markers.value();
    words[WORD_CLIPPED_PROGRAM] = options.clipped_program.value();
    words[WORD_MARKER_TITLES] = options.marker_titles.value();
    words[WORD_TEXT_PAD_COUNTED] = options.text_pad_counted.value();
    words[WORD_ARTIST_TITLE] = options.artist_title.value();
    words[WORD_ARTIST_TITLE_SOURCE] = options.artist_title_source.value();
    words[WORD_TEXT_REPLACEMENT_GIVEN] = options.text_replacement.is_some().value();
    words[WORD_TEXT_REPLACEMENT] = options.text_replacement.unwrap_or_default();
    words[WORD_EMPTY_TEXT] = options.empty_text.value();
    words[WORD_EMPTY_INFO] = options.empty_info.value();
    words[WORD_D1] = options.d1.value();
    words[WORD_D2] = options.d2.value();
}

fn put_orders(words: &mut [u32; WORDS], options: &Options) {
    put(words, WORD_PROPERTY_ORDER, options.property_order.map(Value::value));
    put(words, WORD_INFO_ORDER, options.info_order.map(Value::value));
    // More than five names repeat one; the count says so.
    put(words, WORD_LOCAL_ORDER, options.local_order.iter().take(5).map(|chunk| chunk.value()));
    words[WORD_LOCAL_ORDER_COUNT] = count(&options.local_order);
}

fn put_texts(
    words: &mut [u32; WORDS],
    options: &Options,
    texts: &mut Pool<u32>,
    raw: &mut Pool<u8>,
) -> Result<(), BuildError> {
    let id: Stretch = raw.bytes(options.edited_master_id.as_deref().unwrap_or_default())?;
    put(words, WORD_EDITED_MASTER_ID, id);
    let ArtistTitle { artist: album_artist, title: album_title } = &options.album;
    let ArtistTitle { artist: track_artist, title: track_title } = &options.track;
    for (place, text) in [
        (WORD_ALBUM_ARTIST, album_artist),
        (WORD_ALBUM_TITLE, album_title),
        (WORD_TRACK_ARTIST, track_artist),
        (WORD_TRACK_TITLE, track_title),
    ] {
        if let Some(text) = text {
            let [start, length] = texts.text(text)?;
            put(words, place, [1, start, length]);
        }
    }
    Ok(())
}

#[cfg(test)]
mod tests;
