//! The keys of a manifest. An unknown one is an error; so is a value that the library cannot be told at all. What it
//! can be told goes to it as it is, and what is wrong with it is the library's to refuse.

use super::names::Named;
use super::table::Table;
use crate::times::Time;
use jangqeruz::{
    ArtistTitleSource, CommentKind, IndexOffset, InfoChunk, Layout, LocalChunk, MarkerKind, PropertyChunk,
};
use serde::de::{self, Deserialize, Deserializer, Visitor};
use std::fmt;
use toml::Spanned;

/// The whole manifest.
pub struct Top {
    pub version: Spanned<u32>,
    pub file: Vec<Table<Entry>>,
}

/// The whole manifest, as serde has it: the keys of the outermost table have places too.
#[derive(serde::Deserialize)]
#[serde(deny_unknown_fields)]
struct TopKeys {
    version: Spanned<u32>,
    #[serde(default)]
    file: Vec<Table<Entry>>,
}

impl<'de> Deserialize<'de> for Top {
    fn deserialize<D: Deserializer<'de>>(deserializer: D) -> Result<Top, D::Error> {
        let Table(TopKeys { version, file }) = Table::deserialize(deserializer)?;
        Ok(Top { version, file })
    }
}

/// A `[[file]]`.
#[derive(serde::Deserialize)]
#[serde(deny_unknown_fields)]
pub struct Entry {
    pub name: Spanned<String>,
    pub source: Table<SourceEntry>,
    pub range: Option<Table<RangeEntry>>,
    pub layout: Option<Named<Layout>>,
    pub playtime: Option<Time>,
    pub absolute_start: Option<Time>,
    pub channel_numbers: Option<Vec<u32>>,
    pub unspecified_loudspeaker_configuration: Option<bool>,
    pub loudspeaker_configuration: Option<bool>,
    pub dst_crc: Option<Spanned<bool>>,
    pub dst_index: Option<bool>,
    pub dst_index_offset: Option<Named<IndexOffset>>,
    pub source_track: Option<u32>,
    pub edited_master: Option<bool>,
    pub edited_master_info: Option<bool>,
    pub edited_master_id: Option<TextOrFalse>,
    pub custom_markers: Option<bool>,
    pub source_track_markers: Option<bool>,
    pub clipped_program: Option<bool>,
    pub marker_titles: Option<bool>,
    pub text_pad_counted: Option<bool>,
    pub artist_title: Option<bool>,
    pub artist_title_source: Option<Named<ArtistTitleSource>>,
    pub album: Option<Table<TextsEntry>>,
    pub source_track_text: Option<Table<TextsEntry>>,
    pub text_replacement: Option<Replacement>,
    pub empty_text: Option<bool>,
    pub empty_info: Option<bool>,
    pub d1: Option<bool>,
    pub d2: Option<bool>,
    pub property_order: Option<Order<PropertyChunk, 5>>,
    pub info_order: Option<Order<InfoChunk, 4>>,
    pub local_order: Option<Vec<Named<LocalChunk>>>,
    #[serde(default)]
    pub track: Vec<Table<TrackEntry>>,
    #[serde(default)]
    pub marker: Vec<Table<MarkerEntry>>,
    #[serde(default)]
    pub comment: Vec<Table<CommentEntry>>,
    #[serde(default)]
    pub chunk: Vec<Table<ChunkEntry>>,
}

impl Entry {
    /// The names of the files that are read for it; the plain content is for CRCs alone.
    pub fn names(&self) -> impl Iterator<Item = &str> {
        let Table(source) = &self.source;
        let crc = self.dst_crc.as_ref().is_some_and(|crc| *crc.get_ref());
        let plain = source.plain.as_ref().filter(|_| crc);
        let sound = [source.raw.as_ref(), source.dst.as_ref(), source.dff.as_ref(), source.lengths.as_ref(), plain];
        let chunks = self.chunk.iter().map(|Table(chunk)| chunk.path.as_ref());
        sound.into_iter().chain(chunks).flatten().map(|name| name.get_ref().as_str())
    }
}

/// The source: which of the keys go together is tested where it is opened.
#[derive(serde::Deserialize)]
#[serde(deny_unknown_fields)]
pub struct SourceEntry {
    pub raw: Option<Spanned<String>>,
    pub dst: Option<Spanned<String>>,
    pub dff: Option<Spanned<String>>,
    pub lengths: Option<Spanned<String>>,
    pub plain: Option<Spanned<String>>,
    pub channels: Option<Spanned<u32>>,
    pub pad: Option<Spanned<bool>>,
}

#[derive(serde::Deserialize)]
#[serde(deny_unknown_fields)]
pub struct RangeEntry {
    pub from: Option<Time>,
    pub to: Option<Time>,
}

/// Artist and title of an album or of a track.
#[derive(serde::Deserialize)]
#[serde(deny_unknown_fields)]
pub struct TextsEntry {
    pub artist: Option<String>,
    pub title: Option<String>,
}

/// A `[[file.track]]`.
#[derive(serde::Deserialize)]
#[serde(deny_unknown_fields)]
pub struct TrackEntry {
    pub start: Time,
    pub duration: Time,
    #[serde(default)]
    pub title: String,
}

/// A `[[file.marker]]`.
#[derive(serde::Deserialize)]
#[serde(deny_unknown_fields)]
pub struct MarkerEntry {
    pub frame: Time,
    pub kind: Named<MarkerKind>,
    #[serde(default)]
    pub track_flags: u16,
    #[serde(default)]
    pub text: String,
}

/// A `[[file.comment]]`.
#[derive(serde::Deserialize)]
#[serde(deny_unknown_fields)]
pub struct CommentEntry {
    pub year: u32,
    pub month: u32,
    pub day: u32,
    #[serde(default)]
    pub hour: u32,
    #[serde(default)]
    pub minutes: u32,
    pub kind: Option<Named<CommentKind>>,
    #[serde(default)]
    pub reference: u32,
    pub text: String,
}

/// A `[[file.chunk]]`: its data is one of the last three.
#[derive(serde::Deserialize)]
#[serde(deny_unknown_fields)]
pub struct ChunkEntry {
    pub name: Spanned<String>,
    pub text: Option<Spanned<String>>,
    pub hex: Option<Spanned<String>>,
    pub path: Option<Spanned<String>>,
}

/// Just N names.
pub struct Order<T, const N: usize>(pub [T; N]);

impl<'de, T: super::names::Names, const N: usize> Deserialize<'de> for Order<T, N> {
    fn deserialize<D: Deserializer<'de>>(deserializer: D) -> Result<Order<T, N>, D::Error> {
        let list: Spanned<Vec<Named<T>>> = Spanned::deserialize(deserializer)?;
        let values: Vec<T> = list.get_ref().iter().map(|Named(value)| *value).collect();
        let count = values.len();
        values.try_into().map(Order).map_err(|_| {
            de::Error::custom(super::table::placed(list.start(), &format!("{count} names where {N} are wanted")))
        })
    }
}

/// A text, or `false` for none.
pub struct TextOrFalse(pub Option<String>);

impl<'de> Deserialize<'de> for TextOrFalse {
    fn deserialize<D: Deserializer<'de>>(deserializer: D) -> Result<TextOrFalse, D::Error> {
        deserializer.deserialize_any(TextOrFalseVisitor)
    }
}

struct TextOrFalseVisitor;

impl Visitor<'_> for TextOrFalseVisitor {
    type Value = TextOrFalse;

    fn expecting(&self, f: &mut fmt::Formatter<'_>) -> fmt::Result {
        f.write_str("a text, or false for none")
    }

    fn visit_str<E: de::Error>(self, text: &str) -> Result<TextOrFalse, E> {
        Ok(TextOrFalse(Some(text.to_string())))
    }

    fn visit_bool<E: de::Error>(self, value: bool) -> Result<TextOrFalse, E> {
        if value { Err(E::invalid_value(de::Unexpected::Bool(true), &self)) } else { Ok(TextOrFalse(None)) }
    }
}

/// One character, or none.
pub struct Replacement(pub Option<char>);

impl<'de> Deserialize<'de> for Replacement {
    fn deserialize<D: Deserializer<'de>>(deserializer: D) -> Result<Replacement, D::Error> {
        deserializer.deserialize_any(ReplacementVisitor)
    }
}

struct ReplacementVisitor;

impl Visitor<'_> for ReplacementVisitor {
    type Value = Replacement;

    fn expecting(&self, f: &mut fmt::Formatter<'_>) -> fmt::Result {
        f.write_str("one character, or \"\" to remove what cannot be written")
    }

    fn visit_str<E: de::Error>(self, text: &str) -> Result<Replacement, E> {
        let mut characters = text.chars();
        match (characters.next(), characters.next()) {
            (first, None) => Ok(Replacement(first)),
            _ => Err(E::invalid_value(de::Unexpected::Str(text), &self)),
        }
    }
}
