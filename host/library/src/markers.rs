//! PROP and DIIN. A function answers how many bytes the whole has. What does not fit in `out` is dropped; bytes past
//! the whole stay.

use crate::exports;
use crate::names;
use crate::text::{Conversion, Switches};

/// Where a file starts, if that is given.
#[derive(Clone, Copy, Debug, Default, PartialEq)]
pub struct Start {
    pub given: bool,
    pub frame: u32,
}

/// The numbers of an unspecified layout's channels, if they are given.
#[derive(Clone, Copy, Debug, Default, PartialEq)]
pub struct ChannelNumbers {
    pub given: bool,
    pub count: u32,
    pub numbers: [u16; 6],
}

pub const STEREO: u8 = names::LAYOUT_STEREO as u8;
pub const THREE_TWO: u8 = names::LAYOUT_THREE_TWO as u8;
pub const FIVE_POINT_ONE: u8 = names::LAYOUT_FIVE_POINT_ONE as u8;
/// And all above.
pub const UNSPECIFIED: u8 = names::LAYOUT_UNSPECIFIED as u8;

/// What PROP tells.
#[derive(Clone, Copy, Debug, Default, PartialEq)]
pub struct Properties {
    /// FS is 0, CHNL 1, CMPR 2, ABSS 3, LSCO 4 and all above.
    pub order: [u8; 5],
    pub dst: bool,
    pub layout: u8,
    pub channels: u8,
    pub numbers: ChannelNumbers,
    pub start: Start,
    pub loudspeaker_configuration: bool,
    pub unspecified_loudspeaker_configuration: bool,
    pub d1: bool,
}

/// A text that may be missing: whether it is given (0: no), start, length.
pub type Text = [u32; 3];

/// A track: start, duration, start and length of its title in the pool.
pub type Track = [u32; 4];

/// A marker: frame, kind and flags in one, start and length of its text in the byte pool.
pub type Marker = [u32; 4];

pub const TRACK_START: u32 = names::MARKER_KIND_TRACK_START;
pub const TRACK_STOP: u32 = names::MARKER_KIND_TRACK_STOP;
pub const PROGRAM_START: u32 = names::MARKER_KIND_PROGRAM_START;
/// And all but the other three.
pub const INDEX: u32 = names::MARKER_KIND_INDEX;

pub const OF_ALBUM: u8 = names::ARTIST_TITLE_SOURCE_ALBUM as u8;
pub const OF_TRACK: u8 = names::ARTIST_TITLE_SOURCE_TRACK as u8;
/// And all above.
pub const OF_TRACK_THEN_ALBUM: u8 = names::ARTIST_TITLE_SOURCE_TRACK_THEN_ALBUM as u8;

/// What DIIN tells.
#[derive(Clone, Copy, Debug, Default, PartialEq)]
pub struct Info {
    /// EMID is 0, the markers 1, DIAR 2, DITI 3 and all above.
    pub order: [u8; 4],
    pub on: bool,
    pub empty_info: bool,
    /// Of the byte pool.
    pub emid: Text,
    pub custom_markers: bool,
    pub first: u32,
    pub end: u32,
    pub playtime: u32,
    /// 1 to 65,535; 0 for none.
    pub source_track: u16,
    pub source_track_markers: bool,
    pub clipped_program: bool,
    pub titles: bool,
    pub start: Start,
    pub conversion: Conversion,
    pub switches: Switches,
    pub artist_title: bool,
    pub artist_title_source: u8,
    pub album_artist: Text,
    pub album_title: Text,
    pub track_artist: Text,
    pub track_title: Text,
}

/// What texts, tracks and markers are read from.
#[derive(Clone, Copy)]
pub struct Lent<'a> {
    pub pool: &'a [u32],
    pub raw: &'a [u8],
    pub tracks: &'a [Track],
    pub custom: &'a [Marker],
}

/// The chunk PROP.
pub fn property(out: &mut [u8], properties: &Properties) -> usize {
    let Properties { order, dst, layout, channels, numbers, start, .. } = properties;
    // SAFETY: each pointer is of a live array, or with its length of one live slice; the library writes to `out` only
    // and keeps none of them.
    unsafe {
        exports::jangqeruz_property(
            out.as_mut_ptr(),
            out.len(),
            order,
            *dst,
            *layout,
            *channels,
            numbers.given,
            numbers.count,
            &numbers.numbers,
            start.given,
            start.frame,
            properties.loudspeaker_configuration,
            properties.unspecified_loudspeaker_configuration,
            properties.d1,
        )
    }
}

/// The chunk DIIN; nothing if it is off, or if it would be empty and that is not wanted.
pub fn diin(out: &mut [u8], lent: Lent<'_>, info: &Info) -> usize {
    let (tracks, custom) = (lent.tracks.as_flattened(), lent.custom.as_flattened());
    // SAFETY: as in `property`.
    unsafe {
        exports::jangqeruz_diin(
            out.as_mut_ptr(),
            out.len(),
            lent.pool.as_ptr(),
            lent.pool.len(),
            lent.raw.as_ptr(),
            lent.raw.len(),
            tracks.as_ptr(),
            tracks.len(),
            custom.as_ptr(),
            custom.len(),
            &info.order,
            info.on,
            info.empty_info,
            &info.emid,
            info.custom_markers,
            info.first,
            info.end,
            info.playtime,
            info.source_track,
            info.source_track_markers,
            info.clipped_program,
            info.titles,
            info.start.given,
            info.start.frame,
            info.conversion.rule,
            info.conversion.replacement,
            info.switches.empty_text,
            info.switches.text_pad_counted,
            info.artist_title,
            info.artist_title_source,
            &info.album_artist,
            &info.album_title,
            &info.track_artist,
            &info.track_title,
        )
    }
}
