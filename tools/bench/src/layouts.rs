//! Layouts of the original, from the first position on, with the options at their defaults, but for texts.

use crate::error::{Error, Slot};
use crate::image::SectorFormat;
use crate::output::{Comment, CommentKind, MarkerText, TagItem, TagSet, Tags};
use crate::output::{DstLengths, Format, InvalidDst, Layout, OutputOptions, SourceTrack};
use crate::toc::{Area, AreaKind, AreaPointer, AreaText, Date, DiscText, Genre, MasterToc, Timecode, Toc, Version};
use crate::toc::{Track, TrackText};

/// What the layout of a file is made from, besides the lengths of DST frames.
pub struct Inputs {
    toc: Toc,
    options: OutputOptions,
    positions: u32,
}

/// The texts of a file. Comments are general, without a date.
pub struct Texts {
    pub tracks: Vec<TitledTrack>,
    pub artist: String,
    pub title: String,
    pub comments: Vec<String>,
}

/// A track, from a position on, of so many positions.
pub struct TitledTrack {
    pub start: u32,
    pub duration: u32,
    pub title: String,
}

impl Inputs {
    pub fn new(channels: u8, positions: u32, crc: bool) -> Inputs {
        let options = OutputOptions::default().with_source_track(SourceTrack::None).with_tags(Tags::Set(TagSet::new()));
        Inputs { toc: toc(channels, positions), options: options.with_dsdiff_dst_crc(crc), positions }
    }

    /// The same with DIIN and COMT: the artist and the title, the tracks with their titles as texts of the markers, and the
    /// comments.
    pub fn with_texts(mut self, texts: &Texts) -> Inputs {
        let mut tags = TagSet::new();
        tags.set(TagItem::AlbumArtist, &texts.artist);
        tags.set(TagItem::Album, &texts.title);
        let comment = |text: &String| Comment::new(CommentKind::General, text);
        let options = self.options.with_dsdiff_edited_master_info(true).with_dsdiff_artist_title(Some(true));
        let options = options.with_tags(Tags::Set(tags)).with_dsdiff_marker_text(MarkerText::TrackTitle);
        self.options = options.with_dsdiff_comments(texts.comments.iter().map(comment).collect());
        self.toc.areas[0].tracks =
            (1..=u8::MAX).cycle().zip(&texts.tracks).map(|(number, track)| titled(number, track)).collect();
        self
    }

    /// A file of DSD sound.
    pub fn dsd(&self) -> Result<Layout, Error> {
        Layout::new(&self.toc, Slot::TwoChannel, 0, self.positions, Format::DsdiffDsd, &self.options)
    }

    /// A file of DST sound, a frame for each length.
    pub fn dst(&self, lengths: Vec<u32>) -> Result<Layout, Error> {
        let area = &self.toc.areas[0];
        let lengths = DstLengths::from_lengths(area, 0, self.positions, InvalidDst::Stored, lengths)?;
        Layout::new_dst(&self.toc, &lengths, &self.options)
    }
}

/// A track of the table of contents. Its number is a byte, and a build goes by its place.
fn titled(number: u8, track: &TitledTrack) -> Track {
    let TitledTrack { start, duration, title } = track;
    Track {
        number,
        start_lsn: 0,
        length_sectors: 0,
        start_frame: *start,
        duration_frames: *duration,
        start_flags: 0,
        duration_flags: 0,
        isrc: None,
        genre: None,
        text: TrackText { title: Some(title.clone()), ..TrackText::default() },
    }
}

/// A table of contents with one area, of so many frames (up to 255 minutes).
fn toc(channels: u8, frames: u32) -> Toc {
    let version = Version { major: 1, minor: 0 };
    let genre = Genre { category: 0, index: 0 };
    let pointer = AreaPointer { toc1_lsn: 0, toc2_lsn: 0, toc_sectors: 0 };
    let playtime =
        Timecode { minutes: (frames / 4_500) as u8, seconds: (frames / 75 % 60) as u8, frames: (frames % 75) as u8 };
    let area = Area {
        slot: Slot::TwoChannel,
        kind: AreaKind::TwoChannel,
        version,
        toc_lsn: 0,
        toc_sectors: 0,
        max_byte_rate: 0,
        sample_frequency_code: 4,
        frame_format: 0,
        channel_count: channels,
        area_config: 0,
        max_available_channels: 0,
        area_mute_flags: 0,
        track_attribute: 0,
        playtime,
        track_offset: 0,
        audio_start_lsn: 0,
        audio_end_lsn: u32::MAX,
        text_channel_count: 0,
        locales: Vec::new(),
        text_charset: 0,
        text: AreaText::default(),
        tracks: Vec::new(),
    };
    Toc {
        sector_format: SectorFormat::Plain,
        sectors: u64::MAX,
        master: MasterToc {
            version,
            album_set_size: 0,
            album_sequence_number: 0,
            album_catalog_number: String::new(),
            album_catalog_number_stored: Vec::new(),
            album_genres: [genre; 4],
            two_channel: pointer,
            multichannel: pointer,
            disc_flags: 0,
            disc_catalog_number: String::new(),
            disc_catalog_number_stored: Vec::new(),
            disc_genres: [genre; 4],
            date: Date { year: 0, month: 0, day: 0 },
            text_channel_count: 0,
            locales: Vec::new(),
            text_charset: 0,
            text: DiscText::default(),
            manufacturer: None,
        },
        areas: vec![area],
    }
}
