//! What a caller chooses.

use crate::chunks::{
    ArtistTitle, ArtistTitleSource, CallerChunk, Comment, IndexOffset, InfoChunk, LocalChunk, Marker, PropertyChunk,
};

/// The options of a build. `Options::default()` has the library's defaults; for each field there is a method that sets
/// it and hands the options on. Any value can be given: those that no file can have are refused by the build.
#[derive(Clone, Debug, PartialEq, Eq)]
pub struct Options {
    /// The numbers of an unspecified layout's channels, up to 999; `None` for 0 upward.
    pub channel_numbers: Option<Vec<u32>>,
    /// LSCO of an unspecified layout is written.
    pub unspecified_loudspeaker_configuration: bool,
    /// LSCO of a defined layout is written. On by default.
    pub loudspeaker_configuration: bool,
    /// The frame of the day at which the file starts (ABSS); `None` for no such chunk.
    pub absolute_start: Option<u32>,
    /// A CRC of its plain content follows each DST frame.
    pub dst_crc: bool,
    /// A DST file has an index. On by default.
    pub dst_index: bool,
    /// What the index leads to. `ChunkHeader` by default.
    pub dst_index_offset: IndexOffset,
    /// The number of the track that the range is of, 1 to 65,535; 0 for none. One that is greater, or past the tracks,
    /// is refused (13).
    pub source_track: u32,
    /// The file is an edited master, of which the format asks more (refusals 15 to 23).
    pub edited_master: bool,
    /// There is a DIIN with the edited master's information.
    pub edited_master_info: bool,
    /// The edited master's ID (EMID), up to 1,048,576 bytes 0x20 to 0x7E; `None` for no such chunk. Empty by default.
    pub edited_master_id: Option<Vec<u8>>,
    /// These markers, even if there are none; `None` for those that tracks make.
    pub custom_markers: Option<Vec<Marker>>,
    /// A source track has markers: those of its frames in the range.
    pub source_track_markers: bool,
    /// A range that is not the whole area has markers too, of the tracks as they are clipped to it.
    pub clipped_program: bool,
    /// A track's start marker has its title.
    pub marker_titles: bool,
    /// The pad behind a text is inside the size of its chunk.
    pub text_pad_counted: bool,
    /// Artist and title are written; `None`: in an edited master only.
    pub artist_title: Option<bool>,
    /// Which artist and title. `Album` by default.
    pub artist_title_source: ArtistTitleSource,
    /// The album's artist and title.
    pub album: ArtistTitle,
    /// The source track's artist and title.
    pub track: ArtistTitle,
    /// What stands for a character that no file takes; `None`: it is removed. `?` by default.
    pub text_replacement: Option<u32>,
    /// Texts and comments that are empty once converted are written.
    pub empty_text: bool,
    /// An empty DIIN is written. On by default.
    pub empty_info: bool,
    /// Departure D1: the size of an odd CMPR counts the pad.
    pub d1: bool,
    /// Departure D2: texts in ISO 8859-1.
    pub d2: bool,
    /// The order of PROP's chunks.
    pub property_order: [PropertyChunk; 5],
    /// The order of DIIN's chunks.
    pub info_order: [InfoChunk; 4],
    /// The order of the file's chunks. Those that are not written need not be named.
    pub local_order: Vec<LocalChunk>,
    /// The comments. Up to 65,535 are written.
    pub comments: Vec<Comment>,
    /// The caller's own chunks.
    pub chunks: Vec<CallerChunk>,
}

impl Default for Options {
    fn default() -> Options {
        Options {
            channel_numbers: None,
            unspecified_loudspeaker_configuration: false,
            loudspeaker_configuration: true,
            absolute_start: None,
            dst_crc: false,
            dst_index: true,
            dst_index_offset: IndexOffset::ChunkHeader,
            source_track: 0,
            edited_master: false,
            edited_master_info: false,
            edited_master_id: Some(Vec::new()),
            custom_markers: None,
            source_track_markers: false,
            clipped_program: false,
            marker_titles: false,
            text_pad_counted: false,
            artist_title: None,
            artist_title_source: ArtistTitleSource::Album,
            album: ArtistTitle::default(),
            track: ArtistTitle::default(),
            text_replacement: Some(u32::from('?')),
            empty_text: false,
            empty_info: true,
            d1: false,
            d2: false,
            property_order: [
                PropertyChunk::Fs,
                PropertyChunk::Chnl,
                PropertyChunk::Cmpr,
                PropertyChunk::Abss,
                PropertyChunk::Lsco,
            ],
            info_order: [InfoChunk::Emid, InfoChunk::Mark, InfoChunk::Diar, InfoChunk::Diti],
            local_order: vec![
                LocalChunk::Prop,
                LocalChunk::Comt,
                LocalChunk::Diin,
                LocalChunk::Sound,
                LocalChunk::Dsti,
            ],
            comments: Vec::new(),
            chunks: Vec::new(),
        }
    }
}

/// A method for each field.
macro_rules! setters {
    ($($field:ident: $type:ty,)*) => {
        impl Options {
            /// The defaults.
            pub fn new() -> Options {
                Options::default()
            }

            $(
                #[doc = concat!("These options with this `", stringify!($field), "`.")]
                #[must_use]
                pub fn $field(mut self, $field: $type) -> Options {
                    self.$field = $field;
                    self
                }
            )*
        }
    };
}

setters! {
    channel_numbers: Option<Vec<u32>>,
    unspecified_loudspeaker_configuration: bool,
    loudspeaker_configuration: bool,
    absolute_start: Option<u32>,
    dst_crc: bool,
    dst_index: bool,
    dst_index_offset: IndexOffset,
    source_track: u32,
    edited_master: bool,
    edited_master_info: bool,
    edited_master_id: Option<Vec<u8>>,
    custom_markers: Option<Vec<Marker>>,
    source_track_markers: bool,
    clipped_program: bool,
    marker_titles: bool,
    text_pad_counted: bool,
    artist_title: Option<bool>,
    artist_title_source: ArtistTitleSource,
    album: ArtistTitle,
    track: ArtistTitle,
    text_replacement: Option<u32>,
    empty_text: bool,
    empty_info: bool,
    d1: bool,
    d2: bool,
    property_order: [PropertyChunk; 5],
    info_order: [InfoChunk; 4],
    local_order: Vec<LocalChunk>,
    comments: Vec<Comment>,
    chunks: Vec<CallerChunk>,
}
