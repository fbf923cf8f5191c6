//! Names for the border's numbers: the places of a build's words, the values of those that choose, the places in rows.
//!
//! Made by tools/border/border.py from tools/border/words.toml; not edited by hand.

/// How many words a build has.
pub const WORDS: usize = 67;

/// Switch: on for DST, off for DSD.
pub const WORD_SOUND: usize = 0;
/// Frames of the area.
pub const WORD_PLAYTIME: usize = 1;
/// 1 to 6.
pub const WORD_CHANNELS: usize = 2;
/// The speakers.
pub const WORD_LAYOUT: usize = 3;
/// The range's first frame.
pub const WORD_FIRST: usize = 4;
/// One past its last.
pub const WORD_END: usize = 5;
/// Switch: the channels of an unspecified layout have the numbers below.
pub const WORD_CHANNEL_NUMBERS_GIVEN: usize = 6;
/// How many numbers.
pub const WORD_CHANNEL_NUMBERS_COUNT: usize = 7;
/// The numbers, 0 to 999 (6 words).
pub const WORD_CHANNEL_NUMBERS: usize = 8;
/// Switch: LSCO for an unspecified layout.
pub const WORD_UNSPECIFIED_LOUDSPEAKER_CONFIGURATION: usize = 14;
/// Switch: LSCO for the other layouts.
pub const WORD_LOUDSPEAKER_CONFIGURATION: usize = 15;
/// Switch: there is a start.
pub const WORD_ABSOLUTE_START_GIVEN: usize = 16;
/// The frame that the file starts at: ABSS.
pub const WORD_ABSOLUTE_START: usize = 17;
/// Switch: a CRC, DSTC, after each DST frame.
pub const WORD_DST_CRC: usize = 18;
/// Switch: the index, DSTI, of a DST file.
pub const WORD_DST_INDEX: usize = 19;
/// Switch: where an entry of the index leads.
pub const WORD_DST_INDEX_OFFSET: usize = 20;
/// The track that the range is of, 1 to 65,535; 0 for none.
pub const WORD_SOURCE_TRACK: usize = 21;
/// Switch: an edited master.
pub const WORD_EDITED_MASTER: usize = 22;
/// Switch: DIIN.
pub const WORD_EDITED_MASTER_INFO: usize = 23;
/// Switch: EMID in DIIN.
pub const WORD_EDITED_MASTER_ID_WRITTEN: usize = 24;
/// EMID's bytes: start and length in raw (2 words).
pub const WORD_EDITED_MASTER_ID: usize = 25;
/// Switch: the markers are those given, not made from tracks.
pub const WORD_CUSTOM_MARKERS: usize = 27;
/// Switch: a source track gives markers.
pub const WORD_SOURCE_TRACK_MARKERS: usize = 28;
/// Switch: markers also of a range that is not the whole area.
pub const WORD_CLIPPED_PROGRAM: usize = 29;
/// Switch: a track's start has its title.
pub const WORD_MARKER_TITLES: usize = 30;
/// Switch: the pad of DIAR, DITI and MARK is inside their sizes.
pub const WORD_TEXT_PAD_COUNTED: usize = 31;
/// DIAR and DITI in DIIN.
pub const WORD_ARTIST_TITLE: usize = 32;
/// Whose artist and title.
pub const WORD_ARTIST_TITLE_SOURCE: usize = 33;
/// Text: given or not, start and length in pool (3 words).
pub const WORD_ALBUM_ARTIST: usize = 34;
/// Text: given or not, start and length in pool (3 words).
pub const WORD_ALBUM_TITLE: usize = 37;
/// Text of the source track: given or not, start and length in pool (3 words).
pub const WORD_TRACK_ARTIST: usize = 40;
/// Text of the source track: given or not, start and length in pool (3 words).
pub const WORD_TRACK_TITLE: usize = 43;
/// Switch: a value that is no text byte is replaced, not removed.
pub const WORD_TEXT_REPLACEMENT_GIVEN: usize = 46;
/// By this byte, 0x20 to 0x7E.
pub const WORD_TEXT_REPLACEMENT: usize = 47;
/// Switch: texts without bytes are written.
pub const WORD_EMPTY_TEXT: usize = 48;
/// Switch: a DIIN without chunks is written.
pub const WORD_EMPTY_INFO: usize = 49;
/// Switch, departure D1: the pad counted inside CMPR.
pub const WORD_D1: usize = 50;
/// Switch, departure D2: texts in ISO 8859-1; what else there is vanishes, and the replacement is idle.
pub const WORD_D2: usize = 51;
/// The chunks of PROP, each once (5 words).
pub const WORD_PROPERTY_ORDER: usize = 52;
/// The chunks of DIIN, each once (4 words).
pub const WORD_INFO_ORDER: usize = 57;
/// The chunks of the file, none twice (5 words).
pub const WORD_LOCAL_ORDER: usize = 61;
/// How many of these names count.
pub const WORD_LOCAL_ORDER_COUNT: usize = 66;

/// The words that are switches, on if not 0.
pub const SWITCHES: [usize; 25] = [
    0, 6, 14, 15, 16, 18, 19, 20, 22, 23, 24, 27, 28, 29, 30, 31, 34, 37, 40, 43, 46, 48, 49, 50, 51,
];

// The kind of sound.
/// Plain DSD.
pub const SOUND_DSD: u32 = 0;
/// DST frames.
pub const SOUND_DST: u32 = 1;

// The speakers.
/// 2 channels.
pub const LAYOUT_STEREO: u32 = 0;
/// 5 channels.
pub const LAYOUT_THREE_TWO: u32 = 1;
/// 6 channels.
pub const LAYOUT_FIVE_POINT_ONE: u32 = 2;
/// 1 to 6 channels, named by numbers.
pub const LAYOUT_UNSPECIFIED: u32 = 3;

// Where an entry of the index leads.
/// To the header of the frame's DSTF.
pub const OFFSET_CHUNK_HEADER: u32 = 0;
/// To its data.
pub const OFFSET_FRAME_DATA: u32 = 1;

// Whether DIIN has artist and title.
/// In an edited master only.
pub const ARTIST_TITLE_UNSET: u32 = 0;
/// It has.
pub const ARTIST_TITLE_ON: u32 = 1;
/// It has not.
pub const ARTIST_TITLE_OFF: u32 = 2;

// Whose artist and title.
/// The album's.
pub const ARTIST_TITLE_SOURCE_ALBUM: u32 = 0;
/// The source track's.
pub const ARTIST_TITLE_SOURCE_TRACK: u32 = 1;
/// The source track's, or else the album's.
pub const ARTIST_TITLE_SOURCE_TRACK_THEN_ALBUM: u32 = 2;

// A chunk of PROP.
/// Sample rate.
pub const PROPERTY_FS: u32 = 0;
/// Channels.
pub const PROPERTY_CHNL: u32 = 1;
/// Compression.
pub const PROPERTY_CMPR: u32 = 2;
/// Absolute start.
pub const PROPERTY_ABSS: u32 = 3;
/// Speakers.
pub const PROPERTY_LSCO: u32 = 4;

// A chunk of DIIN.
/// Edited master ID.
pub const INFO_EMID: u32 = 0;
/// All markers.
pub const INFO_MARK: u32 = 1;
/// Artist.
pub const INFO_DIAR: u32 = 2;
/// Title.
pub const INFO_DITI: u32 = 3;

// A chunk of the file.
/// Properties.
pub const LOCAL_PROP: u32 = 0;
/// The sound, DSD or DST.
pub const LOCAL_SOUND: u32 = 1;
/// Index.
pub const LOCAL_DSTI: u32 = 2;
/// Edited master information.
pub const LOCAL_DIIN: u32 = 3;
/// Comments.
pub const LOCAL_COMT: u32 = 4;

// The kind of a marker.
/// A track starts.
pub const MARKER_KIND_TRACK_START: u32 = 0;
/// A track stops.
pub const MARKER_KIND_TRACK_STOP: u32 = 1;
/// The program starts.
pub const MARKER_KIND_PROGRAM_START: u32 = 2;
/// An index inside a track.
pub const MARKER_KIND_INDEX: u32 = 4;

// The kind of a comment.
/// No reference.
pub const COMMENT_KIND_GENERAL: u32 = 0;
/// Reference: a channel, 0 for all.
pub const COMMENT_KIND_CHANNEL: u32 = 1;
/// Reference: 0 to 2.
pub const COMMENT_KIND_SOUND_SOURCE: u32 = 2;
/// Reference: 0 to 4.
pub const COMMENT_KIND_FILE_HISTORY: u32 = 3;

// The places in a row of a track.
/// Words a row.
pub const TRACK_ROW_WORDS: usize = 4;
/// First frame, in the area.
pub const TRACK_ROW_START: usize = 0;
/// Frames.
pub const TRACK_ROW_DURATION: usize = 1;
/// Its title in pool.
pub const TRACK_ROW_TITLE_START: usize = 2;
pub const TRACK_ROW_TITLE_LENGTH: usize = 3;

// The places in a row of a custom marker.
/// Words a row.
pub const MARKER_ROW_WORDS: usize = 4;
/// Its frame, in the area.
pub const MARKER_ROW_FRAME: usize = 0;
/// The kind times 65,536, and the flags of a track's start.
pub const MARKER_ROW_KIND_AND_FLAGS: usize = 1;
/// Its text in raw.
pub const MARKER_ROW_TEXT_START: usize = 2;
pub const MARKER_ROW_TEXT_LENGTH: usize = 3;

// The places in a row of a comment.
/// Words a row.
pub const COMMENT_ROW_WORDS: usize = 9;
pub const COMMENT_ROW_YEAR: usize = 0;
pub const COMMENT_ROW_MONTH: usize = 1;
pub const COMMENT_ROW_DAY: usize = 2;
pub const COMMENT_ROW_HOUR: usize = 3;
pub const COMMENT_ROW_MINUTES: usize = 4;
/// Its kind.
pub const COMMENT_ROW_KIND: usize = 5;
/// What it is about.
pub const COMMENT_ROW_REFERENCE: usize = 6;
/// Its text in pool.
pub const COMMENT_ROW_TEXT_START: usize = 7;
pub const COMMENT_ROW_TEXT_LENGTH: usize = 8;

// The places in a row of a chunk of the caller's own.
/// Words a row.
pub const CALLER_ROW_WORDS: usize = 3;
/// Its four bytes as one number, the first byte highest.
pub const CALLER_ROW_NAME: usize = 0;
/// Its data in raw.
pub const CALLER_ROW_DATA_START: usize = 1;
pub const CALLER_ROW_DATA_LENGTH: usize = 2;
