//! The refusals, in checking order.
//!
//! Made by tools/border/border.py from tools/border/refusals.toml and the definitions in crates/*/specs; not edited by hand.

/// Why a build or a read is refused. Each has its number, the words of the rule, and what to do about it.
#[derive(Clone, Copy, Debug, PartialEq, Eq, Hash)]
pub enum Refusal {
    /// 1: A text (EMID and marker texts included) exceeds 1,048,576 values, or tracks exceed 65,535, caller chunks 255,
    /// custom markers 65,535, or one caller chunk 16,777,216 bytes.
    Limits,
    /// 2: A stretch runs outside its pool.
    OutsidePool,
    /// 3: A text value is no Unicode scalar.
    NoScalar,
    /// 4: A caller name has a byte outside 0x20 to 0x7E or a space before a non-space (4, 5: the first at fault).
    CallerName,
    /// 5: A caller name is FRM8, FVER, PROP, "DSD ", "DST ", DSTI, COMT, DIIN or MANF.
    CallerNameReserved,
    /// 6: Playtime exceeds 1,151,999.
    Playtime,
    /// 7: Channels aren't 1 to 6.
    Channels,
    /// 8: Stereo, ThreeTwo, FivePointOne don't have 2, 5, 6 channels.
    LayoutChannels,
    /// 9: DST: lengths don't number end − first, or first exceeds end; DSD: they don't number 0.
    LengthsCount,
    /// 10: A length isn't 1 to 65,536.
    Length,
    /// 11: First exceeds end, or end playtime.
    Range,
    /// 12: First equals end.
    RangeEmpty,
    /// 13: No such source track (13 and 14 not for an edited master).
    SourceTrack,
    /// 14: It doesn't overlap the range.
    SourceTrackOutside,
    /// 15: Edited master (15 to 23): the range isn't 0 to playtime.
    MasterRange,
    /// 16: Unspecified layout.
    MasterLayout,
    /// 17: No tracks, or more than 255.
    MasterTracks,
    /// 18: A track is under 75 frames; detail, the first one's number.
    TrackShort(u64),
    /// 19: Spans empty, out of order or overlapping.
    MasterSpans,
    /// 20: The last ends after 1,151,999.
    MasterEnd,
    /// 21: Custom markers.
    MasterMarkers,
    /// 22: LSCO off.
    MasterLoudspeakers,
    /// 23: EMID off.
    MasterId,
    /// 24: Replacement byte outside 0x20 to 0x7E.
    Replacement,
    /// 25: Unspecified layout: given channel numbers don't number the channels.
    ChannelNumbersCount,
    /// 26: One exceeds 999 (26, 27: the first at fault).
    ChannelNumberLarge,
    /// 27: One repeats.
    ChannelNumberRepeated,
    /// 28: Property order isn't each name once.
    PropertyOrder,
    /// 29: Start + positions exceeds 6,479,999.
    Start,
    /// 30: Info on (30 to 33): info order isn't each name once.
    InfoOrder,
    /// 31: EMID is on with a byte outside 0x20 to 0x7E.
    EditedMasterId,
    /// 32: A marker before first or after end (32, 33: the first at fault).
    MarkerOutside,
    /// 33: Its text has a byte outside 0x20 to 0x7E and, under D2, also outside 0xA0 to 0xFF.
    MarkerText,
    /// 34: Comment month over 12, day 31, hour 23 or minutes 59 (34 to 36: the first at fault).
    CommentDate,
    /// 35: Reference over the channels, 2 or 4 for kinds 1, 2, 3.
    CommentReference,
    /// 36: A 65,536th comment would be written.
    CommentsCount,
    /// 37: Local order repeats.
    LocalOrderRepeats,
    /// 38: It lacks a chunk to be written.
    LocalOrderLacks,
    /// 39: PROP after sound.
    PropertyAfterSound,
    /// 40: Header buffer short; detail, the length needed.
    HeaderShort(u64),
    /// 41: Trailer buffer short; likewise.
    TrailerShort(u64),
    /// 42: Read or query: channels or a length as in 7 or 10, over 1,151,999 positions, or header or trailer over 2^40
    /// bytes.
    NoFile,
    /// 43: Read: the lent lengths or byte counts aren't those of the needed positions (plain content for DSD or CRC,
    /// DST bytes for DST, otherwise empty).
    WronglyLent,
}

/// What is told of a refusal.
pub(crate) struct Told {
    pub words: &'static str,
    pub remedy: &'static str,
    pub definition: &'static str,
}

/// How many refusals there are: the numbers are 1 to this.
pub const REFUSALS: usize = 43;

impl Refusal {
    /// The refusal of this number, which takes the detail if it has one; `None` for a number that is no refusal's.
    pub fn new(number: u64, detail: u64) -> Option<Refusal> {
        match number {
            1 => Some(Refusal::Limits),
            2 => Some(Refusal::OutsidePool),
            3 => Some(Refusal::NoScalar),
            4 => Some(Refusal::CallerName),
            5 => Some(Refusal::CallerNameReserved),
            6 => Some(Refusal::Playtime),
            7 => Some(Refusal::Channels),
            8 => Some(Refusal::LayoutChannels),
            9 => Some(Refusal::LengthsCount),
            10 => Some(Refusal::Length),
            11 => Some(Refusal::Range),
            12 => Some(Refusal::RangeEmpty),
            13 => Some(Refusal::SourceTrack),
            14 => Some(Refusal::SourceTrackOutside),
            15 => Some(Refusal::MasterRange),
            16 => Some(Refusal::MasterLayout),
            17 => Some(Refusal::MasterTracks),
            18 => Some(Refusal::TrackShort(detail)),
            19 => Some(Refusal::MasterSpans),
            20 => Some(Refusal::MasterEnd),
            21 => Some(Refusal::MasterMarkers),
            22 => Some(Refusal::MasterLoudspeakers),
            23 => Some(Refusal::MasterId),
            24 => Some(Refusal::Replacement),
            25 => Some(Refusal::ChannelNumbersCount),
            26 => Some(Refusal::ChannelNumberLarge),
            27 => Some(Refusal::ChannelNumberRepeated),
            28 => Some(Refusal::PropertyOrder),
            29 => Some(Refusal::Start),
            30 => Some(Refusal::InfoOrder),
            31 => Some(Refusal::EditedMasterId),
            32 => Some(Refusal::MarkerOutside),
            33 => Some(Refusal::MarkerText),
            34 => Some(Refusal::CommentDate),
            35 => Some(Refusal::CommentReference),
            36 => Some(Refusal::CommentsCount),
            37 => Some(Refusal::LocalOrderRepeats),
            38 => Some(Refusal::LocalOrderLacks),
            39 => Some(Refusal::PropertyAfterSound),
            40 => Some(Refusal::HeaderShort(detail)),
            41 => Some(Refusal::TrailerShort(detail)),
            42 => Some(Refusal::NoFile),
            43 => Some(Refusal::WronglyLent),
            _ => None,
        }
    }

    /// All refusals, in checking order; those that have a detail have 0.
    pub fn all() -> [Refusal; REFUSALS] {
        [
            Refusal::Limits,
            Refusal::OutsidePool,
            Refusal::NoScalar,
            Refusal::CallerName,
            Refusal::CallerNameReserved,
            Refusal::Playtime,
            Refusal::Channels,
            Refusal::LayoutChannels,
            Refusal::LengthsCount,
            Refusal::Length,
            Refusal::Range,
            Refusal::RangeEmpty,
            Refusal::SourceTrack,
            Refusal::SourceTrackOutside,
            Refusal::MasterRange,
            Refusal::MasterLayout,
            Refusal::MasterTracks,
            Refusal::TrackShort(0),
            Refusal::MasterSpans,
            Refusal::MasterEnd,
            Refusal::MasterMarkers,
            Refusal::MasterLoudspeakers,
            Refusal::MasterId,
            Refusal::Replacement,
            Refusal::ChannelNumbersCount,
            Refusal::ChannelNumberLarge,
            Refusal::ChannelNumberRepeated,
            Refusal::PropertyOrder,
            Refusal::Start,
            Refusal::InfoOrder,
            Refusal::EditedMasterId,
            Refusal::MarkerOutside,
            Refusal::MarkerText,
            Refusal::CommentDate,
            Refusal::CommentReference,
            Refusal::CommentsCount,
            Refusal::LocalOrderRepeats,
            Refusal::LocalOrderLacks,
            Refusal::PropertyAfterSound,
            Refusal::HeaderShort(0),
            Refusal::TrailerShort(0),
            Refusal::NoFile,
            Refusal::WronglyLent,
        ]
    }

    /// Its number, from 1 on.
    pub fn number(&self) -> u32 {
        match self {
            Refusal::Limits => 1,
            Refusal::OutsidePool => 2,
            Refusal::NoScalar => 3,
            Refusal::CallerName => 4,
            Refusal::CallerNameReserved => 5,
            Refusal::Playtime => 6,
            Refusal::Channels => 7,
            Refusal::LayoutChannels => 8,
            Refusal::LengthsCount => 9,
            Refusal::Length => 10,
            Refusal::Range => 11,
            Refusal::RangeEmpty => 12,
            Refusal::SourceTrack => 13,
            Refusal::SourceTrackOutside => 14,
            Refusal::MasterRange => 15,
            Refusal::MasterLayout => 16,
            Refusal::MasterTracks => 17,
            Refusal::TrackShort(_) => 18,
            Refusal::MasterSpans => 19,
            Refusal::MasterEnd => 20,
            Refusal::MasterMarkers => 21,
            Refusal::MasterLoudspeakers => 22,
            Refusal::MasterId => 23,
            Refusal::Replacement => 24,
            Refusal::ChannelNumbersCount => 25,
            Refusal::ChannelNumberLarge => 26,
            Refusal::ChannelNumberRepeated => 27,
            Refusal::PropertyOrder => 28,
            Refusal::Start => 29,
            Refusal::InfoOrder => 30,
            Refusal::EditedMasterId => 31,
            Refusal::MarkerOutside => 32,
            Refusal::MarkerText => 33,
            Refusal::CommentDate => 34,
            Refusal::CommentReference => 35,
            Refusal::CommentsCount => 36,
            Refusal::LocalOrderRepeats => 37,
            Refusal::LocalOrderLacks => 38,
            Refusal::PropertyAfterSound => 39,
            Refusal::HeaderShort(_) => 40,
            Refusal::TrailerShort(_) => 41,
            Refusal::NoFile => 42,
            Refusal::WronglyLent => 43,
        }
    }

    /// Its detail, or 0: of 18 the number of the first track that is too short; of 40 the length needed; of 41 the length needed.
    pub fn detail(&self) -> u64 {
        match *self {
            Refusal::TrackShort(detail) | Refusal::HeaderShort(detail) | Refusal::TrailerShort(detail) => detail,
            _ => 0,
        }
    }

    pub(crate) fn told(&self) -> Told {
        match self {
            Refusal::Limits => Told {
                words: "A text (EMID and marker texts included) exceeds 1,048,576 values, or tracks exceed 65,535, caller chunks 255, custom markers 65,535, or one caller chunk 16,777,216 bytes.",
                remedy: "Shorten the text or the chunk, or give fewer: at most 1,048,576 characters a text, 65,535 tracks, 65,535 custom markers, and 255 caller chunks of at most 16,777,216 bytes each.",
                definition: "crates/rules/specs/Limits.antt: limit_faults",
            },
            Refusal::OutsidePool => Told {
                words: "A stretch runs outside its pool.",
                remedy: "Give 67 words, whole rows, and for each text or data a start and a length that lie inside its pool.",
                definition: "crates/rules/specs/Limits.antt: limit_faults; crates/words/specs/Border.antt: field_faults",
            },
            Refusal::NoScalar => Told {
                words: "A text value is no Unicode scalar.",
                remedy: "Give texts as Unicode scalar values: 0 to 0xD7FF and 0xE000 to 0x10FFFF.",
                definition: "crates/rules/specs/Limits.antt: limit_faults",
            },
            Refusal::CallerName => Told {
                words: "A caller name has a byte outside 0x20 to 0x7E or a space before a non-space (4, 5: the first at fault).",
                remedy: "Name the caller chunk by four characters from space to ~, with spaces at the end only, as in \"ID3 \".",
                definition: "crates/faults/specs/Caller.antt: name_fault",
            },
            Refusal::CallerNameReserved => Told {
                words: "A caller name is FRM8, FVER, PROP, \"DSD \", \"DST \", DSTI, COMT, DIIN or MANF.",
                remedy: "Take another name for the caller chunk: these nine are the format's own.",
                definition: "crates/faults/specs/Caller.antt: name_fault",
            },
            Refusal::Playtime => Told {
                words: "Playtime exceeds 1,151,999.",
                remedy: "Give a playtime of at most 1,151,999 frames (04:15:59:74).",
                definition: "crates/area_rules/specs/Area.antt: area_fault",
            },
            Refusal::Channels => Told {
                words: "Channels aren't 1 to 6.",
                remedy: "Give 1 to 6 channels.",
                definition: "crates/area_rules/specs/Area.antt: area_fault; crates/words/specs/Border.antt: field_faults",
            },
            Refusal::LayoutChannels => Told {
                words: "Stereo, ThreeTwo, FivePointOne don't have 2, 5, 6 channels.",
                remedy: "Give the layout of so many channels (stereo 2, three-two 5, five-point-one 6), or the unspecified layout.",
                definition: "crates/area_rules/specs/Area.antt: area_fault; crates/words/specs/Border.antt: field_faults",
            },
            Refusal::LengthsCount => Told {
                words: "DST: lengths don't number end − first, or first exceeds end; DSD: they don't number 0.",
                remedy: "For DST give one length for each frame of a range that does not end before it begins; for DSD give none.",
                definition: "crates/area_rules/specs/Area.antt: lengths_fault",
            },
            Refusal::Length => Told {
                words: "A length isn't 1 to 65,536.",
                remedy: "Give DST frames of 1 to 65,536 bytes each.",
                definition: "crates/area_rules/specs/Area.antt: lengths_fault",
            },
            Refusal::Range => Told {
                words: "First exceeds end, or end playtime.",
                remedy: "Give a range inside the area: first is at most end, and end at most the playtime.",
                definition: "crates/area_rules/specs/Area.antt: range_fault",
            },
            Refusal::RangeEmpty => Told {
                words: "First equals end.",
                remedy: "Give a range of at least one frame.",
                definition: "crates/area_rules/specs/Area.antt: range_fault",
            },
            Refusal::SourceTrack => Told {
                words: "No such source track (13 and 14 not for an edited master).",
                remedy: "Give the number of one of the tracks, which count from 1 to 65,535 at most, or 0 for none.",
                definition: "crates/area_rules/specs/Master.antt: source_fault; crates/words/specs/Border.antt: field_faults",
            },
            Refusal::SourceTrackOutside => Told {
                words: "It doesn't overlap the range.",
                remedy: "Give the track that the range is of, or a range that has frames of the source track.",
                definition: "crates/area_rules/specs/Master.antt: source_fault",
            },
            Refusal::MasterRange => Told {
                words: "Edited master (15 to 23): the range isn't 0 to playtime.",
                remedy: "Give an edited master the whole area, from 0 to the playtime, or turn edited_master off.",
                definition: "crates/area_rules/specs/Master.antt: master_area_fault",
            },
            Refusal::MasterLayout => Told {
                words: "Unspecified layout.",
                remedy: "Give an edited master a stereo, three-two or five-point-one layout, or turn edited_master off.",
                definition: "crates/area_rules/specs/Master.antt: master_area_fault",
            },
            Refusal::MasterTracks => Told {
                words: "No tracks, or more than 255.",
                remedy: "Give an edited master 1 to 255 tracks: join some of them or make several files. Or turn edited_master off, which allows none and up to 65,535.",
                definition: "crates/area_rules/specs/Master.antt: master_area_fault",
            },
            Refusal::TrackShort(_) => Told {
                words: "A track is under 75 frames; detail, the first one's number.",
                remedy: "Give an edited master tracks of at least 75 frames (a second); the detail is the number of the first that is shorter.",
                definition: "crates/rows/specs/Durations.antt: short_track",
            },
            Refusal::MasterSpans => Told {
                words: "Spans empty, out of order or overlapping.",
                remedy: "Give an edited master its tracks in order, none of them empty, each starting where the one before ends or later.",
                definition: "crates/area_rules/specs/Master.antt: master_tracks_fault",
            },
            Refusal::MasterEnd => Told {
                words: "The last ends after 1,151,999.",
                remedy: "Give an edited master tracks that end at frame 1,151,999 at the latest.",
                definition: "crates/area_rules/specs/Master.antt: master_tracks_fault",
            },
            Refusal::MasterMarkers => Told {
                words: "Custom markers.",
                remedy: "Leave out the custom markers: an edited master has those of its tracks. Or turn edited_master off.",
                definition: "crates/area_rules/specs/Master.antt: master_options_fault",
            },
            Refusal::MasterLoudspeakers => Told {
                words: "LSCO off.",
                remedy: "Turn loudspeaker_configuration on, or edited_master off.",
                definition: "crates/area_rules/specs/Master.antt: master_options_fault",
            },
            Refusal::MasterId => Told {
                words: "EMID off.",
                remedy: "Give an edited_master_id, which may be empty, or turn edited_master off.",
                definition: "crates/area_rules/specs/Master.antt: master_options_fault",
            },
            Refusal::Replacement => Told {
                words: "Replacement byte outside 0x20 to 0x7E.",
                remedy: "Give a replacement from space to ~, or none.",
                definition: "crates/rules/specs/Property.antt: property_faults; crates/words/specs/Border.antt: field_faults",
            },
            Refusal::ChannelNumbersCount => Told {
                words: "Unspecified layout: given channel numbers don't number the channels.",
                remedy: "Give one number for each channel, or no channel numbers.",
                definition: "crates/rules/specs/Property.antt: numbers_fault",
            },
            Refusal::ChannelNumberLarge => Told {
                words: "One exceeds 999 (26, 27: the first at fault).",
                remedy: "Give channel numbers from 0 to 999.",
                definition: "crates/channel_rules/specs/ChannelNumbers.antt: number_fault; crates/words/specs/Border.antt: field_faults",
            },
            Refusal::ChannelNumberRepeated => Told {
                words: "One repeats.",
                remedy: "Give each channel a number of its own.",
                definition: "crates/channel_rules/specs/ChannelNumbers.antt: number_fault",
            },
            Refusal::PropertyOrder => Told {
                words: "Property order isn't each name once.",
                remedy: "Name FS, CHNL, CMPR, ABSS and LSCO in property_order, each once.",
                definition: "crates/rules/specs/Property.antt: property_faults; crates/words/specs/Border.antt: name_faults",
            },
            Refusal::Start => Told {
                words: "Start + positions exceeds 6,479,999.",
                remedy: "Give an earlier start: with the frames of the range it is at most 6,479,999 (23:59:59:74).",
                definition: "crates/rules/specs/Property.antt: start_fault",
            },
            Refusal::InfoOrder => Told {
                words: "Info on (30 to 33): info order isn't each name once.",
                remedy: "Name EMID, MARK, DIAR and DITI in info_order, each once; as words, artist_title and artist_title_source are 0 to 2.",
                definition: "crates/rules/specs/Info.antt: info_faults; crates/words/specs/Border.antt: name_faults",
            },
            Refusal::EditedMasterId => Told {
                words: "EMID is on with a byte outside 0x20 to 0x7E.",
                remedy: "Give an edited_master_id of characters from space to ~.",
                definition: "crates/rules/specs/Info.antt: info_faults",
            },
            Refusal::MarkerOutside => Told {
                words: "A marker before first or after end (32, 33: the first at fault).",
                remedy: "Put each marker at a frame from the range's first to its end, and give it one of the four kinds.",
                definition: "crates/faults/specs/Marks.antt: marker_fault",
            },
            Refusal::MarkerText => Told {
                words: "Its text has a byte outside 0x20 to 0x7E and, under D2, also outside 0xA0 to 0xFF.",
                remedy: "Give marker texts of characters from space to ~, with d2 also U+00A0 to U+00FF.",
                definition: "crates/faults/specs/Marks.antt: marker_fault",
            },
            Refusal::CommentDate => Told {
                words: "Comment month over 12, day 31, hour 23 or minutes 59 (34 to 36: the first at fault).",
                remedy: "Give each comment a date and a time: year up to 65,535, month up to 12, day up to 31, hour up to 23, minutes up to 59.",
                definition: "crates/calendar/specs/Date.antt: stamp_fault; crates/comment_faults/specs/Comments.antt: fault_of",
            },
            Refusal::CommentReference => Told {
                words: "Reference over the channels, 2 or 4 for kinds 1, 2, 3.",
                remedy: "Give a reference up to the number of channels for a channel, 2 for a sound source, 4 for the file's history.",
                definition: "crates/comment_faults/specs/Comments.antt: fault_of",
            },
            Refusal::CommentsCount => Told {
                words: "A 65,536th comment would be written.",
                remedy: "Give at most 65,535 comments that are written.",
                definition: "crates/comment_faults/specs/Comments.antt: fault_of",
            },
            Refusal::LocalOrderRepeats => Told {
                words: "Local order repeats.",
                remedy: "Name each of PROP, COMT, DIIN, SOUND and DSTI once at most in local_order.",
                definition: "crates/local_rules/specs/Local.antt: order_faults; crates/words/specs/Border.antt: name_faults",
            },
            Refusal::LocalOrderLacks => Told {
                words: "It lacks a chunk to be written.",
                remedy: "Name in local_order every chunk that is written: PROP and SOUND, for DST with an index DSTI, with comments COMT, with edited_master_info DIIN.",
                definition: "crates/local_rules/specs/Local.antt: order_faults",
            },
            Refusal::PropertyAfterSound => Told {
                words: "PROP after sound.",
                remedy: "Name PROP before SOUND in local_order.",
                definition: "crates/local_rules/specs/Local.antt: order_faults",
            },
            Refusal::HeaderShort(_) => Told {
                words: "Header buffer short; detail, the length needed.",
                remedy: "Build again with a header buffer of as many bytes as the detail says.",
                definition: "crates/room_rules/specs/Room.antt: room_faults",
            },
            Refusal::TrailerShort(_) => Told {
                words: "Trailer buffer short; likewise.",
                remedy: "Build again with a trailer buffer of as many bytes as the detail says.",
                definition: "crates/room_rules/specs/Room.antt: room_faults",
            },
            Refusal::NoFile => Told {
                words: "Read or query: channels or a length as in 7 or 10, over 1,151,999 positions, or header or trailer over 2^40 bytes.",
                remedy: "Tell a query or read of the file as it was built: its channels, its lengths or positions, its header and its trailer.",
                definition: "crates/read_rules/specs/Fault.antt: format_fault",
            },
            Refusal::WronglyLent => Told {
                words: "Read: the lent lengths or byte counts aren't those of the needed positions (plain content for DSD or CRC, DST bytes for DST, otherwise empty).",
                remedy: "Lend a read just the frames that its query names: their lengths and DST bytes for DST, their plain contents for DSD or with CRCs.",
                definition: "crates/file_read/specs/Read.antt: lent_fault",
            },
        }
    }
}

/// Of 46, which is only of dates and windows that are asked about by themselves; a build takes a comment with any date
/// that 34 allows.
pub(crate) const NO_SUCH_DATE: Told = Told {
    words: "A comment's date must be a Gregorian date with year 1 or later, or have month and day both zero, the sign for an undated note.",
    remedy: "Give a day that its month has, 29 February in leap years only, and a year from 1 on. A comment may also be undated, month and day both 0; a window's start and end may not.",
    definition: "crates/calendar/specs/Date.antt: stamp_fault",
};
