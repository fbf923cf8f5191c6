//! The border's numbers of choices.

use library::names::*;

use crate::area::{Kind, Layout};
use crate::chunks::{ArtistTitleSource, CommentKind, IndexOffset, InfoChunk, LocalChunk, MarkerKind, PropertyChunk};

/// A choice that the border has a number for.
pub(crate) trait Value {
    fn value(self) -> u32;
}

/// The number of each case of an enum.
macro_rules! values {
    ($($enum:ident { $($case:ident: $value:ident,)* })*) => {
        $(
            impl Value for $enum {
                fn value(self) -> u32 {
                    match self {
                        $($enum::$case => $value,)*
                    }
                }
            }
        )*
    };
}

values! {
    Kind {
        Dsd: SOUND_DSD,
        Dst: SOUND_DST,
    }
    Layout {
        Stereo: LAYOUT_STEREO,
        ThreeTwo: LAYOUT_THREE_TWO,
        FivePointOne: LAYOUT_FIVE_POINT_ONE,
        Unspecified: LAYOUT_UNSPECIFIED,
    }
    IndexOffset {
        ChunkHeader: OFFSET_CHUNK_HEADER,
        FrameData: OFFSET_FRAME_DATA,
    }
    ArtistTitleSource {
        Album: ARTIST_TITLE_SOURCE_ALBUM,
        Track: ARTIST_TITLE_SOURCE_TRACK,
        TrackThenAlbum: ARTIST_TITLE_SOURCE_TRACK_THEN_ALBUM,
    }
    PropertyChunk {
        Fs: PROPERTY_FS,
        Chnl: PROPERTY_CHNL,
        Cmpr: PROPERTY_CMPR,
        Abss: PROPERTY_ABSS,
        Lsco: PROPERTY_LSCO,
    }
    InfoChunk {
        Emid: INFO_EMID,
        Mark: INFO_MARK,
        Diar: INFO_DIAR,
        Diti: INFO_DITI,
    }
    LocalChunk {
        Prop: LOCAL_PROP,
        Sound: LOCAL_SOUND,
        Dsti: LOCAL_DSTI,
        Diin: LOCAL_DIIN,
        Comt: LOCAL_COMT,
    }
    MarkerKind {
        TrackStart: MARKER_KIND_TRACK_START,
        TrackStop: MARKER_KIND_TRACK_STOP,
        ProgramStart: MARKER_KIND_PROGRAM_START,
        Index: MARKER_KIND_INDEX,
    }
    CommentKind {
        General: COMMENT_KIND_GENERAL,
        Channel: COMMENT_KIND_CHANNEL,
        SoundSource: COMMENT_KIND_SOUND_SOURCE,
        FileHistory: COMMENT_KIND_FILE_HISTORY,
    }
}

impl Value for bool {
    fn value(self) -> u32 {
        u32::from(self)
    }
}

/// A switch that may be left alone.
impl Value for Option<bool> {
    fn value(self) -> u32 {
        match self {
            None => ARTIST_TITLE_UNSET,
            Some(true) => ARTIST_TITLE_ON,
            Some(false) => ARTIST_TITLE_OFF,
        }
    }
}
