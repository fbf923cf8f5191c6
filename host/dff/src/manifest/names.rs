//! Values that are one of some names, and the names.

use jangqeruz::{
    ArtistTitleSource, CommentKind, IndexOffset, InfoChunk, Layout, LocalChunk, MarkerKind, PropertyChunk,
};
use serde::de::{self, Deserialize, Deserializer, Visitor};
use std::fmt;
use std::marker::PhantomData;

/// What has names in a manifest.
pub trait Names: Copy + 'static {
    const NAMES: &'static [(&'static str, Self)];
}

/// A value given by its name.
#[derive(Clone, Copy, Debug)]
pub struct Named<T>(pub T);

impl<'de, T: Names> Deserialize<'de> for Named<T> {
    fn deserialize<D: Deserializer<'de>>(deserializer: D) -> Result<Named<T>, D::Error> {
        deserializer.deserialize_any(NameVisitor(PhantomData))
    }
}

struct NameVisitor<T>(PhantomData<T>);

impl<T: Names> Visitor<'_> for NameVisitor<T> {
    type Value = Named<T>;

    fn expecting(&self, f: &mut fmt::Formatter<'_>) -> fmt::Result {
        let names: Vec<String> = T::NAMES.iter().map(|(name, _)| format!("\"{name}\"")).collect();
        write!(f, "one of {}", names.join(", "))
    }

    fn visit_str<E: de::Error>(self, text: &str) -> Result<Named<T>, E> {
        let found = T::NAMES.iter().find(|(name, _)| *name == text);
        found.map(|(_, value)| Named(*value)).ok_or_else(|| E::invalid_value(de::Unexpected::Str(text), &self))
    }
}

impl Names for Layout {
    const NAMES: &'static [(&'static str, Layout)] = &[
        ("stereo", Layout::Stereo),
        ("three-two", Layout::ThreeTwo),
        ("five-point-one", Layout::FivePointOne),
        ("unspecified", Layout::Unspecified),
    ];
}

impl Names for IndexOffset {
    const NAMES: &'static [(&'static str, IndexOffset)] =
        &[("chunk-header", IndexOffset::ChunkHeader), ("frame-data", IndexOffset::FrameData)];
}

impl Names for ArtistTitleSource {
    const NAMES: &'static [(&'static str, ArtistTitleSource)] = &[
        ("album", ArtistTitleSource::Album),
        ("track", ArtistTitleSource::Track),
        ("track-then-album", ArtistTitleSource::TrackThenAlbum),
    ];
}

impl Names for MarkerKind {
    const NAMES: &'static [(&'static str, MarkerKind)] = &[
        ("track-start", MarkerKind::TrackStart),
        ("track-stop", MarkerKind::TrackStop),
        ("program-start", MarkerKind::ProgramStart),
        ("index", MarkerKind::Index),
    ];
}

impl Names for CommentKind {
    const NAMES: &'static [(&'static str, CommentKind)] = &[
        ("general", CommentKind::General),
        ("channel", CommentKind::Channel),
        ("sound-source", CommentKind::SoundSource),
        ("file-history", CommentKind::FileHistory),
    ];
}

impl Names for PropertyChunk {
    const NAMES: &'static [(&'static str, PropertyChunk)] = &[
        ("FS", PropertyChunk::Fs),
        ("CHNL", PropertyChunk::Chnl),
        ("CMPR", PropertyChunk::Cmpr),
        ("ABSS", PropertyChunk::Abss),
        ("LSCO", PropertyChunk::Lsco),
    ];
}

impl Names for InfoChunk {
    const NAMES: &'static [(&'static str, InfoChunk)] =
        &[("EMID", InfoChunk::Emid), ("MARK", InfoChunk::Mark), ("DIAR", InfoChunk::Diar), ("DITI", InfoChunk::Diti)];
}

impl Names for LocalChunk {
    const NAMES: &'static [(&'static str, LocalChunk)] = &[
        ("PROP", LocalChunk::Prop),
        ("SOUND", LocalChunk::Sound),
        ("DSTI", LocalChunk::Dsti),
        ("DIIN", LocalChunk::Diin),
        ("COMT", LocalChunk::Comt),
    ];
}
