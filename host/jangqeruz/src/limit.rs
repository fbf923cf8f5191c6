//! How much a build is given, and a limit on what it makes of it.

use crate::area::Area;
use crate::errors::{BuildError, Measured};
use crate::options::Options;

/// How many characters all texts have that are given, and bytes the edited master's ID, the markers' texts and the
/// caller's chunks, whether they are written or not. A character is at most one byte of the file.
///
/// Memory and time of a verdict and a build, and the length of header and trailer, grow with this; beside it there are
/// 34 bytes for each marker, 14 for each comment, 12 for each chunk and entry of the index, and some hundred. It is
/// added up without the library: a host that is given texts and chunks by others turns away by it what is too much,
/// before it asks for a verdict. [`File::build_within`](crate::File::build_within) does so.
///
/// ```
/// use jangqeruz::{Area, ArtistTitle, Kind, Layout, Options, given_bytes};
///
/// let artist = ArtistTitle { artist: Some("Dvořák".into()), title: None };
/// let options = Options::default().album(artist).edited_master_id(Some(b"ID 1".to_vec()));
/// assert_eq!(given_bytes(&Area::new(Kind::Dsd, 2, Layout::Stereo, 1), &options), 6 + 4);
/// ```
pub fn given_bytes(area: &Area, options: &Options) -> u64 {
    let Options { edited_master_id, custom_markers, album, track, comments, chunks, .. } = options;
    let texts = [&album.artist, &album.title, &track.artist, &track.title].into_iter().flatten();
    let texts = texts.chain(area.tracks.iter().map(|track| &track.title));
    let texts = texts.chain(comments.iter().map(|comment| &comment.text));
    let raw = edited_master_id.iter().chain(custom_markers.iter().flatten().map(|marker| &marker.text));
    let raw = raw.chain(chunks.iter().map(|chunk| &chunk.data));
    let counts = texts.map(|text| text.chars().count()).chain(raw.map(Vec::len));
    counts.fold(0, |sum, count| sum.saturating_add(count as u64))
}

/// An error if what was measured is above the limit.
pub(crate) fn within(limit: u64, measured: Measured, bytes: u64) -> Result<(), BuildError> {
    if bytes > limit { Err(BuildError::AboveLimit { measured, bytes, limit }) } else { Ok(()) }
}
