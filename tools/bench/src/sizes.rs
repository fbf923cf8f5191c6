//! How many bytes the parts of a file have, reckoned from document 01's layouts alone.

/// What a chunk of so many bytes of data occupies: name, size, data, pad.
pub const fn chunk(data: u64) -> u64 {
    12 + even(data)
}

const fn even(bytes: u64) -> u64 {
    bytes + bytes % 2
}

/// FRM8's name, size and form, and FVER.
pub const FRONT: u64 = 12 + 4 + chunk(4);

/// PROP's data: its type, FS, CHNL, CMPR, LSCO, and ABSS of a start.
pub const fn prop(channels: u64, dst: bool, start: bool) -> u64 {
    let compression = if dst { 16 } else { 19 };
    4 + chunk(4) + chunk(2 + 4 * channels) + chunk(compression) + chunk(2) + if start { chunk(8) } else { 0 }
}

/// What stands before the first sound byte: the sound chunk's name and size, and FRTE.
pub const fn sound_head(dst: bool) -> u64 {
    12 + if dst { chunk(6) } else { 0 }
}

/// COMT's data: comments whose texts have so many bytes.
pub const fn comt(comments: u64, text: u64) -> u64 {
    2 + comments * (14 + even(text))
}

/// Markers whose texts have so many bytes.
pub const fn marks(markers: u64, text: u64) -> u64 {
    markers * chunk(22 + text)
}

/// Markers of tracks that do not follow each other: the program's start, each start with its title, each stop.
pub const fn program(tracks: u64, title: u64) -> u64 {
    marks(1, 0) + marks(tracks, title) + marks(tracks, 0)
}

/// DIAR or DITI.
pub const fn counted(text: u64) -> u64 {
    chunk(4 + text)
}

/// DSTI's data.
pub const fn dsti(frames: u64) -> u64 {
    12 * frames
}
