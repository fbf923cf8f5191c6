//! The files: name, what is in it, and how it is made.

mod chunks;
mod dsd;
mod dst;

use library::checks::{COMT, DIIN, DSTI, PROP, SOUND};

use crate::case::Case;

/// Orders of the local chunks: the index in front of the sound, and all but PROP behind it.
const INDEX_IN_FRONT: [u8; 5] = [PROP, COMT, DIIN, DSTI, SOUND];
const ALL_BEHIND: [u8; 5] = [PROP, SOUND, DSTI, DIIN, COMT];

/// FS, CHNL, ABSS, LSCO, CMPR.
const CMPR_LAST: [u8; 5] = [0, 1, 3, 4, 2];

pub fn all() -> Vec<Case> {
    [dsd::all(), chunks::all(), dst::all()].into_iter().flatten().collect()
}
