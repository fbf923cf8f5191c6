//! DST: frames, CRC, index.

use crate::case::Case;
use crate::sound::Frames::{Coded, Plain, Random};

use super::{ALL_BEHIND, CMPR_LAST, INDEX_IN_FRONT};

const ODD: &[u32] = &[1, 3, 5, 777, 4_001];
const EVEN: &[u32] = &[2, 4, 6, 778, 4_002];
const MIXED: &[u32] = &[3, 4, 1_001, 2_000, 1, 2];

pub fn all() -> Vec<Case> {
    let plain = |name, what| Case::dst(name, what, 2, 3, Plain);
    let crc = |case: Case| case.with(|build| build.dst_crc = true);
    let data = |case: Case| case.with(|build| build.frame_data = true);
    let no_index = |case: Case| case.with(|build| build.dst_index = false);
    let random = |name, what, positions, lengths| Case::dst(name, what, 2, positions, Random(lengths));
    vec![
        Case::dst("dst-1ch", "one channel, unspecified", 1, 3, Plain),
        plain("dst-2ch", "stereo, index behind"),
        Case::dst("dst-3ch", "unspecified", 3, 3, Plain),
        Case::dst("dst-4ch", "unspecified", 4, 3, Plain),
        Case::dst("dst-5ch", "MLFT MRGT C LS RS", 5, 3, Plain),
        Case::dst("dst-6ch", "MLFT MRGT C LFE LS RS", 6, 3, Plain),
        plain("dst-front", "index in front").order(INDEX_IN_FRONT),
        no_index(plain("dst-none", "no index")),
        data(plain("dst-data", "index behind, leads to the frames' data")),
        data(plain("dst-data-front", "index in front, leads to the frames' data")).order(INDEX_IN_FRONT),
        crc(plain("dst-crc", "CRC, index behind")),
        crc(plain("dst-crc-front", "CRC, index in front")).order(INDEX_IN_FRONT),
        no_index(crc(plain("dst-crc-none", "CRC, no index"))),
        data(crc(plain("dst-crc-data-front", "CRC, index in front, leads to the data"))).order(INDEX_IN_FRONT),
        crc(Case::dst("dst-6ch-crc", "6 channels, CRC", 6, 3, Plain)),
        Case::dst("dst-1ch-coded", "frames that are really coded", 1, 3, Coded),
        Case::dst("dst-2ch-coded", "the same, stereo", 2, 5, Coded),
        crc(Case::dst("dst-6ch-coded", "the same, 6 channels, CRC", 6, 3, Coded)),
        random("dst-odd", "frames of 1, 3, 5, 777 and 4,001 bytes", 5, ODD),
        random("dst-even", "frames of 2, 4, 6, 778 and 4,002 bytes", 5, EVEN),
        crc(random("dst-mixed-crc", "frames of odd and even lengths, CRC, index in front", 12, MIXED))
            .order(INDEX_IN_FRONT),
        no_index(random("dst-mixed-none", "frames of odd and even lengths, no index", 12, MIXED)),
        random("dst-one", "one frame of one byte", 1, &[1]),
        random("dst-longest", "frames of 65,536 and 65,535 bytes", 2, &[65_536, 65_535]),
        plain("dst-d1", "D1, which moves nothing for DST").d1(),
        plain("dst-start", "ABSS, CMPR the last of PROP").start(75).with(|build| build.properties.order = CMPR_LAST),
        Case::dst("dst-range", "positions 5 to 8 of 20, channels C009 C008", 2, 3, Plain)
            .range(5, 20)
            .numbered(&[9, 8]),
        crc(Case::dst("dst-everything", "CRC, DIIN, COMT, tag and caller chunks behind", 2, 75, Plain))
            .order(ALL_BEHIND)
            .start(75)
            .info()
            .emid("EVERYTHING")
            .artist_title("An Artist", "A Long Title")
            .track(0, 75, "one")
            .comment(0, 0, "a comment")
            .caller(b"ODD ", b"12345")
            .id3("Tag Title", "Tag Artist"),
        Case::dst("dst-edited-master", "an edited master of one track", 2, 75, Plain)
            .with(|build| build.edited_master = true)
            .emid("MASTER-1")
            .artist_title("An Artist", "A Long Title")
            .track(0, 75, "one"),
        crc(random("dst-large", "400 positions of odd and even lengths, CRC", 400, MIXED)),
    ]
}
