//! DSD: channels, and what PROP tells.

use crate::case::Case;

use super::CMPR_LAST;

pub fn all() -> Vec<Case> {
    let dsd = Case::dsd;
    vec![
        dsd("dsd-1ch", "one channel, unspecified", 1, 3),
        dsd("dsd-2ch", "stereo, the defaults", 2, 3),
        dsd("dsd-2ch-1pos", "stereo, one position", 2, 1),
        dsd("dsd-3ch", "unspecified", 3, 3),
        dsd("dsd-4ch", "unspecified", 4, 3),
        dsd("dsd-5ch", "MLFT MRGT C LS RS", 5, 3),
        dsd("dsd-6ch", "MLFT MRGT C LFE LS RS", 6, 3),
        dsd("dsd-2ch-d1", "D1: CMPR counts its pad", 2, 3).d1(),
        dsd("dsd-2ch-cmpr-last", "CMPR is the last of PROP", 2, 3).with(|build| build.properties.order = CMPR_LAST),
        dsd("dsd-2ch-no-lsco", "no LSCO, so that CMPR is the last of PROP", 2, 3)
            .with(|build| build.properties.loudspeaker_configuration = false),
        dsd("dsd-2ch-cmpr-first", "PROP from behind: LSCO ABSS CMPR CHNL FS", 2, 3)
            .start(75)
            .with(|build| build.properties.order = [4, 3, 2, 1, 0]),
        dsd("dsd-2ch-start", "ABSS: frame 6,479,996, 23:59:59", 2, 3).start(6_479_996),
        dsd("dsd-2ch-start-d1", "ABSS and D1", 2, 3).start(6_479_996).d1(),
        dsd("dsd-5ch-d1", "5 channels and D1", 5, 3).d1(),
        dsd("dsd-6ch-d1", "6 channels and D1", 6, 3).d1(),
        dsd("dsd-2ch-numbers", "unspecified, channels C007 C999", 2, 3).numbered(&[7, 999]),
        dsd("dsd-6ch-numbers", "unspecified, six numbers, LSCO 65,535 and D1", 6, 3)
            .numbered(&[5, 4, 3, 2, 1, 0])
            .with(|build| build.properties.unspecified_loudspeaker_configuration = true)
            .d1(),
        dsd("dsd-5ch-lsco", "unspecified, LSCO 65,535", 5, 3).with(|build| {
            build.properties.layout = library::markers::UNSPECIFIED;
            build.properties.unspecified_loudspeaker_configuration = true;
        }),
        dsd("dsd-2ch-range", "positions 5 to 8 of 20", 2, 3).range(5, 20),
        dsd("dsd-2ch-large", "400 positions, D1", 2, 400).d1(),
        dsd("dsd-6ch-large", "150 positions, D1", 6, 150).d1(),
    ]
}
