//! DSD with DIIN, COMT and caller chunks. Most have D1, without which WavPack does not get as far as these chunks.

use library::markers::{INDEX, PROGRAM_START, TRACK_START, TRACK_STOP};

use crate::case::Case;

use super::ALL_BEHIND;

/// Texts of odd and even lengths.
const ARTIST: &str = "An Artist";
const TITLE: &str = "A Long Title";
const LATIN: &str = "Café à Zürich";

pub fn all() -> Vec<Case> {
    let dsd = |name, what, positions| Case::dsd(name, what, 2, positions).d1();
    vec![
        dsd("diin", "EMID, MARKs of two tracks, DIAR, DITI, before the sound", 150)
            .info()
            .emid("EM-0001")
            .artist_title(ARTIST, TITLE)
            .track(0, 75, "one")
            .track(75, 75, "two"),
        Case::dsd("diin-no-d1", "the same DIIN of given texts, without D1", 2, 3)
            .info()
            .emid("EM-0001")
            .artist_title(ARTIST, TITLE),
        dsd("diin-behind", "EMID, DIAR, DITI behind the sound", 3)
            .info()
            .emid("EM-0001")
            .artist_title(ARTIST, TITLE)
            .order(ALL_BEHIND),
        dsd("diin-pads-counted", "odd texts, their pads inside the sizes; an odd EMID", 3)
            .info()
            .with(|build| build.info.switches.text_pad_counted = true)
            .emid("ODD")
            .artist_title(ARTIST, "odd title")
            .marker(0, TRACK_START, 0, "odd")
            .marker(3, TRACK_STOP, 0, "even"),
        dsd("diin-empty", "DIIN without contents, before the sound", 3).info().no_emid(),
        dsd("diin-empty-behind", "DIIN without contents, behind the sound", 3).info().no_emid().order(ALL_BEHIND),
        dsd("diin-empty-emid", "DIIN with an EMID of no bytes", 3).info(),
        dsd("diin-markers", "given MARKs of all kinds, odd and even texts", 3)
            .info()
            .emid("12")
            .marker(0, PROGRAM_START, 0, "")
            .marker(0, TRACK_START, 3, "first")
            .marker(1, INDEX, 0, "an index")
            .marker(3, TRACK_STOP, 0, "the end"),
        dsd("diin-titles", "MARKs with the titles of tracks, clipped to positions 5 to 8 of 20", 3)
            .range(5, 20)
            .info()
            .with(|build| (build.info.clipped_program, build.info.titles) = (true, true))
            .track(0, 6, "one")
            .track(6, 14, "track two"),
        many_tracks(),
        dsd("comt-before", "two comments, odd and even, before the sound", 3)
            .comment(0, 0, "odd")
            .comment(1, 2, "even"),
        dsd("comt-behind", "three comments behind the sound", 3)
            .order(ALL_BEHIND)
            .comment(0, 0, "odd")
            .comment(2, 1, "a source")
            .comment(3, 4, "history"),
        Case::dsd("comt-no-d1", "a comment, without D1", 2, 3).comment(0, 0, "even"),
        dsd("comt-long", "a comment of 1,000,000 characters, before the sound", 3).comment(0, 0, &notes()),
        dsd("comt-long-behind", "the same and a short one behind the sound", 3)
            .order(ALL_BEHIND)
            .comment(0, 0, &notes())
            .comment(3, 4, "history"),
        dsd("diin-long-marker", "MARKs, the second with a text of 1,000,000 characters", 3)
            .info()
            .emid("12")
            .marker(0, PROGRAM_START, 0, "")
            .marker(1, INDEX, 0, &notes())
            .marker(3, TRACK_STOP, 0, "the end"),
        dsd("diin-long-texts", "EMID, DIAR and DITI of 1,000,000 characters", 3)
            .info()
            .emid(&notes())
            .artist_title(&notes(), &notes()),
        dsd("d2", "D2: texts in ISO 8859-1", 3)
            .info()
            .with(|build| build.d2 = true)
            .emid("EM")
            .artist_title(LATIN, LATIN)
            .comment(0, 0, LATIN),
        dsd("ascii", "the same texts without D2: replaced by ?", 3)
            .info()
            .emid("EM")
            .artist_title(LATIN, LATIN)
            .comment(0, 0, LATIN),
        dsd("id3", "a caller chunk \"ID3 \" with an ID3v2.3 tag, of odd size", 3).id3("Tag Title", "Tag Artist"),
        dsd("id3-even", "the same, of even size", 3).id3("Tag Title.", "Tag Artist"),
        Case::dsd("id3-no-d1", "an ID3 tag, without D1", 2, 3).id3("Tag Title", "Tag Artist"),
        dsd("callers", "caller chunks of even, odd and zero size", 3)
            .caller(b"EVEN", b"1234")
            .caller(b"ODD ", b"12345")
            .caller(b"ZERO", b"")
            .caller(b"BYTE", b"\xFF"),
        dsd("callers-odd-last", "one caller chunk of odd size, the last of the file", 3).caller(b"ODD ", b"123"),
        dsd("callers-zero-last", "one caller chunk of zero size, the last of the file", 3).caller(b"ZERO", b""),
        dsd("callers-zero-first", "a caller chunk of zero size, then a tag", 3)
            .caller(b"ZERO", b"")
            .id3("Tag Title", "Tag Artist"),
        dsd("everything", "DIIN, COMT, tag and caller chunks, all behind the sound", 150)
            .order(ALL_BEHIND)
            .start(75)
            .info()
            .emid("EVERYTHING")
            .artist_title(ARTIST, TITLE)
            .track(0, 75, "one")
            .track(75, 75, "two")
            .comment(0, 0, "a comment")
            .caller(b"ODD ", b"12345")
            .id3("Tag Title", "Tag Artist"),
        Case::dsd("edited-master", "an edited master of two tracks", 2, 150)
            .with(|build| build.edited_master = true)
            .emid("MASTER-1")
            .artist_title(ARTIST, TITLE)
            .track(0, 75, "one")
            .track(75, 75, "two"),
        dsd("edited-master-d1", "the same with D1", 150)
            .with(|build| build.edited_master = true)
            .emid("MASTER-1")
            .artist_title(ARTIST, TITLE)
            .track(0, 75, "one")
            .track(75, 75, "two"),
    ]
}

/// A frame each, with a frame between every fourth and the next.
fn many_tracks() -> Case {
    let what = "MARKs with the titles of 2,000 tracks, of which every fourth has a stop";
    let case = Case::dsd("diin-2000-tracks", what, 1, 2_500).d1().info().with(|build| build.info.titles = true);
    (0..2_000).fold(case, |case, place| case.track(place + place / 4, 1, &format!("Item {}", place + 1)))
}

/// 1,000,000 characters, no two places alike.
fn notes() -> String {
    (0..100_000).map(|number| format!("Take{number:05}.")).collect()
}
