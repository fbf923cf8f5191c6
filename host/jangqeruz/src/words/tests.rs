//! Each field of area and options has its words, by the numbers of crates/words/specs/Inputs.antt.

use super::*;
use crate::area::{Kind, Layout, Track};
use crate::chunks::{
    ArtistTitleSource, CallerChunk, Comment, CommentKind, IndexOffset, InfoChunk, LocalChunk, Marker, MarkerKind,
    PropertyChunk,
};
use crate::given_bytes;

fn no_area() -> Area {
    Area::new(Kind::Dsd, 0, Layout::Stereo, 0)
}

fn inputs(area: &Area, options: &Options) -> Inputs {
    Inputs::new(area, options).unwrap()
}

/// The words that differ from the defaults.
fn differ(area: &Area, options: &Options) -> Vec<(usize, u32)> {
    let (words, defaults) = (inputs(area, options).words, library::checks::default_words());
    (0..WORDS).filter(|&k| words[k] != defaults[k]).map(|k| (k, words[k])).collect()
}

#[track_caller]
fn of_area(change: impl FnOnce(&mut Area), words: &[(usize, u32)]) {
    let mut area = no_area();
    change(&mut area);
    assert_eq!(differ(&area, &Options::default()), words);
}

#[track_caller]
fn of_options(change: impl FnOnce(&mut Options), words: &[(usize, u32)]) {
    let mut options = Options::default();
    change(&mut options);
    assert_eq!(differ(&no_area(), &options), words);
}

#[test]
fn defaults_are_those_of_the_library() {
    assert_eq!(differ(&no_area(), &Options::default()), []);
}

#[test]
fn words_of_an_area() {
    of_area(|a| a.kind = Kind::Dst, &[(0, 1)]);
    of_area(|a| a.playtime = 9, &[(1, 9)]);
    of_area(|a| a.channels = 300, &[(2, 300)]);
    for (number, layout) in (1..).zip([Layout::ThreeTwo, Layout::FivePointOne, Layout::Unspecified]) {
        of_area(|a| a.layout = layout, &[(3, number)]);
    }
    of_area(|a| a.first = 9, &[(4, 9)]);
    of_area(|a| a.end = 9, &[(5, 9)]);
}

#[test]
fn words_of_properties() {
    of_options(|o| o.channel_numbers = Some(Vec::new()), &[(6, 1)]);
    of_options(|o| o.channel_numbers = Some(vec![7, 70_000]), &[(6, 1), (7, 2), (8, 7), (9, 70_000)]);
    let eight = [(6, 1), (7, 8), (8, 1), (9, 2), (10, 3), (11, 4), (12, 5), (13, 6)];
    of_options(|o| o.channel_numbers = Some(vec![1, 2, 3, 4, 5, 6, 7, 8]), &eight);
    of_options(|o| o.unspecified_loudspeaker_configuration = true, &[(14, 1)]);
    of_options(|o| o.loudspeaker_configuration = false, &[(15, 0)]);
    of_options(|o| o.absolute_start = Some(0), &[(16, 1)]);
    of_options(|o| o.absolute_start = Some(9), &[(16, 1), (17, 9)]);
    of_options(|o| o.d1 = true, &[(50, 1)]);
}

#[test]
fn words_of_dst() {
    of_options(|o| o.dst_crc = true, &[(18, 1)]);
    of_options(|o| o.dst_index = false, &[(19, 0)]);
    of_options(|o| o.dst_index_offset = IndexOffset::FrameData, &[(20, 1)]);
}

#[test]
fn words_of_information() {
    of_options(|o| o.source_track = 256, &[(21, 256)]);
    of_options(|o| o.source_track = 65_537, &[(21, 65_537)]);
    of_options(|o| o.edited_master = true, &[(22, 1)]);
    of_options(|o| o.edited_master_info = true, &[(23, 1)]);
    of_options(|o| o.edited_master_id = None, &[(24, 0)]);
    of_options(|o| o.edited_master_id = Some(b"id".to_vec()), &[(26, 2)]);
    of_options(|o| o.custom_markers = Some(Vec::new()), &[(27, 1)]);
    of_options(|o| o.source_track_markers = true, &[(28, 1)]);
    of_options(|o| o.clipped_program = true, &[(29, 1)]);
    of_options(|o| o.marker_titles = true, &[(30, 1)]);
    of_options(|o| o.artist_title = Some(true), &[(32, 1)]);
    of_options(|o| o.artist_title = Some(false), &[(32, 2)]);
    of_options(|o| o.artist_title_source = ArtistTitleSource::Track, &[(33, 1)]);
    of_options(|o| o.artist_title_source = ArtistTitleSource::TrackThenAlbum, &[(33, 2)]);
    of_options(|o| o.empty_info = false, &[(49, 0)]);
}

#[test]
fn words_of_texts() {
    of_options(|o| o.text_pad_counted = true, &[(31, 1)]);
    of_options(|o| o.album.artist = Some(String::new()), &[(34, 1)]);
    let album = ArtistTitle { artist: Some("ab".into()), title: Some("c".into()) };
    of_options(|o| o.album = album.clone(), &[(34, 1), (36, 2), (37, 1), (38, 2), (39, 1)]);
    of_options(|o| o.track = album, &[(40, 1), (42, 2), (43, 1), (44, 2), (45, 1)]);
    of_options(|o| o.text_replacement = None, &[(46, 0), (47, 0)]);
    of_options(|o| o.text_replacement = Some(300), &[(47, 300)]);
    of_options(|o| o.empty_text = true, &[(48, 1)]);
    of_options(|o| o.d2 = true, &[(51, 1)]);
}

#[test]
fn words_of_orders() {
    use LocalChunk::{Comt, Diin, Dsti, Prop, Sound};
    let turned = [(52, 4), (53, 3), (55, 1), (56, 0)];
    of_options(|o| o.property_order.reverse(), &turned);
    of_options(|o| o.property_order = [PropertyChunk::Chnl; 5], &[(52, 1), (54, 1), (55, 1), (56, 1)]);
    of_options(|o| o.info_order.reverse(), &[(57, 3), (58, 2), (59, 1), (60, 0)]);
    of_options(|o| o.info_order = [InfoChunk::Mark; 4], &[(57, 1), (59, 1), (60, 1)]);
    assert_eq!(inputs(&no_area(), &Options::default()).words[61..], [0, 4, 3, 1, 2, 5]);
    for (order, words) in [
        (vec![], [0, 0, 0, 0, 0, 0]),
        (vec![Comt, Diin], [4, 3, 0, 0, 0, 2]),
        (vec![Dsti, Sound, Prop, Comt, Diin, Diin, Diin], [2, 1, 0, 4, 3, 7]),
    ] {
        assert_eq!(inputs(&no_area(), &Options::default().local_order(order)).words[61..], words);
    }
}

#[test]
fn rows_and_pools() {
    let kinds = [MarkerKind::TrackStart, MarkerKind::TrackStop, MarkerKind::ProgramStart, MarkerKind::Index];
    let subjects = [CommentKind::General, CommentKind::Channel, CommentKind::SoundSource, CommentKind::FileHistory];
    let comment =
        |kind| Comment { year: 1, month: 2, day: 3, hour: 4, minutes: 5, kind, reference: 6, text: "ř".into() };
    let area = Area {
        tracks: vec![
            Track { start: 1, duration: 2, title: "ab".into() },
            Track { start: 3, duration: u32::MAX, title: String::new() },
        ],
        ..no_area()
    };
    let marker = |kind| Marker { frame: 9, kind, track_flags: 0xFFFF, text: b"m".to_vec() };
    let options = Options::default()
        .edited_master_id(Some(b"id".to_vec()))
        .custom_markers(Some(kinds.map(marker).to_vec()))
        .comments(subjects.map(comment).to_vec())
        .chunks(vec![CallerChunk { name: *b"ABCD", data: vec![0, 0xFF] }]);
    let inputs = inputs(&area, &options);
    let lent = inputs.lent(&[7]);
    assert_eq!(lent.pool, [0x61, 0x62, 0x159, 0x159, 0x159, 0x159]);
    assert_eq!(lent.raw, b"idmmmm\x00\xFF");
    assert_eq!(lent.tracks, [1, 2, 0, 2, 3, u32::MAX, 2, 0]);
    let marked: Vec<_> = [(0x0FFFF, 2), (0x1FFFF, 3), (0x2FFFF, 4), (0x4FFFF, 5)].map(|(k, s)| [9, k, s, 1]).concat();
    assert_eq!(lent.markers, marked);
    let said: Vec<_> = [0, 1, 2, 3].map(|k| [1, 2, 3, 4, 5, k, 6, k + 2, 1]).concat();
    assert_eq!(lent.comments, said);
    assert_eq!(lent.callers, [0x4142_4344, 6, 2]);
    assert_eq!(lent.lengths, [7]);
}

/// All that stands in the pools is counted, and nothing besides.
#[test]
fn given_bytes_are_those_of_the_pools() {
    let pools = |area: &Area, options: &Options| {
        let inputs = inputs(area, options);
        let lent = inputs.lent(&[]);
        (lent.pool.len() + lent.raw.len()) as u64
    };
    let texts = |a: usize, t: usize| ArtistTitle { artist: Some("é".repeat(a)), title: Some("語".repeat(t)) };
    let title = |count: usize| Track { start: 0, duration: 1, title: "𝄞".repeat(count) };
    let marker = |count: usize| Marker { frame: 0, kind: MarkerKind::Index, track_flags: 0, text: vec![0xE9; count] };
    let comment = |count: usize| Comment {
        year: 1,
        month: 1,
        day: 1,
        hour: 1,
        minutes: 1,
        kind: CommentKind::General,
        reference: 0,
        text: "n".repeat(count),
    };
    let chunk = |count: usize| CallerChunk { name: *b"ABCD", data: vec![0; count] };
    assert_eq!(given_bytes(&no_area(), &Options::default()), 0);
    // Each place has a count of its own: a digit of the sum.
    let area = Area { tracks: vec![title(0), title(10)], ..no_area() };
    let options = Options::default()
        .album(texts(100, 200))
        .track(texts(1_000, 2_000))
        .edited_master_id(Some(vec![0x7F; 1]))
        .custom_markers(Some(vec![marker(20), marker(20)]))
        .comments(vec![comment(10_000), comment(20_000)])
        .chunks(vec![chunk(100_000), chunk(200_000)]);
    assert_eq!(given_bytes(&area, &options), 333_351);
    assert_eq!(pools(&area, &options), 333_351);
}
