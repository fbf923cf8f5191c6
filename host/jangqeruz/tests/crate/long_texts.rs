//! Texts of as many values as one may have, in each place: the file has all of them.

use jangqeruz::{
    Area, ArtistTitle, Comment, CommentKind, File, Kind, Layout, Marker, MarkerKind, Options, Track, text_bytes,
};

use crate::sources::Silence;

const LONGEST: usize = 1_048_576;

/// A text whose characters are not all alike, so that a part of it stands nowhere else; `start` makes it differ.
fn long(start: char, values: usize) -> String {
    let numbers = (0..).flat_map(|number: u32| format!("{number:x} ").into_bytes());
    std::iter::once(start).chain(numbers.map(char::from)).take(values).collect()
}

fn comment(text: String) -> Comment {
    let kind = CommentKind::General;
    Comment { year: 2026, month: 11, day: 17, hour: 0, minutes: 0, kind, reference: 0, text }
}

/// Whether the count and the bytes of the text stand in the header, one after the other.
fn has_counted(header: &[u8], bytes: &[u8]) -> bool {
    let counted = [&(bytes.len() as u32).to_be_bytes()[..], bytes].concat();
    header.windows(counted.len()).any(|window| window == counted)
}

#[test]
fn in_each_place() {
    let area = Area {
        tracks: vec![Track { start: 0, duration: 75, title: long('t', LONGEST) }],
        ..Area::new(Kind::Dsd, 2, Layout::Stereo, 75)
    };
    let texts = ArtistTitle { artist: Some(long('a', LONGEST)), title: Some(long('b', LONGEST)) };
    let options = Options::default()
        .edited_master_info(true)
        .edited_master_id(Some(text_bytes(&long('i', LONGEST))))
        .artist_title(Some(true))
        .album(texts.clone())
        .marker_titles(true)
        .comments(vec![comment(long('c', LONGEST)), comment(long('d', LONGEST - 1)), comment("short".into())]);
    let header = |options: &Options| File::build(&area, options, &[], Silence).unwrap().header().to_vec();
    let made = header(&options);
    for text in [long('a', LONGEST), long('b', LONGEST), long('t', LONGEST), long('c', LONGEST), long('d', LONGEST - 1)]
    {
        assert!(has_counted(&made, text.as_bytes()), "{}", &text[..1]);
    }
    assert!(has_counted(&made, b"short"));
    // EMID has no count: its chunk has the size.
    let id = [&b"EMID"[..], &(LONGEST as u64).to_be_bytes(), long('i', LONGEST).as_bytes()].concat();
    assert!(made.windows(id.len()).any(|window| window == id));
    // Markers of one's own, and the texts of a source track.
    let text = text_bytes(&long('m', LONGEST));
    let marker = Marker { frame: 0, kind: MarkerKind::Index, track_flags: 0, text: text.clone() };
    let made = header(&Options { custom_markers: Some(vec![marker]), ..options.clone() });
    assert!(has_counted(&made, &text));
    let source = options.source_track(1).artist_title_source(jangqeruz::ArtistTitleSource::Track);
    let made = header(&source.album(ArtistTitle::default()).track(texts));
    assert!(has_counted(&made, long('a', LONGEST).as_bytes()) && has_counted(&made, long('b', LONGEST).as_bytes()));
}

/// What counts is characters: a text of four times as many bytes of UTF-8 is taken, and each is one byte of the file.
#[test]
fn of_characters_that_no_file_has() {
    let area = Area::new(Kind::Dsd, 2, Layout::Stereo, 1);
    let text = "𝄞é".repeat(LONGEST / 2);
    let header = |options: Options| {
        let options = options.comments(vec![comment(text.clone())]);
        File::build(&area, &options, &[], Silence).unwrap().header().to_vec()
    };
    assert!(has_counted(&header(Options::default()), "?".repeat(LONGEST).as_bytes()));
    assert!(has_counted(&header(Options::default().d2(true)), &[0xE9].repeat(LONGEST / 2)));
}
