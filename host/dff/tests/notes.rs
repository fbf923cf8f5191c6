//! What a manifest asks for and its file won't have is told, by `check` and `build`; nothing else changes.

mod common;

use common::{Draw, Folder, dff};

fn folder(name: &str) -> Folder {
    let folder = Folder::new(name);
    folder.write("one.raw", vec![0x69; 100 * 4_704]);
    folder
}

fn manifest(rest: &str) -> String {
    format!("version = 1\n[[file]]\nname = 'one.dff'\nsource = {{ raw = 'one.raw', channels = 1 }}\n{rest}\n")
}

/// The notes that `check` and `build` give, which must be the same.
fn notes(folder: &Folder, rest: &str) -> Vec<String> {
    let _ = std::fs::remove_dir_all(folder.path("out"));
    let start = format!("{}:3: one.dff: ", folder.text("album.toml"));
    let said = |out: &str| -> Vec<String> {
        let own =
            |line: &str| line.strip_prefix(&start).and_then(|line| line.strip_prefix("note: ")).map(str::to_string);
        out.lines().filter_map(own).collect()
    };
    let checked = folder.run("check", &manifest(rest)).with(0, "");
    let built = folder.run("build", &manifest(rest)).with(0, "");
    assert!(checked.out.starts_with(&format!("{start}accepted\n")) && built.out.ends_with(" bytes\n"), "{built:?}");
    assert_eq!(said(&checked.out), said(&built.out));
    assert_eq!(said(&checked.out).len() + 1, checked.out.lines().count());
    said(&checked.out)
}

const INFO: &str = "edited_master_info = true\nartist_title = true\n";
const TRACK: &str = "[[file.track]]\nstart = 0\nduration = 9\ntitle = 'é'";
const TEXTS: &str = "album = { artist = 'A' }\nsource_track_text = { title = 'T' }";
const MARKER: &str = "[[file.marker]]\nframe = 0\nkind = 'index'\n";

fn comment(rest: &str) -> String {
    format!("[[file.comment]]\nyear = 2025\nmonth = 1\nday = 1\n{rest}\n")
}

#[test]
fn each_note() {
    let folder = folder("notes_each");
    let off = "edited_master_info is off, so ";
    let all = format!("edited_master_id = 'x'\nartist_title = true\nmarker_titles = true\n{TEXTS}\n{MARKER}");
    let told = [
        "markers are",
        "edited_master_id is",
        "album is",
        "source_track_text is",
        "artist and title are",
        "titles of markers are",
    ];
    assert_eq!(notes(&folder, &all), told.map(|what| format!("{off}{what} not written")));
    let told = ["album", "source_track_text"].map(|what| format!("artist_title is off, so {what} is not written"));
    assert_eq!(notes(&folder, &format!("edited_master_info = true\n{TEXTS}")), told);
    let album = |texts: &str| format!("{INFO}album = {{ {texts} }}");
    for (rest, wanted) in [
        (String::new(), &[][..]),
        ("edited_master_id = false\nartist_title = false\nmarker_titles = false".into(), &[]),
        (format!("edited_master_info = true\n{all}"), &[]),
        (
            album("artist = 'Ä\u{4E00}a', title = 'B\u{80}'"),
            &["artist: 2 characters are written as `?`", "title: 1 character is written as `?`"],
        ),
        (
            format!("d2 = true\n{}", album("artist = 'Ä\u{4E00}a', title = '\u{80}'")),
            &["artist: 1 character is left out", "title: the text comes out empty, so it is left out"],
        ),
        (format!("artist_title_source = 'track'\n{}", album("artist = 'Ä'")), &[]),
        (comment("text = 'Müll\u{A0}'"), &["comment 1: 2 characters are written as `?`"]),
        (
            format!("text_replacement = ''\n{}{}", comment("text = 'Mü'"), comment("text = 'ü'")),
            &["comment 1: 1 character is left out", "comment 2: the text comes out empty, so it is left out"],
        ),
        (format!("empty_text = true\n{}", comment("text = ''")), &[]),
        (comment("text = ''"), &["comment 1: the text comes out empty, so it is left out"]),
        (comment("text = 'a'\nreference = 7"), &["comment 1 is a general one, so its reference is written as 0"]),
        (comment("text = 'a'\nkind = 'channel'\nreference = 1"), &[]),
        (
            format!("{INFO}{MARKER}track_flags = 1"),
            &["marker 1 is no track-start, so its track_flags are written as 0"],
        ),
        (format!("{INFO}{}track_flags = 1", MARKER.replace("index", "track-start")), &[]),
        (format!("{INFO}custom_markers = false\n{MARKER}"), &["custom_markers is off, so markers are not written"]),
        (format!("{INFO}marker_titles = true\n{TRACK}"), &["title of track 1: 1 character is written as `?`"]),
        (format!("{INFO}{TRACK}"), &[]),
        (
            format!("{INFO}{}", TRACK.replace("start = 0", "start = 100")),
            &["nothing of the tracks is in the range, so they make no markers"],
        ),
    ] {
        assert_eq!(notes(&folder, &rest), wanted, "{rest}");
    }
}

#[test]
fn quiet_has_none() {
    let folder = folder("notes_quiet");
    folder.write("album.toml", manifest(MARKER));
    assert_eq!(dff(&["check", "-q", &folder.text("album.toml")]).with(0, "").out, "");
    assert_eq!(dff(&["build", "-q", &folder.text("album.toml"), "-o", &folder.text("out")]).with(0, "").out, "");
}

/// Tracks of drawn places: the notes on them are those that the file's markers bear out.
#[test]
fn tracks_without_markers_are_told() {
    let folder = folder("notes_tracks");
    let mut draw = Draw(5);
    let (mut with, mut without) = (0, 0);
    for _ in 0..300 {
        let mut rest = "edited_master_info = true\nmarker_titles = true\nempty_info = true\n".to_string();
        let clip = draw.below(2) == 1;
        if draw.below(2) == 1 {
            rest += &format!("range = {{ from = {}, to = {} }}\n", draw.below(40), 50 + draw.below(50));
        }
        rest += &format!("clipped_program = {clip}\n");
        let source = draw.below(4) == 0;
        if source {
            rest += &format!("source_track = 1\nsource_track_markers = {}\n", draw.below(2) == 1);
            rest += "[[file.track]]\nstart = 20\nduration = 40\ntitle = 'é'\n";
        }
        let mut start = 0;
        for _ in 0..1 + draw.below(4) {
            start += draw.below(25);
            let duration = draw.below(25);
            rest += &format!("[[file.track]]\nstart = {start}\nduration = {duration}\ntitle = 'é'\n");
            start = (start + duration).saturating_sub(if draw.below(3) == 0 { 20 } else { 0 });
        }
        let told = notes(&folder, &rest);
        let walked = walk::walk(&folder.read("out/one.dff")[..]).unwrap();
        let replaced = walked.markers.iter().filter(|marker| marker.value.text.bytes == b"?").count();
        assert_eq!(told.iter().filter(|note| note.starts_with("title of track")).count(), replaced, "{rest}\n{told:?}");
        if told.iter().any(|note| note.contains("so they make no markers")) {
            assert!(walked.markers.is_empty(), "{rest}\n{told:?}");
            without += 1;
        } else if !walked.markers.is_empty() {
            with += 1;
        } else {
            // They are not wanted, or the range is a part and they are not clipped.
            assert!(rest.contains("range") && !clip || source, "{rest}\n{told:?}");
        }
    }
    assert!(with > 30 && without > 20, "{with} {without}");
}
