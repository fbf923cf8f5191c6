//! Every refusal that a manifest can cause is caused by one, and told with the manifest's line and the file's name.

mod common;

use common::{Folder, dff};
use std::fmt::Write;

const DSD: &str = "source = { raw = 'one.raw', channels = 2 }";
const LONG: &str = "source = { raw = 'second.raw', channels = 2 }";
const DST: &str = "source = { dst = 'two.dst', lengths = 'two.txt', channels = 2 }";
const INFO: &str = "edited_master_info = true";
const MASTER: &str = "edited_master = true\nplaytime = 75\nrange = { to = 75 }";
const TRACK: &str = "[[file.track]]\nstart = 0\nduration = 75";

/// Refusals that no manifest causes.
const NEVER: [(u32, &str); 2] = [
    (2, "the crate makes the stretches and the pools, so that none runs outside"),
    (3, "a text of Rust has scalars only; a TOML text with another is no TOML"),
];

/// A frame of each kind that the manifests name.
fn folder(name: &str) -> Folder {
    let folder = Folder::new(name);
    folder.write("one.raw", [0x69; 9_408]);
    folder.write("mono.raw", [0x69; 4_704]);
    folder.write("six.raw", [0x69; 6 * 4_704]);
    folder.write("second.raw", vec![0x69; 75 * 9_408]);
    folder.write("two.dst", [0; 7]);
    folder.write("two.txt", "3\n4\n");
    folder.write("large.dst", [0; 65_536]);
    folder.write("large.txt", "65536\n");
    folder.write("short.txt", "0\n4\n");
    folder.write("long.txt", "3\n65537\n");
    folder.write("chunk", vec![0; 16_777_216]);
    folder.write("larger", vec![0; 16_777_217]);
    folder
}

fn manifest(rest: &str) -> String {
    format!("version = 1\n[[file]]\nname = 'one.dff'\n{rest}\n")
}

/// The refusal's number and a manifest that causes it.
fn refused() -> Vec<(u32, String)> {
    let mut cases: Vec<_> = texts(LONGEST_TEXT + 1).map(|rest| (1, rest)).collect();
    cases.extend([
        (1, format!("{DSD}\n{}", tracks(65_536))),
        (1, format!("{DSD}\n{MASTER}\n{}", tracks(65_536))),
        (1, format!("{DSD}\n{}", chunks(256))),
        (1, format!("{DSD}\n{}", markers(65_536))),
        (1, format!("{DSD}\n[[file.chunk]]\nname = 'ABCD'\npath = 'larger'")),
        (36, format!("{DSD}\n{}", comments(65_536))),
    ]);
    let small = [
        (4, format!("{DSD}\n[[file.chunk]]\nname = ' ABC'\ntext = ''")),
        (4, format!("{DSD}\n[[file.chunk]]\nname = 'ABC\u{17F}'\ntext = ''")),
        (5, format!("{DSD}\n[[file.chunk]]\nname = 'FVER'\ntext = ''")),
        (5, format!("{DSD}\n[[file.chunk]]\nname = 'MANF'\ntext = ''")),
        (6, format!("{DSD}\nplaytime = 1152000")),
        (7, "source = { raw = 'one.raw', channels = 0 }".into()),
        (7, "source = { raw = 'one.raw', channels = 7 }".into()),
        (7, "source = { raw = 'one.raw', channels = 4294967295 }".into()),
        (8, "source = { raw = 'mono.raw', channels = 1 }\nlayout = 'stereo'".into()),
        (8, format!("{DSD}\nlayout = 'three-two'")),
        (8, format!("{DSD}\nlayout = 'five-point-one'")),
        (9, format!("{DST}\nrange = {{ from = 2, to = 1 }}")),
        (10, "source = { dst = 'two.dst', lengths = 'short.txt', channels = 2 }".into()),
        (10, "source = { dst = 'two.dst', lengths = 'long.txt', channels = 2 }".into()),
        (11, format!("{DSD}\nrange = {{ from = 2 }}")),
        (11, format!("{DSD}\nrange = {{ to = 2 }}")),
        (11, format!("{DSD}\nplaytime = 0")),
        (12, format!("{DSD}\nrange = {{ from = 1 }}")),
        (12, format!("{DST}\nrange = {{ from = 1, to = 1 }}")),
        (13, format!("{DSD}\nsource_track = 1")),
        (13, format!("{DSD}\nsource_track = 2\n{TRACK}")),
        (13, format!("{DSD}\nsource_track = 257\n{TRACK}")),
        (13, format!("{DSD}\nsource_track = 65537\n{TRACK}")),
        (13, format!("{DSD}\nsource_track = 4294967295\n{TRACK}")),
        (14, format!("{DSD}\nsource_track = 1\n[[file.track]]\nstart = 1\nduration = 75")),
        (15, format!("{DSD}\nedited_master = true\nplaytime = 75\n{TRACK}")),
        (16, format!("{DSD}\nlayout = 'unspecified'\n{MASTER}\n{TRACK}")),
        (17, format!("{DSD}\n{MASTER}")),
        (17, format!("{DSD}\n{MASTER}\n{}", tracks(256))),
        (18, format!("{DSD}\n{MASTER}\n{TRACK}\n[[file.track]]\nstart = 75\nduration = 74")),
        (19, format!("{DSD}\n{MASTER}\n{TRACK}\n[[file.track]]\nstart = 74\nduration = 75")),
        (20, format!("{DSD}\n{MASTER}\n[[file.track]]\nstart = 0\nduration = 1152000")),
        (21, format!("{DSD}\n{MASTER}\ncustom_markers = true\n{TRACK}")),
        (22, format!("{DSD}\n{MASTER}\nloudspeaker_configuration = false\n{TRACK}")),
        (23, format!("{DSD}\n{MASTER}\nedited_master_id = false\n{TRACK}")),
        (24, format!("{DSD}\ntext_replacement = 'é'")),
        (24, format!("{DSD}\ntext_replacement = \"\\u001F\"")),
        (24, format!("{DSD}\ntext_replacement = \"\\u007F\"")),
        (25, format!("{DSD}\nlayout = 'unspecified'\nchannel_numbers = [1]")),
        (25, format!("{DSD}\nlayout = 'unspecified'\nchannel_numbers = [1, 2, 3, 4, 5, 6, 7, 8]")),
        (26, format!("{DSD}\nlayout = 'unspecified'\nchannel_numbers = [1000, 1]")),
        (27, format!("{DSD}\nlayout = 'unspecified'\nchannel_numbers = [5, 5]")),
        (28, format!("{DSD}\nproperty_order = ['FS', 'CHNL', 'CMPR', 'ABSS', 'FS']")),
        (29, format!("{DSD}\nabsolute_start = 6479999")),
        (29, format!("{DSD}\nabsolute_start = '23:59:59:74'")),
        (30, format!("{DSD}\n{INFO}\ninfo_order = ['EMID', 'MARK', 'DIAR', 'DIAR']")),
        (31, format!("{DSD}\n{INFO}\nedited_master_id = 'é'")),
        (31, format!("{DSD}\n{INFO}\nedited_master_id = 'ř'")),
        (32, format!("{DSD}\n{INFO}\n[[file.marker]]\nframe = 2\nkind = 'index'")),
        (32, format!("{LONG}\n{INFO}\nrange = {{ from = 1 }}\n[[file.marker]]\nframe = 0\nkind = 'index'")),
        (33, format!("{DSD}\n{INFO}\n[[file.marker]]\nframe = 0\nkind = 'index'\ntext = 'é'")),
        (33, format!("{DSD}\n{INFO}\nd2 = true\n[[file.marker]]\nframe = 0\nkind = 'index'\ntext = \"\\u009F\"")),
        (33, format!("{DSD}\n{INFO}\nd2 = true\n[[file.marker]]\nframe = 0\nkind = 'index'\ntext = 'ř'")),
        (34, comment("month = 13", "")),
        (34, comment("day = 32", "")),
        (34, comment("hour = 24", "")),
        (34, comment("minutes = 60", "")),
        (35, comment("kind = 'channel'", "reference = 3")),
        (35, comment("kind = 'sound-source'", "reference = 3")),
        (35, comment("kind = 'file-history'", "reference = 5")),
        (37, format!("{DSD}\nlocal_order = ['PROP', 'SOUND', 'PROP']")),
        (37, format!("{DSD}\nlocal_order = ['PROP', 'COMT', 'DIIN', 'SOUND', 'DSTI', 'PROP']")),
        (38, format!("{DSD}\nlocal_order = ['PROP']")),
        (38, format!("{DSD}\n{INFO}\nlocal_order = ['PROP', 'SOUND']")),
        (39, format!("{DSD}\nlocal_order = ['SOUND', 'PROP']")),
    ];
    cases.extend(small);
    cases
}

/// The other side of the limits.
fn accepted() -> Vec<String> {
    let mut cases: Vec<_> = texts(65_536).chain(texts(LONGEST_TEXT)).collect();
    cases.extend([
        format!("{DSD}\n{}", tracks(255)),
        format!("{DSD}\n{}", tracks(256)),
        format!("{DSD}\n{}", tracks(65_535)),
        format!("{DSD}\nsource_track = 65535\n{}", tracks(65_535)),
        format!("{DSD}\n{}", chunks(255)),
        format!("{DSD}\n{}", markers(65_535)),
        format!("{DSD}\n[[file.chunk]]\nname = 'ABCD'\npath = 'chunk'"),
        format!("{DSD}\n{}", comments(65_535)),
        format!("{DSD}\n[[file.chunk]]\nname = 'A   '\ntext = ''"),
        format!("{DSD}\nplaytime = 1151999"),
        "source = { raw = 'mono.raw', channels = 1 }".into(),
        "source = { raw = 'six.raw', channels = 6 }".into(),
        "source = { dst = 'large.dst', lengths = 'large.txt', channels = 2 }".into(),
        format!("{DSD}\nsource_track = 1\n{TRACK}"),
        format!("{LONG}\nedited_master = true\n{TRACK}"),
        format!("{DSD}\ntext_replacement = '~'"),
        format!("{DSD}\ntext_replacement = ''"),
        format!("{DSD}\nlayout = 'unspecified'\nchannel_numbers = [999, 0]"),
        format!("{DSD}\nproperty_order = ['LSCO', 'ABSS', 'CMPR', 'CHNL', 'FS']"),
        format!("{DSD}\nabsolute_start = 6479998"),
        format!("{DSD}\n{INFO}\ninfo_order = ['DITI', 'DIAR', 'MARK', 'EMID']"),
        format!("{DSD}\ninfo_order = ['DITI', 'DITI', 'MARK', 'EMID']"),
        format!("{DSD}\nedited_master_id = 'é'"),
        format!("{DSD}\n{INFO}\n[[file.marker]]\nframe = 1\nkind = 'index'"),
        format!("{DSD}\n{INFO}\nd2 = true\n[[file.marker]]\nframe = 0\nkind = 'index'\ntext = \"\\u00A0é\""),
        comment("month = 12", ""),
        comment("day = 31", ""),
        comment("hour = 23", ""),
        comment("minutes = 59", ""),
        comment("kind = 'channel'", "reference = 2"),
        comment("kind = 'general'", "reference = 65535"),
        format!("{DSD}\nlocal_order = ['PROP', 'SOUND']"),
        format!("{DST}\nlocal_order = ['PROP', 'DSTI', 'SOUND', 'COMT', 'DIIN']"),
    ]);
    cases
}

/// How many characters a text may have.
const LONGEST_TEXT: usize = 1_048_576;

/// A text of so many characters in each place that has one.
fn texts(characters: usize) -> impl Iterator<Item = String> {
    [
        "album = { artist = '' }",
        "album = { title = '' }",
        "source_track_text = { artist = '' }",
        "source_track_text = { title = '' }",
        "edited_master_id = ''",
        "track = [{ start = 0, duration = 1, title = '' }]",
        "marker = [{ frame = 0, kind = 'index', text = '' }]",
        "comment = [{ year = 1, month = 1, day = 1, text = '' }]",
    ]
    .into_iter()
    .map(move |keys| format!("{DSD}\n{}", keys.replace("''", &format!("'{}'", "a".repeat(characters)))))
}

fn comment(one: &str, other: &str) -> String {
    let mut text = format!("{DSD}\n[[file.comment]]\n{one}\n{other}\n");
    for key in ["year", "month", "day"] {
        if !one.starts_with(key) {
            let _ = writeln!(text, "{key} = 1");
        }
    }
    text + "text = 'a'"
}

fn tracks(count: usize) -> String {
    format!("track = [{}]", "{start=0,duration=1},".repeat(count))
}

fn chunks(count: usize) -> String {
    "[[file.chunk]]\nname = 'ABCD'\ntext = ''\n".repeat(count)
}

fn markers(count: usize) -> String {
    format!("marker = [{}]", "{frame=0,kind='index'},".repeat(count))
}

fn comments(count: usize) -> String {
    format!("comment = [{}]", "{year=1,month=1,day=1,text='a'},".repeat(count))
}

#[test]
fn every_refusal_of_a_manifest_is_caused() {
    let folder = folder("refusals");
    let cases = refused();
    for (number, rest) in &cases {
        let said = format!("album.toml:3: one.dff: refused ({number}): ");
        let start: String = rest.chars().take(200).collect();
        let ran = folder.run("check", &manifest(rest));
        assert!(ran.status == 3 && ran.err.contains(&said), "{number}: {start}\n{ran:?}");
        assert!(ran.err.lines().nth(1).is_some_and(|line| line.starts_with("  remedy: ")), "{ran:?}");
    }
    for number in 1..=39 {
        let caused = cases.iter().any(|(caused, _)| *caused == number);
        let never = NEVER.iter().any(|(never, _)| *never == number);
        assert!(caused != never, "{number}");
    }
}

#[test]
fn the_other_side_of_the_limits_is_accepted() {
    let folder = folder("limits");
    for rest in accepted() {
        let start: String = rest.chars().take(200).collect();
        let ran = folder.run("check", &manifest(&rest));
        // A playtime of its own may ask for more sound than there is.
        assert!(ran.status == 0 && ran.out.contains("album.toml:3: one.dff: accepted"), "{start}\n{ran:?}");
    }
}

#[test]
fn a_refusal_of_a_build_leaves_nothing_and_all_are_told() {
    let folder = folder("refused-build");
    let text = format!(
        "version = 1\n[[file]]\nname = 'good.dff'\n{DSD}\n[[file]]\nname = 'a/b.dff'\n{DSD}\nplaytime = 1152000\n\
         [[file]]\nname = 'c.dff'\nsource = {{ raw = 'one.raw', channels = 7 }}\n"
    );
    let ran = folder.run("build", &text).with(3, "album.toml:6: a/b.dff: refused (6): ");
    assert!(ran.err.contains("album.toml:10: c.dff: refused (7): Channels aren't 1 to 6.\n  remedy: "), "{ran:?}");
    assert!(ran.out.is_empty() && !folder.path("out").exists());
}

#[test]
fn explain_has_words_and_a_remedy_for_each() {
    let all = dff(&["explain"]).with(0, "").out;
    assert_eq!(all.lines().count(), 43);
    for number in 1..=43 {
        let one = dff(&["explain", &number.to_string()]).with(0, "").out;
        let lines: Vec<&str> = one.lines().collect();
        assert!(lines[0].starts_with(&format!("refusal {number}: ")) && lines[0].len() > 15, "{one}");
        assert!(lines[1].starts_with("  remedy: ") && lines[1].len() > 15, "{one}");
        assert!(lines[2].starts_with("  definition: crates/"), "{one}");
    }
    dff(&["explain", "0"]).with(2, "43");
    dff(&["explain", "44"]).with(2, "43");
    dff(&["explain", "x"]).with(2, "");
}
