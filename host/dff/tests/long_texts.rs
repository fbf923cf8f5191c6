//! A comment of a million characters: built, shown, verified, cut and read by others; which text is too long, and how many
//! bytes of texts are too many.

mod common;

use common::{Folder, dff};
use serde_json::Value;
use std::fs::File;
use std::process::Command;

/// How many characters a text may have.
const LONGEST: usize = 1_048_576;

/// A folder with three frames of sound and the manifest of a file with a comment of this text.
fn folder(name: &str, keys: &str, text: &str) -> (Folder, String) {
    let folder = Folder::new(name);
    folder.write("three.raw", vec![0x69; 3 * 4_704]);
    let comment = format!("[[file.comment]]\nyear = 2026\nmonth = 11\nday = 17\ntext = '''\n{text}'''\n");
    let source = "source = { raw = 'three.raw', channels = 1 }";
    (folder, format!("version = 1\n[[file]]\nname = 'notes.dff'\n{source}\n{keys}\n{comment}"))
}

/// Session notes: lines of text, in all so many characters.
fn notes(characters: usize) -> String {
    let line = |number| format!("Take {number}: the café's \"piano\" \\ bar 12, tape 3\n");
    (1..).flat_map(|number: u32| line(number).chars().collect::<Vec<_>>()).take(characters).collect()
}

/// The bytes that the file has for a text: what is not in ISO 8859-1 is left out (D2), else it is a question mark.
fn written(text: &str, d2: bool) -> Vec<u8> {
    let byte = |character: char| match character {
        ' '..='~' => Some(character as u8),
        '\u{A0}'..='\u{FF}' if d2 => Some(character as u8),
        _ => (!d2).then_some(b'?'),
    };
    text.chars().filter_map(byte).collect()
}

/// The bytes of the only comment of a file, by the walk.
fn comment_of(bytes: &[u8]) -> Vec<u8> {
    let walked = walk::walk(bytes).unwrap();
    assert_eq!(walked.faults, []);
    let mut comments = walked.comments.unwrap().value;
    assert_eq!(comments.len(), 1);
    comments.remove(0).text.bytes
}

#[test]
fn through_all_commands() {
    for (name, d2, text) in [
        ("long_ascii", false, notes(1_000_000)),
        ("long_latin", true, notes(1_000_000)),
        ("long_odd", false, "a".repeat(LONGEST - 1)),
        ("long_most", true, "é語𝄞".repeat(LONGEST / 3)),
    ] {
        let (folder, manifest) = folder(name, &format!("d2 = {d2}"), &text);
        folder.run("check", &manifest).with(0, "");
        folder.run("build", &manifest).with(0, "");
        let (file, bytes) = (folder.text("out/notes.dff"), folder.read("out/notes.dff"));
        let wanted = written(&text, d2);
        assert!(comment_of(&bytes) == wanted, "{name}");
        dff(&["verify", &file]).with(0, "");

        // The tree has its start and its length, JSON all of it.
        let shown = dff(&["show", &file]).with(0, "").out;
        let line = shown.lines().find(|line| line.contains("2026-11-17")).unwrap();
        assert!(line.ends_with(&format!("\" (the first 1000 of {} bytes)", wanted.len())), "{line}");
        assert!(shown.len() < 4_000, "{name}: {}", shown.len());
        let json: Value = serde_json::from_str(&dff(&["show", "--json", &file]).with(0, "").out).unwrap();
        let chunks = json["chunks"][0]["chunks"].as_array().unwrap();
        let comments = &chunks.iter().find(|chunk| chunk["name"] == "COMT").unwrap()["value"]["comments"];
        let all: String = wanted.iter().map(|&byte| char::from(byte)).collect();
        assert!(comments[0]["text"] == *all, "{name}");

        // A cut of the whole is the same file, one of a span has the same comment.
        let part = folder.text("part.dff");
        dff(&["cut", &file, "-o", &part]).with(0, "");
        assert!(folder.read("part.dff") == bytes, "{name}");
        dff(&["cut", &file, "-o", &part, "--from", "1", "--to", "2", "--force"]).with(0, "");
        assert!(comment_of(&folder.read("part.dff")) == wanted, "{name}");
    }
}

/// Of a text that is not too long to be shown nothing is left out.
#[test]
fn a_thousand_bytes_are_shown_whole() {
    for (length, whole) in [(999, true), (1_000, true), (1_001, false)] {
        let text = "é".repeat(length);
        let (folder, manifest) = folder("long_shown", "d2 = true", &text);
        folder.run("build", &manifest).with(0, "");
        let shown = dff(&["show", &folder.text("out/notes.dff")]).with(0, "").out;
        let start = "é".repeat(length.min(1_000));
        let more = if whole { "" } else { " (the first 1000 of 1001 bytes)" };
        assert!(shown.contains(&format!("general 0: \"{start}\"{more}\n")), "{shown}");
    }
}

/// A fault in a long text of a file is told in few words.
#[test]
fn a_fault_in_a_long_text_is_short() {
    let (folder, manifest) = folder("long_fault", "", &"a".repeat(1_000_000));
    folder.run("build", &manifest).with(0, "");
    let mut bytes = folder.read("out/notes.dff");
    let place = bytes.windows(4).position(|four| four == b"aaaa").unwrap();
    bytes[place + 999_999] = 7;
    folder.write("out/notes.dff", &bytes);
    let ran = dff(&["cut", &folder.text("out/notes.dff"), "-o", &folder.text("part.dff")]);
    let ran = ran.with(1, "byte 0x07 in ").with(1, "(the first 1000 of 1000000 bytes) can't be carried over");
    assert!(ran.err.len() < 1_500, "{}", ran.err.len());
}

/// All that refusal 1 counts is told, of what there is.
#[test]
fn what_has_a_limit_is_told() {
    let (folder, manifest) = folder("long_named", "", "short");
    let head = manifest.split("[[file.comment]]").next().unwrap();
    let long = "é".repeat(LONGEST + 1);
    let named = |what: &str| format!("the longest text is {what}, 1048577 characters");
    let rows = |row: &str, count: usize| format!("[{}]", format!("{{{row}}},").repeat(count));
    let comment = |text: &str| format!("year=1,month=1,day=1,text='{text}'");
    let (track, marker) = ("start=0,duration=1", "frame=0,kind='index'");
    let chunk = |hex: &str| format!("name='ABCD',hex='{hex}'");
    let hello = "album = { title = 'Hello' }";
    let title = "the longest text is the album's title, 5 characters";
    File::create(folder.path("large")).unwrap().set_len(20_000_000).unwrap();
    for (keys, said) in [
        (format!("comment = {}", rows(&comment(&long), 1)), named("the text of comment 1")),
        (
            format!("marker = {}", rows(&format!("{marker},text='{long}'"), 1)),
            format!("there is 1 marker; {}", named("the text of marker 1")),
        ),
        (format!("album = {{ artist = 'a', title = '{long}' }}"), named("the album's title")),
        (format!("source_track_text = {{ artist = '{long}' }}"), named("the source track's artist")),
        (format!("edited_master_id = '{long}'"), named("edited_master_id")),
        (format!("track = {}", rows(track, 65_536)), "there are 65536 tracks".into()),
        (format!("marker = {}", rows(marker, 65_536)), "there are 65536 markers".into()),
        (format!("chunk = {}", rows(&chunk(""), 256)), "there are 256 chunks, the longest of 0 bytes".into()),
        (
            format!("{hello}\nchunk = {}", rows(&chunk("000102"), 256)),
            format!("there are 256 chunks, the longest of 3 bytes; {title}"),
        ),
        (
            format!("{hello}\nchunk = {}", rows("name='ABCD',path='large'", 1)),
            format!("there is 1 chunk, the longest of 16777217 bytes or more; {title}"),
        ),
        (
            format!(
                "track = {}\nmarker = {}\nchunk = [{{{}}},{{{}}}]\ncomment = [{{{}}},{{{}}}]",
                rows(track, 1),
                rows(marker, 2),
                chunk(""),
                chunk("ff"),
                comment("short"),
                comment(&long)
            ),
            format!(
                "there is 1 track; there are 2 markers; there are 2 chunks, the longest of 1 byte; {}",
                named("the text of comment 2")
            ),
        ),
    ] {
        let ran = folder.run("check", &format!("{head}{keys}\n")).with(3, "refused (1): ");
        assert_eq!(ran.err.lines().last(), Some(format!("  {said}").as_str()));
    }
}

/// What a walk keeps of texts is this program's limit, and leaving out does not help.
#[test]
fn more_texts_than_are_kept() {
    let (folder, manifest) = folder("long_kept", "", "short");
    let head = manifest.split("[[file.comment]]").next().unwrap();
    folder.run("build", head).with(0, "");
    let (file, most) = (folder.read("out/notes.dff"), 1u32 << 26);
    let with_comment = |length: u32| {
        let data = [&[0, 1, 7, 234, 1, 1, 0, 0, 0, 0, 0, 0][..], &length.to_be_bytes()].concat();
        let size = data.len() as u64 + u64::from(length);
        let whole = file.len() as u64 + 12 + size;
        let form = (whole - 12).to_be_bytes();
        let start = [&file[..4], &form, &file[12..], b"COMT", &size.to_be_bytes(), &data].concat();
        let path = folder.write("large.dff", start);
        File::options().write(true).open(path).unwrap().set_len(whole).unwrap();
    };
    let (input, output) = (folder.text("large.dff"), folder.text("part.dff"));
    let said = format!("at {}: more bytes of texts than 64 MiB, which is a limit of this program", file.len() + 14);
    let helps = "\n  --drop-comments and --drop-markers don't help: all is read before any is left out\n";
    with_comment(most + 2);
    for command in ["show", "verify"] {
        let ran = dff(&[command, &input]).with(1, &said);
        assert!(!ran.err.contains("--drop"), "{}", ran.err);
    }
    for dropped in [&[][..], &["--drop-comments"]] {
        let ran = dff(&[&["cut", &input, "-o", &output][..], dropped].concat()).with(1, &said);
        assert!(ran.err.ends_with(helps), "{}", ran.err);
    }
    with_comment(most);
    dff(&["verify", &input]).with(0, "");
    dff(&["cut", &input, "-o", &output, "--drop-comments"]).with(0, "");
}

#[test]
fn mediainfo_reads_a_long_comment() {
    if Command::new("mediainfo").arg("--Version").output().is_err() {
        println!("skipped: there is no mediainfo");
        return;
    }
    for (name, d2) in [("long_mediainfo", false), ("long_mediainfo_d2", true)] {
        let text = notes(1_000_000);
        let (folder, manifest) = folder(name, &format!("d2 = {d2}"), &text);
        folder.run("build", &manifest).with(0, "");
        let mediainfo = |inform: &str| {
            let mut command = Command::new("mediainfo");
            let output = command.env("LC_ALL", "C.UTF-8").args([inform, &folder.text("out/notes.dff")]).output();
            let output = output.unwrap();
            assert!(output.status.success(), "{output:?}");
            String::from_utf8(output.stdout).unwrap().trim_end_matches('\n').to_string()
        };
        assert_eq!(mediainfo("--Inform=General;%Format%|%Duration%|%AudioCount%"), "DSDIFF|40|1");
        let comment: String = written(&text, d2).iter().map(|&byte| char::from(byte)).collect();
        assert!(mediainfo("--Inform=General;%Comment%") == comment, "{name}");
    }
}
