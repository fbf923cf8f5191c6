//! 100,000 damaged manifests: each ends with a status, none by panic.

mod common;

use common::{Draw, Folder, dff};
use std::fs;
use std::panic::catch_unwind;

/// For each of two threads.
const COUNT: usize = if cfg!(debug_assertions) { 2_500 } else { 50_000 };

const FULL: &str = r#"version = 1

[[file]]
name = "album/one.dff"
source = { raw = "sound.raw", channels = 2, pad = true }
range = { from = 0, to = "00:00:00:02" }
layout = "stereo"
playtime = 2
absolute_start = "01:00:00:00"
channel_numbers = [1, 2]
unspecified_loudspeaker_configuration = false
loudspeaker_configuration = true
source_track = 1
edited_master = false
edited_master_info = true
edited_master_id = "abc"
source_track_markers = true
clipped_program = true
marker_titles = true
text_pad_counted = true
artist_title = true
artist_title_source = "track-then-album"
album = { artist = "Ärger", title = "Two" }
source_track_text = { artist = "b" }
text_replacement = "?"
empty_text = true
empty_info = true
d1 = true
d2 = true
property_order = ["FS", "CHNL", "CMPR", "ABSS", "LSCO"]
info_order = ["EMID", "MARK", "DIAR", "DITI"]
local_order = ["PROP", "COMT", "DIIN", "SOUND", "DSTI"]
[[file.track]]
start = 0
duration = 1
title = "one"
[[file.track]]
start = "00:00:00:01"
duration = 1
[[file.comment]]
year = 2025
month = 1
day = 2
hour = 3
minutes = 4
kind = "channel"
reference = 1
text = """
two lines"""
[[file.chunk]]
name = "ABCD"
hex = "00 ff"
[[file.chunk]]
name = "EFGH"
path = "frames.txt"
"#;

const DST: &str = r#"# DST
version = 1
[[file]]
name = 'two.dff'
source = { dst = "frames.dst", lengths = "frames.txt", channels = 2, plain = "sound.raw" }
dst_crc = true
dst_index = true
dst_index_offset = "frame-data"
edited_master_info = true
edited_master_id = false
custom_markers = true
[[file.marker]]
frame = 0
kind = "track-start"
track_flags = 1
text = "a"
[[file.marker]]
frame = 2
kind = "index"
[[file]]
name = "master.dff"
source = { raw = "second.raw", channels = 2 }
edited_master = true
[[file.track]]
start = 0
duration = 75
"#;

const INLINE: &str = "version=1\nfile=[{name='a.dff',source={dff='tone.dff'},track=[{start=0,duration=1}],d2=true},\
    {name='b.dff',source={raw='sound.raw',channels=1},marker=[{frame=1,kind='program-start'}]}]\n";

/// What takes the place of a token.
const TOKENS: &[&str] = &[
    "0",
    "1",
    "-1",
    "2",
    "74",
    "75",
    "255",
    "256",
    "999",
    "1000",
    "65535",
    "65536",
    "1151999",
    "1152000",
    "4294967295",
    "4294967296",
    "9223372036854775807",
    "9223372036854775808",
    "1.5",
    "1e9",
    "nan",
    "0x10",
    "0b1",
    "1_0",
    "true",
    "false",
    "''",
    "\"\"",
    "'a'",
    "\"\\u0000\"",
    "\"\\uD800\"",
    "\"\\U0010FFFF\"",
    "'..'",
    "'/'",
    "'.'",
    "'sound.raw'",
    "'frames.txt'",
    "'tone.dff'",
    "[]",
    "{}",
    "[[]]",
    "[{}]",
    "1979-05-27",
    "07:32:00",
    "1979-05-27T07:32:00Z",
    "'00:00:00:74'",
    "'23:59:59:74'",
    "=",
    ",",
    ".",
    "[",
    "]",
    "{",
    "}",
    "[[",
    "]]",
    "\"",
    "'",
    "'''",
    "\"\"\"",
    "#",
    "\n",
    "\r\n",
    "\\",
    "file",
    "name",
    "source",
    "raw",
    "dst",
    "dff",
    "channels",
    "track",
    "marker",
    "start",
    "file.track",
    "'''a\n'''",
];

fn damaged(text: &str, draw: &mut Draw) -> Vec<u8> {
    let mut bytes = text.as_bytes().to_vec();
    // Half of them stay what TOML takes, so that they come further.
    let only_values = draw.below(2) == 0;
    for _ in 0..=draw.below(3) {
        match draw.below(4) {
            _ if only_values => value(&mut bytes, draw),
            0 => byte(&mut bytes, draw),
            1 => line(&mut bytes, draw),
            _ => token(&mut bytes, draw),
        }
    }
    bytes
}

/// A number, text or switch gives way to another of its kind.
fn value(bytes: &mut Vec<u8>, draw: &mut Draw) {
    let kind = |token: &[u8]| match token.first() {
        Some(b'0'..=b'9') => 1,
        Some(b'"' | b'\'') => 2,
        _ if [&b"true"[..], b"false"].contains(&token) => 3,
        _ => 0,
    };
    let tokens: Vec<(usize, usize)> =
        tokens(bytes).into_iter().filter(|(start, end)| kind(&bytes[*start..*end]) > 0).collect();
    if tokens.is_empty() {
        return;
    }
    let (start, end) = tokens[draw.below(tokens.len())];
    let wanted = kind(&bytes[start..end]);
    let own = tokens.iter().map(|(start, end)| bytes[*start..*end].to_vec());
    let others: Vec<Vec<u8>> = own
        .chain(TOKENS.iter().map(|token| token.as_bytes().to_vec()))
        .filter(|token| kind(token) == wanted && token.len() > 1 || wanted == 1 && token == b"0")
        .collect();
    bytes.splice(start..end, others[draw.below(others.len())].clone());
}

/// A byte is altered, taken out or put in; or all behind it is lost.
fn byte(bytes: &mut Vec<u8>, draw: &mut Draw) {
    let place = draw.below(bytes.len());
    match (draw.below(5), bytes.get_mut(place)) {
        (0, Some(byte)) => *byte = draw.next() as u8,
        (1, Some(byte)) => *byte ^= 1 << draw.below(8),
        (2, Some(_)) => drop(bytes.remove(place)),
        (3, _) if draw.below(8) == 0 => bytes.truncate(place),
        _ => bytes.insert(place, draw.next() as u8 & 0x7F),
    }
}

/// A line is taken out, doubled or moved.
fn line(bytes: &mut Vec<u8>, draw: &mut Draw) {
    let mut lines: Vec<Vec<u8>> = bytes.split_inclusive(|byte| *byte == b'\n').map(<[u8]>::to_vec).collect();
    if lines.is_empty() {
        return;
    }
    let place = draw.below(lines.len());
    let line = lines[place].clone();
    match draw.below(3) {
        0 => drop(lines.remove(place)),
        1 => lines.insert(draw.below(lines.len()), line),
        _ => {
            lines.remove(place);
            lines.insert(draw.below(lines.len() + 1), line);
        }
    }
    *bytes = lines.concat();
}

/// A word, number, text or sign gives way to another, or to one of the same text.
fn token(bytes: &mut Vec<u8>, draw: &mut Draw) {
    let tokens = tokens(bytes);
    if tokens.is_empty() {
        return;
    }
    let (start, end) = tokens[draw.below(tokens.len())];
    let other = match draw.below(3) {
        0 => {
            let (start, end) = tokens[draw.below(tokens.len())];
            bytes[start..end].to_vec()
        }
        _ => TOKENS[draw.below(TOKENS.len())].as_bytes().to_vec(),
    };
    bytes.splice(start..end, other);
}

fn tokens(bytes: &[u8]) -> Vec<(usize, usize)> {
    let mut tokens = Vec::new();
    let mut start = 0;
    while start < bytes.len() {
        let inside = |byte: u8| byte.is_ascii_alphanumeric() || byte == b'_' || byte >= 0x80;
        let end = match bytes[start] {
            quote @ (b'"' | b'\'') => {
                let length = bytes[start + 1..].iter().position(|byte| *byte == quote || *byte == b'\n');
                length.map_or(bytes.len(), |length| start + length + 2)
            }
            byte if inside(byte) => start + bytes[start..].iter().take_while(|byte| inside(**byte)).count(),
            _ => start + 1,
        };
        if !bytes[start].is_ascii_whitespace() {
            tokens.push((start, end));
        }
        start = end;
    }
    tokens
}

#[test]
fn every_damaged_manifest_ends_with_a_status() {
    let threads = [7, 8].map(|seed| std::thread::spawn(move || statuses(seed)));
    let mut statuses = [0usize; 6];
    for thread in threads {
        for (sum, count) in statuses.iter_mut().zip(thread.join().unwrap()) {
            *sum += count;
        }
    }
    println!("damaged manifests by status: {statuses:?}");
    // Each way to end is met often.
    assert!([0, 2, 3, 4].iter().all(|status| statuses[*status] > COUNT / 100), "{statuses:?}");
}

/// How many of the manifests drawn from this seed end with each status.
fn statuses(seed: u64) -> [usize; 6] {
    let folder = Folder::new(&format!("damaged-manifests-{seed}"));
    dff(&["sample", &folder.text("sample")]).with(0, "");
    folder.write("sound.raw", [0x69; 18_816]);
    folder.write("second.raw", vec![0x69; 75 * 9_408]);
    folder.write("frames.dst", [0; 7]);
    folder.write("frames.txt", "3\n4\n");
    folder.write("one.toml", "version=1\n[[file]]\nname='tone.dff'\nsource={raw='sound.raw',channels=2}\n");
    dff(&["build", &folder.text("one.toml"), "-o", &folder.text("")]).with(0, "");
    let sample = String::from_utf8(folder.read("sample/sample.toml")).unwrap();
    let sample = sample.replace("\"sound.raw\"", "\"sample/sound.raw\"").replace("\"frames.", "\"sample/frames.");
    let whole = [FULL, DST, INLINE, &sample];
    for text in whole {
        folder.run("check", text).with(0, "");
    }
    let mut draw = Draw(seed);
    let mut statuses = [0; 6];
    for number in 0..COUNT {
        let bytes = damaged(whole[draw.below(whole.len())], &mut draw);
        // A file that is emptied and written again would go to the disk each time.
        fs::remove_file(folder.path("album.toml")).unwrap();
        let path = folder.write("album.toml", &bytes);
        let ended = catch_unwind(|| dff(&["check".into(), path.into_os_string()]));
        let Ok(ran) = ended else { panic!("{number}: {}", String::from_utf8_lossy(&bytes)) };
        let known = (0..=4).contains(&ran.status) && (ran.status == 0) == ran.err.is_empty();
        assert!(known, "{number}: {ran:?}\n{}", String::from_utf8_lossy(&bytes));
        statuses[usize::from(ran.status)] += 1;
    }
    statuses
}
