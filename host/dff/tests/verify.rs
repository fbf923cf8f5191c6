//! `dff verify` says what it looked at, and finds each of a list of damages.

mod made;

use jangqeruz::{Area, ArtistTitle, Comment, CommentKind, IndexOffset, Kind, Layout, Marker, MarkerKind, Options};
use made::edit::{Part, parts};
use made::{Frames, Made, dff_on, folder};
use std::fs;
use std::path::{Path, PathBuf};

/// Two frames, the first its own content, the second compressed; CRCs, index, odd texts.
fn coded() -> Made {
    let plain = vec![vec![0x69; 9408], vec![0x96; 9408]];
    let frames = Frames { coded: vec![[vec![0], plain[0].clone()].concat(), vec![0x80; 33]], plain };
    let album = ArtistTitle { artist: Some("odd".into()), title: Some("even".into()) };
    let options =
        Options { dst_crc: true, edited_master_info: true, artist_title: Some(true), album, ..Options::default() };
    Made::new(Area::new(Kind::Dst, 2, Layout::Stereo, 2), options, frames).unwrap()
}

fn verify(folder: &Path, bytes: &[u8], args: &[&str]) -> made::common::Ran {
    let path = folder.join("file.dff");
    fs::write(&path, bytes).unwrap();
    dff_on("verify", &path, args)
}

fn raw(folder: &Path, bytes: &[u8]) -> PathBuf {
    let path = folder.join("plain.raw");
    fs::write(&path, bytes).unwrap();
    path
}

#[test]
fn what_was_checked_is_told() {
    let folder = folder("verify_told");
    let made = coded();
    let run = verify(&folder, &made.bytes, &[]);
    assert_eq!((run.status, run.err.as_str()), (0, ""));
    for words in [
        "2 DST frames, FRTE tells 2",
        "2 index entries looked at, 0 wrong, leading to chunk headers",
        "1 of 2 CRCs worked out and compared, 1 not (their content is not at hand; --plain FILE tells it)",
        "file.dff: right",
    ] {
        assert!(run.out.contains(words), "{}", run.out);
    }
    let plain = raw(&folder, &made.plain());
    let run = verify(&folder, &made.bytes, &["--plain", plain.to_str().unwrap()]);
    assert_eq!((run.status, run.err.as_str()), (0, ""));
    assert!(run.out.contains("2 of 2 CRCs worked out and compared\n"), "{}", run.out);
    assert!(run.out.contains("1 frame compared with the plain content"), "{}", run.out);
    let run = dff_on("verify", &folder.join("file.dff"), &["--quiet"]);
    assert_eq!((run.status, run.out.as_str()), (0, ""));
    assert_eq!(dff_on("verify", &folder.join("missing.dff"), &[]).status, 4);
}

#[test]
fn plain_content_of_another_size_or_recording() {
    let folder = folder("verify_plain");
    let made = coded();
    let mut plain = made.plain();
    let path = raw(&folder, &plain[1..]);
    let args = ["--plain", path.to_str().unwrap()];
    let run = verify(&folder, &made.bytes, &args);
    assert_eq!(run.status, 4, "{}", run.err);
    plain[9408] ^= 1;
    raw(&folder, &plain);
    let run = verify(&folder, &made.bytes, &args);
    assert_eq!(run.status, 1);
    assert!(run.err.contains("the CRC of frame 1"), "{}", run.err);
    plain[0] ^= 1;
    raw(&folder, &plain);
    let run = verify(&folder, &made.bytes, &args);
    assert!(run.err.contains("frame 0 is not the plain content's"), "{}", run.err);
    // plain sound is compared byte for byte
    let frames = Frames { coded: vec![], plain: made.frames.plain.clone() };
    let plain_made = Made::new(Area { kind: Kind::Dsd, ..made.area }, Options::default(), frames).unwrap();
    let run = verify(&folder, &plain_made.bytes, &args);
    assert_eq!((run.status, run.err.lines().count()), (1, 2), "{}", run.err);
    raw(&folder, &plain_made.plain());
    let run = verify(&folder, &plain_made.bytes, &args);
    assert_eq!(run.status, 0);
    assert!(run.out.contains("2 frames compared"), "{}", run.out);
}

#[test]
fn each_damage_is_found() {
    let folder = folder("verify_damages");
    let right = coded().bytes;
    let form = parts(&right);
    // damages in place
    let place = |name: &[u8; 4]| right.windows(4).position(|bytes| bytes == name).unwrap();
    let (info, index, sound) = (place(b"DIAR"), place(b"DSTI"), place(b"FRTE") - 12);
    let cmpr = place(b"CMPR");
    let first = place(b"DSTF");
    let in_place: [(usize, u8, usize, &str); 14] = [
        (0, b'X', 0, "begin with FRM8"),
        (11, right[11].wrapping_add(2), 0, "runs past the file's end"),
        (place(b"FVER"), b'X', 0, "no FVER"),
        (place(b"SND "), b'X', place(b"PROP"), "PROP is of type"),
        (cmpr + 12 + 2, b'D', cmpr, "compression type"),
        (info + 12 + 4 + 3, 1, info + 12 + 4 + 3, "pads are not zero"),
        (index + 12 + 7, right[index + 19] ^ 1, index + 12, "index entry 0"),
        (index + 12 + 11, right[index + 23] ^ 1, index + 12, "index entry 0"),
        (index + 24 + 7, right[index + 31].wrapping_add(12), index + 24, "index entry 1"),
        (sound, b'X', 0, "no sound chunk"),
        (place(b"FRTE") + 15, 3, place(b"FRTE"), "FRTE tells 3 frames, there are 2"),
        (place(b"FRTE") + 17, 74, place(b"FRTE"), "frame rate is 74"),
        (first + 12 + 9408 + 1, 9, first + 12 + 9409, "pads are not zero"),
        (first + 12 + 9, 9, place(b"DSTC"), "the CRC of frame 0"),
    ];
    for (at, byte, fault, words) in in_place {
        let mut bytes = right.clone();
        bytes[at] = byte;
        let run = verify(&folder, &bytes, &[]);
        assert_eq!(run.status, 1, "{words}");
        assert!(run.err.contains(&format!("at {fault}: ")) && run.err.contains(words), "{words}: {}", run.err);
        assert!(!run.out.contains("right"));
    }
    // damages of the tree
    type Edit<'a> = &'a dyn Fn(&mut Part);
    let edits: [(Edit, &str); 8] = [
        (&|form| form.chunks.truncate(1), "no PROP"),
        (&|form| form.chunks.push(Part::leaf(b"FVER", &[1, 5, 0, 0])), "FVER is repeated"),
        (&|form| form.at(b"PROP").chunks.truncate(1), "no CHNL"),
        (&|form| form.at(b"DSTI").data.truncate(12), "1 index entries for 2 frames"),
        (&|form| form.at(b"DSTI").data.push(0), "DSTI has 25 bytes, its fields have 24"),
        (&|form| drop(form.at(b"DST ").chunks.pop()), "1 CRCs for 2 frames"),
        (&|form| drop(form.at(b"DST ").chunks.remove(2)), "CRC 0 doesn't stand behind frame 0"),
        (&|form| form.at(b"DIIN").at(b"DITI").data[3] = 9, "no room for a text of 9"),
    ];
    for (edit, words) in edits {
        let mut form = form.clone();
        edit(&mut form);
        let run = verify(&folder, &form.bytes(), &[]);
        assert_eq!(run.status, 1, "{words}");
        assert!(run.err.contains(words), "{words}: {}", run.err);
    }
    for size in [0, 3, 15, 16, 100, right.len() - 1] {
        assert_eq!(verify(&folder, &right[..size], &[]).status, 1);
    }
    let run = verify(&folder, &[&right[..], b"more"].concat(), &[]);
    assert!(run.status == 1 && run.err.contains("4 bytes after FRM8"));
}

/// Bytes behind the fields of each chunk whose size the format fixes are a fault, with the chunk's place; `show` marks
/// them.
#[test]
fn bytes_behind_the_fields() {
    let folder = folder("verify_leftovers");
    let made = {
        let mut made = coded();
        made.options.absolute_start = Some(75);
        let marker = Marker { frame: 0, kind: MarkerKind::TrackStart, track_flags: 0, text: b"odd".to_vec() };
        made.options.custom_markers = Some(vec![marker]);
        made.options.comments = vec![Comment { year: 2001, month: 1, day: 1, text: "odd".into(), ..comment() }];
        Made::new(made.area, made.options, made.frames).unwrap()
    };
    let mut right = parts(&made.bytes);
    right.chunks.retain(|part| part.name != *b"DSTI"); // longer chunks move the frames
    assert_eq!(verify(&folder, &right.bytes(), &[]).status, 0);
    let paths: [(&[&[u8; 4]], u64); 12] = [
        (&[b"FVER"], 4),
        (&[b"PROP", b"FS  "], 4),
        (&[b"PROP", b"CHNL"], 10),
        (&[b"PROP", b"CMPR"], 16),
        (&[b"PROP", b"ABSS"], 8),
        (&[b"PROP", b"LSCO"], 2),
        (&[b"DST ", b"FRTE"], 6),
        (&[b"DST ", b"DSTC"], 4),
        (&[b"DIIN", b"MARK"], 25),
        (&[b"DIIN", b"DIAR"], 7),
        (&[b"DIIN", b"DITI"], 8),
        (&[b"COMT"], 20),
    ];
    for (path, fields) in paths {
        let mut form = right.clone();
        let part = path.iter().fold(&mut form, |part, name| part.at(name));
        part.data.extend([0; 2]);
        let (name, size) = (part.name, part.data.len() as u64);
        let bytes = form.bytes();
        let place = bytes.windows(4).position(|bytes| *bytes == name).unwrap();
        let run = verify(&folder, &bytes, &[]);
        let name = String::from_utf8(name.to_vec()).unwrap();
        let words = format!("at {place}: {} has {size} bytes, its fields have {fields}\n", name.trim_end());
        assert_eq!((run.status, run.err.lines().count()), (1, 1), "{name}: {}", run.err);
        assert!(run.err.contains(&words), "{words}: {}", run.err);
        let run = dff_on("show", &folder.join("file.dff"), &[]);
        assert_eq!((run.status, run.err.as_str()), (0, ""));
        let line = run.out.lines().find(|line| line.trim_start().starts_with(&name)).unwrap();
        let left = size - fields;
        let words = match name.as_str() {
            "DSTC" => "(1 of them with bytes behind their fields)".into(),
            _ => format!(" ({left} bytes behind its fields)"),
        };
        assert!(line.ends_with(&words), "{line}");
        let run = dff_on("show", &folder.join("file.dff"), &["--json"]);
        let words = match name.as_str() {
            "DSTC" => "\"crcs_with_leftover_bytes\": 1".into(),
            _ => format!("\"leftover_bytes\": {left}"),
        };
        assert!(run.out.contains(&words), "{words}: {}", run.out);
    }
    // all of EMID is its text
    let mut form = right.clone();
    form.at(b"DIIN").at(b"EMID").data.extend([0; 2]);
    assert_eq!(verify(&folder, &form.bytes(), &[]).status, 0);
}

fn comment() -> Comment {
    let (kind, text) = (CommentKind::General, String::new());
    Comment { year: 0, month: 0, day: 0, hour: 0, minutes: 0, kind, reference: 0, text }
}

/// Of many faults 50 are listed, and all are counted.
#[test]
fn many_faults_are_counted() {
    let folder = folder("verify_many");
    let plain = vec![vec![0x69; 4704]; 60];
    let coded: Vec<Vec<u8>> = plain.iter().map(|content| [&[0], content.as_slice()].concat()).collect();
    let options = Options { dst_crc: true, dst_index: false, ..Options::default() };
    let area = Area::new(Kind::Dst, 1, Layout::Unspecified, 60);
    let made = Made::new(area, options, Frames { coded, plain }).unwrap();
    let mut form = parts(&made.bytes);
    let crcs = |form: &mut Part, count: usize, edit: &dyn Fn(&mut Vec<u8>)| {
        let sound = form.at(b"DST ");
        sound.chunks.iter_mut().filter(|part| part.name == *b"DSTC").take(count).for_each(|part| edit(&mut part.data));
    };
    let told = |form: &Part, last: &str| {
        let run = verify(&folder, &form.bytes(), &[]);
        let lines: Vec<&str> = run.err.lines().collect();
        assert!(run.status == 1 && lines.last().unwrap().ends_with(last), "{}", run.err);
        lines.len()
    };
    crcs(&mut form, 50, &|data| data[0] ^= 1);
    assert_eq!(told(&form, ", its content has 2159b5d9"), 50);
    let mut form = parts(&made.bytes);
    crcs(&mut form, 51, &|data| data[0] ^= 1);
    assert_eq!(told(&form, ": and 1 more fault"), 51);
    let mut form = parts(&made.bytes);
    crcs(&mut form, 60, &|data| data[0] ^= 1);
    assert_eq!(told(&form, ": and 10 more faults"), 51);
    // each with a byte too many, too
    crcs(&mut form, 60, &|data| data.push(0));
    assert_eq!(told(&form, ": and 70 more faults"), 51);
    // and each too short, which is the walk's
    crcs(&mut form, 60, &|data| data.truncate(3));
    assert_eq!(told(&form, ": and 10 more faults"), 51);
    let info = Part { name: *b"DIIN", data: vec![], chunks: vec![Part::leaf(b"MARK", &[]); 1500] };
    form.chunks.push(info);
    assert_eq!(told(&form, ": and 1510 more faults"), 51);
}

/// Another version is told, and no fault.
#[test]
fn another_version_is_a_note() {
    let folder = folder("verify_version");
    let mut form = parts(&coded().bytes);
    form.at(b"FVER").data = vec![1, 4, 0, 0];
    let run = verify(&folder, &form.bytes(), &[]);
    assert_eq!((run.status, run.err.as_str()), (0, ""));
    assert!(run.out.contains("note: at 16: version 1.4.0.0, looked at as 1.5.0.0\n"), "{}", run.out);
    let run = dff_on("show", &folder.join("file.dff"), &[]);
    assert_eq!(run.status, 0);
    assert!(run.out.contains("version 1.4.0.0 (not 1.5.0.0, as which the file is shown)\n"), "{}", run.out);
}

/// The place that an entry should name, as the others do: the header's or the data's. `show` says the same.
#[test]
fn a_wrong_entry_of_each_index() {
    let folder = folder("verify_entries");
    for (offset, past) in [(IndexOffset::ChunkHeader, 12), (IndexOffset::FrameData, 0)] {
        let made = coded();
        let options = Options { dst_index_offset: offset, ..made.options };
        let mut form = parts(&Made::new(made.area, options, made.frames).unwrap().bytes);
        form.at(b"DSTI").data[12] ^= 1;
        let bytes = form.bytes();
        let run = verify(&folder, &bytes, &[]);
        let place = walk::walk(&bytes[..]).unwrap().sound.unwrap().frames[1].place - past;
        assert_eq!(run.status, 1);
        assert!(run.err.contains(&format!("frame 1 is at {place}, 33 bytes")), "{}", run.err);
        let run = dff_on("show", &folder.join("file.dff"), &[]);
        assert!(run.out.contains(&format!("; it should be {place}, length 33\n")), "{}", run.out);
        let run = dff_on("show", &folder.join("file.dff"), &["--json"]);
        assert!(run.out.contains(&format!("\"frame_place\": {place},")), "{}", run.out);
    }
}
