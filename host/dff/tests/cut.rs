//! `dff cut`: the whole range gives the same bytes, a span what a build of it gives; what can't be carried is an error.

mod made;

use jangqeruz::{Area, Kind, Layout, Marker, MarkerKind, Options};
use made::edit::{Part, parts};
use made::{Draw, Frames, Made, dff_on, draw, folder, settle};
use std::fs;
use std::os::unix::fs::FileExt;
use std::path::{Path, PathBuf};

const FILES: u64 = if cfg!(debug_assertions) { 150 } else { 1000 };

/// Drawn files in a folder, each with its plain content beside it.
fn drawn(name: &str, seed: u64) -> (PathBuf, Vec<Made>) {
    let (folder, mut random) = (folder(name), Draw(seed));
    let files: Vec<Made> = (0..FILES).map(|_| draw::made(&mut random)).collect();
    for (number, made) in files.iter().enumerate() {
        fs::write(folder.join(format!("{number}.dff")), &made.bytes).unwrap();
        fs::write(folder.join(format!("{number}.raw")), made.plain()).unwrap();
    }
    settle();
    (folder, files)
}

/// Whether all frames are their own content.
fn all_own(made: &Made) -> bool {
    made.frames.coded.iter().zip(&made.frames.plain).all(|(coded, plain)| coded.len() == plain.len() + 1)
}

fn plain_args<'a>(made: &Made, raw: &'a Path) -> Vec<&'a str> {
    let wanted = made.area.kind == Kind::Dst && made.options.dst_crc && !all_own(made);
    if wanted { vec!["--plain", raw.to_str().unwrap()] } else { vec![] }
}

#[test]
fn the_whole_range_gives_the_same_bytes() {
    let (folder, files) = drawn("cut_whole", 1);
    let out = folder.join("out.dff");
    for (number, made) in files.iter().enumerate() {
        let path = folder.join(format!("{number}.dff"));
        let raw = folder.join(format!("{number}.raw"));
        let mut args = vec!["--force", "-o", out.to_str().unwrap()];
        args.extend(plain_args(made, &raw));
        let run = dff_on("cut", &path, &args);
        assert_eq!(run.status, 0, "{number}: {}{:?}", run.err, made.options);
        assert!(fs::read(&out).unwrap() == made.bytes, "{number}: {:?}", made.options);
        let run = dff_on("verify", &path, &["--plain", raw.to_str().unwrap()]);
        assert_eq!((run.status, run.err.as_str()), (0, ""), "{number}: {:?}", made.options);
        let run = dff_on("verify", &path, &[]);
        assert_eq!((run.status, run.err.as_str()), (0, ""), "{number}: {:?}", made.options);
    }
    // the drawn files had what they were drawn for
    let count = |test: &dyn Fn(&Made) -> bool| files.iter().filter(|made| test(made)).count();
    assert!(count(&|made| made.options.edited_master) > 3);
    assert!(count(&|made| made.options.dst_crc && made.area.kind == Kind::Dst && !all_own(made)) > 10);
    assert!(count(&|made| made.options.edited_master_info && made.options.custom_markers.is_some()) > 10);
    assert!(count(&|made| made.options.d1 && made.area.kind == Kind::Dsd) > 10);
}

/// A span of a file with given markers is the build of that span, its start moved on, its markers those inside.
#[test]
fn a_span_is_a_build_of_it() {
    let (folder, files) = drawn("cut_span", 2);
    let (out, mut random, mut compared) = (folder.join("out.dff"), Draw(3), 0);
    for (number, made) in files.iter().enumerate() {
        let frames = made.area.end - made.area.first;
        let from = random.range(0..frames);
        let to = random.range(from + 1..frames + 1);
        let path = folder.join(format!("{number}.dff"));
        let raw = folder.join(format!("{number}.raw"));
        let (first, last) = (from.to_string(), to.to_string());
        let mut args = vec!["--force", "-o", out.to_str().unwrap(), "--from", &first, "--to", &last];
        args.extend(plain_args(made, &raw));
        let run = dff_on("cut", &path, &args);
        assert_eq!(run.status, 0, "{number}: {}{:?}", run.err, made.options);
        let bytes = fs::read(&out).unwrap();
        same_frames(made, &bytes, from, to);
        // markers from tracks are not made anew in a span
        if made.options.edited_master || (made.options.edited_master_info && made.options.custom_markers.is_none()) {
            continue;
        }
        let area = Area { first: made.area.first + from, end: made.area.first + to, ..made.area.clone() };
        let mut options = made.options.clone();
        options.empty_info |= parts(&made.bytes).chunks.iter().any(|part| part.name == *b"DIIN");
        options.absolute_start = options.absolute_start.map(|start| start + from);
        let markers = options.custom_markers.iter_mut().flatten();
        let given = markers.count();
        if let Some(markers) = &mut options.custom_markers {
            let whole_end = area.end == made.area.end;
            markers.retain(|marker| {
                let ends_it = marker.frame == area.end && (whole_end || marker.kind == MarkerKind::TrackStop);
                (area.first..area.end).contains(&marker.frame) || ends_it
            });
            let left = given - markers.len();
            let told = run.out.contains(&format!("{left} of {given} markers are outside"));
            assert_eq!(told, left > 0 && made.options.edited_master_info, "{}", run.out);
        }
        let expected = Made::new(area, options, made.frames.clone()).expect("the library takes it");
        assert!(bytes == expected.bytes, "{number}: {from} to {to} {:?}", made.options);
        compared += 1;
    }
    assert!(compared > FILES / 2);
}

/// The frames of a cut are those of the source.
fn same_frames(made: &Made, bytes: &[u8], from: u32, to: u32) {
    let walked = walk::walk(bytes).unwrap();
    assert_eq!(walked.faults, []);
    assert_eq!(walked.frame_count(), u64::from(to - from));
    let sound = walked.sound.as_ref().unwrap();
    let source = if made.area.kind == Kind::Dst { &made.frames.coded } else { &made.frames.plain };
    for number in from..to {
        let frame = sound.frame(u64::from(number - from), walked.frame_bytes()).unwrap();
        let stored = &bytes[frame.place as usize..][..frame.length as usize];
        assert!(stored == source[(made.area.first + number) as usize]);
    }
}

/// A small DST file with CRCs, an index, markers, texts and comments; its frames are compressed unless `own`.
fn rich(own: bool) -> Made {
    let frame = vec![0x69; 9408];
    let coded = if own { [vec![0], frame.clone()].concat() } else { vec![0x80, 1, 2] };
    let frames = Frames { coded: vec![coded; 4], plain: vec![frame; 4] };
    let markers = [(0, MarkerKind::ProgramStart), (0, MarkerKind::TrackStart), (4, MarkerKind::TrackStop)];
    let markers = markers.map(|(frame, kind)| Marker { frame, kind, track_flags: 0, text: vec![] }).to_vec();
    let options =
        Options { dst_crc: true, edited_master_info: true, custom_markers: Some(markers), ..Options::default() };
    Made::new(Area::new(Kind::Dst, 2, Layout::Stereo, 4), options, frames).unwrap()
}

/// Cuts a file that was edited, and answers status and message.
fn cut_of(folder: &Path, form: &Part, args: &[&str]) -> (u8, String) {
    let (path, out) = (folder.join("edited.dff"), folder.join("out.dff"));
    fs::write(&path, form.bytes()).unwrap();
    let args = [&["--force", "-o", out.to_str().unwrap()], args].concat();
    let run = dff_on("cut", &path, &args);
    (run.status, run.err)
}

#[track_caller]
fn not_carried(folder: &Path, form: &Part, args: &[&str], words: &str) {
    let (status, err) = cut_of(folder, form, args);
    assert_eq!(status, 1, "{err}");
    assert!(err.contains(words), "{err}");
}

#[test]
fn crcs_want_their_content() {
    let folder = folder("cut_crcs");
    let made = rich(false);
    let form = parts(&made.bytes);
    let raw = folder.join("plain.raw");
    let plain = ["--plain", raw.to_str().unwrap()];
    fs::write(&raw, made.plain()).unwrap();
    not_carried(&folder, &form, &[], "--plain FILE tells it, --drop-crc leaves all CRCs out");
    assert_eq!(cut_of(&folder, &form, &plain), (0, String::new()));
    assert!(fs::read(folder.join("out.dff")).unwrap() == made.bytes);
    assert_eq!(cut_of(&folder, &form, &["--drop-crc"]).0, 0);
    let walked = walk::walk(&fs::read(folder.join("out.dff")).unwrap()[..]).unwrap();
    assert_eq!(walked.sound.unwrap().crcs, []);
    // another recording's content, or too little of it
    fs::write(&raw, vec![0x96; 4 * 9408]).unwrap();
    let (status, err) = cut_of(&folder, &form, &plain);
    assert_eq!(status, 4);
    assert!(err.contains("the CRC of frame 0"), "{err}");
    fs::write(&raw, vec![0x69; 3 * 9408]).unwrap();
    let (status, err) = cut_of(&folder, &form, &plain);
    assert_eq!(status, 4);
    assert!(err.contains("has 28224 bytes; 37632 are wanted for 4 frames"), "{err}");
    // of frames that are their own content the CRC is the file's fault
    let mut form = parts(&rich(true).bytes);
    assert_eq!(cut_of(&folder, &form, &[]).0, 0);
    form.at(b"DST ").chunks[4].data[0] ^= 1;
    not_carried(&folder, &form, &[], "the CRC of frame 1");
    assert!(!folder.join("new.dff").exists());
    // one CRC missing
    let mut form = parts(&rich(true).bytes);
    form.at(b"DST ").chunks.remove(4);
    let at = form.find(b"DSTI");
    form.chunks.remove(at);
    not_carried(&folder, &form, &[], "--drop-crc leaves all CRCs out");
    assert_eq!(cut_of(&folder, &form, &["--drop-crc"]).0, 0);
}

#[test]
fn what_cannot_be_carried_is_an_error() {
    let folder = folder("cut_errors");
    let right = parts(&rich(true).bytes);
    assert_eq!(cut_of(&folder, &right, &[]).0, 0);
    let marker = |form: &mut Part, place: usize, bytes: &[u8]| {
        let info = form.at(b"DIIN");
        let first = info.find(b"MARK");
        info.chunks[first + 1].data[place..place + bytes.len()].copy_from_slice(bytes);
    };
    type Edit<'a> = &'a dyn Fn(&mut Part);
    let of_markers: [(Edit, &str); 6] = [
        (&|form| marker(form, 7, &[1]), "is at no frame's start"),
        (&|form| marker(form, 2, &[60]), "is at no frame's start"),
        (&|form| marker(form, 8, &[0, 0, 0, 5]), "offset is 5 samples"),
        (&|form| marker(form, 12, &[0, 3]), "kind is 3"),
        (&|form| marker(form, 14, &[0, 2]), "channel is 2"),
        (&|form| marker(form, 12, &[0, 4, 0, 0, 0, 9]), "flags are 0x0009"),
    ];
    for (edit, words) in of_markers {
        let mut form = right.clone();
        edit(&mut form);
        not_carried(&folder, &form, &[], words);
        not_carried(&folder, &form, &[], "--drop-markers leaves all markers out");
        assert_eq!(cut_of(&folder, &form, &["--drop-markers"]).0, 0, "{words}");
    }
    let others: [(Edit, &str); 16] = [
        (&|form| form.at(b"PROP").chunks.push(Part::leaf(b"ABCD", &[])), "chunk ABCD in PROP"),
        (&|form| form.at(b"DIIN").chunks.push(Part::leaf(b"ABCD", &[])), "chunk ABCD in DIIN"),
        (&|form| form.at(b"DST ").chunks.push(Part::leaf(b"ABCD", &[])), "chunk ABCD among the frames"),
        (&|form| form.chunks.push(Part::leaf(b"MANF", &[1, 2])), "named \"MANF\""),
        (&|form| form.chunks.push(Part::leaf(b"A CD", &[1, 2])), "named \"A CD\""),
        (&|form| form.chunks.push(Part::leaf(b"A\x01CD", &[1, 2])), "named \"A\\x01CD\""),
        (&|form| form.at(b"PROP").at(b"CHNL").data[2] = b'X', "channels named \"XLFT\" \"SRGT\""),
        (&|form| form.at(b"PROP").at(b"LSCO").data[1] = 3, "LSCO is 3"),
        (&|form| form.at(b"PROP").at(b"LSCO").data.push(3), "LSCO has 3 bytes"),
        (&|form| form.at(b"FVER").data.extend([0, 0]), "FVER has 6 bytes"),
        (&|form| form.at(b"PROP").chunks.push(Part::leaf(b"ABSS", &[0, 0, 0, 0, 0, 0, 0, 1])), "is no frame's time"),
        (&|form| form.at(b"PROP").chunks.push(Part::leaf(b"LSCO", &[0, 0])), "LSCO is repeated"),
        (&|form| form.chunks.push(Part::leaf(b"COMT", b"\0\x01\x07\xd0\x01\x01\0\0\0\x09\0\0\0\0\0\0")), "kind 9"),
        (&|form| form.chunks.push(Part::leaf(b"COMT", b"\0\x01\x07\xd0\x01\x01\0\0\0\0\0\x01\0\0\0\0")), "reference 1"),
        (&|form| form.at(b"DIIN").chunks.push(Part::leaf(b"DIAR", &[0, 0, 0, 1, 7])), "byte 0x07 in the artist"),
        (&|form| form.at(b"DSTI").data[7] ^= 1, "entry 0 of the index"),
    ];
    for (edit, words) in others {
        let mut form = right.clone();
        edit(&mut form);
        // chunks that were put in moved the frames
        if form.find(b"DSTI") > form.find(b"DST ") && !words.contains("index") {
            let at = form.find(b"DSTI");
            form.chunks.remove(at);
        }
        not_carried(&folder, &form, &[], words);
    }
    let mut pads = right.clone();
    pads.at(b"DIIN").chunks.push(Part::leaf(b"DIAR", b"\0\0\0\x01a"));
    pads.at(b"DIIN").chunks.push(Part::leaf(b"DITI", b"\0\0\0\x01a\0"));
    let at = pads.find(b"DSTI");
    pads.chunks.remove(at);
    not_carried(&folder, &pads, &[], "the pad is not counted in the chunk's size, but in that at");
    // what the library refuses is its own: an ID with a byte that no file has
    let mut refused = right.clone();
    refused.at(b"DIIN").at(b"EMID").data = b"\x80\x80".to_vec();
    refused.chunks.remove(at);
    let (status, err) = cut_of(&folder, &refused, &[]);
    assert_eq!(status, 3);
    assert!(err.contains("edited.dff: cannot be written again: refused (31): "), "{err}");
    assert!(err.contains("\n  dff explain 31 tells more of it\n") && !err.contains("remedy"), "{err}");
}

/// A COMT with these comments: kind, month, text.
fn comments(list: &[(u8, u8, &[u8])]) -> Part {
    let mut data = vec![0, list.len() as u8];
    for (kind, month, text) in list {
        data.extend([0x07, 0xd0, *month, 1, 0, 0, 0, *kind, 0, 0, 0, 0, 0, text.len() as u8]);
        data.extend(*text);
        data.resize(data.len().next_multiple_of(2), 0);
    }
    Part::leaf(b"COMT", &data)
}

#[test]
fn comments_that_cannot_be_written() {
    let folder = folder("cut_comments");
    let mut right = parts(&rich(true).bytes);
    right.chunks.retain(|part| part.name != *b"DSTI");
    let hint = "\n  --drop-comments leaves all comments out\n";
    let with = |part: Part| {
        let mut form = right.clone();
        form.chunks.push(part);
        form
    };
    let mut long = comments(&[(0, 1, b"ab")]);
    long.data.push(0);
    let mut reference = comments(&[(0, 1, b"ab")]);
    reference.data[11] = 1;
    for (part, words) in [
        (comments(&[(0, 1, b"fine"), (0, 1, b"two\nlines")]), "byte 0x0a in a comment \"two\\x0alines\""),
        (comments(&[(0, 1, "\u{2019}".as_bytes()), (0, 1, b"fine")]), "in a comment"), // UTF-8
        (comments(&[(9, 1, b"ab")]), "a comment of kind 9"),
        (reference, "a general comment's reference 1"),
        (long, "COMT has 19 bytes"),
    ] {
        let form = with(part);
        not_carried(&folder, &form, &[], words);
        not_carried(&folder, &form, &[], hint);
        let run = dropped(&folder, &["--drop-comments"]);
        assert_eq!((run.status, run.err.as_str()), (0, ""), "{words}");
        assert!(run.out.contains(" comments are left out\n"), "{}", run.out);
        assert!(fs::read(folder.join("out.dff")).unwrap() == right_cut(&folder, &right));
    }
    // a repeated COMT
    let mut twice = with(comments(&[(0, 1, b"one")]));
    twice.chunks.push(comments(&[(0, 1, b"two")]));
    not_carried(&folder, &twice, &[], hint);
    let run = dropped(&folder, &["--drop-comments"]);
    assert!(run.status == 0 && run.out.contains("which is a repeated one, is left out"), "{}{}", run.err, run.out);
    // none to leave out
    assert_eq!(cut_of(&folder, &right, &["--drop-comments"]), (0, String::new()));
    // a date that the library refuses
    let date = with(comments(&[(0, 13, b"ab")]));
    let (status, err) = cut_of(&folder, &date, &[]);
    assert_eq!(status, 3);
    assert!(err.contains("edited.dff: cannot be written again: refused (34): ") && err.ends_with(hint), "{err}");
    assert_eq!(cut_of(&folder, &date, &["--drop-comments"]).0, 0);
}

/// The file without comments, cut.
fn right_cut(folder: &Path, right: &Part) -> Vec<u8> {
    assert_eq!(cut_of(folder, right, &[]).0, 0);
    fs::read(folder.join("out.dff")).unwrap()
}

/// The last edited file cut again.
fn dropped(folder: &Path, args: &[&str]) -> made::common::Ran {
    let out = folder.join("out.dff");
    dff_on("cut", &folder.join("edited.dff"), &[&["--force", "-o", out.to_str().unwrap()], args].concat())
}

#[test]
fn markers_that_cannot_be_written() {
    let folder = folder("cut_marker_texts");
    let mut right = parts(&rich(true).bytes);
    right.chunks.retain(|part| part.name != *b"DSTI");
    let text = |bytes: &[u8]| {
        let mut form = right.clone();
        let data = &mut form.at(b"DIIN").at(b"MARK").data;
        data[21] = 2;
        data.extend(bytes);
        form
    };
    for (form, words) in [(text(b"a\x07"), "byte 0x07 in a marker's text"), (text(b"abc"), "MARK has 25 bytes")] {
        not_carried(&folder, &form, &[], words);
        not_carried(&folder, &form, &[], "\n  --drop-markers leaves all markers out\n");
        assert_eq!(cut_of(&folder, &form, &["--drop-markers"]).0, 0);
    }
}

#[test]
fn what_is_written_otherwise_is_told() {
    let folder = folder("cut_notes");
    let made = draw::made(&mut Draw(5));
    let mut form = parts(&made.bytes);
    form.chunks.retain(|part| part.name != *b"DSTI");
    form.at(b"FVER").data = vec![1, 4, 0, 0];
    form.chunks.insert(0, Part::leaf(b"ABCD", &[1, 2]));
    form.at(b"PROP").at(b"CMPR").data.truncate(4);
    form.at(b"PROP").at(b"CMPR").data.extend(b"\x05other");
    let (path, out) = (folder.join("in.dff"), folder.join("out.dff"));
    fs::write(&path, form.bytes()).unwrap();
    let run = dff_on("cut", &path, &["-o", out.to_str().unwrap(), "--drop-crc"]);
    assert_eq!(run.status, 0, "{}", run.err);
    for words in ["version 1.4.0.0 becomes 1.5.0.0", "FVER is put first", "put behind the others", "\"other\""] {
        assert!(run.out.contains(words), "{words}: {}", run.out);
    }
    let walked = walk::walk(&fs::read(&out).unwrap()[..]).unwrap();
    assert_eq!(walked.form.unwrap().chunks.iter().filter(|chunk| chunk.name.0 == *b"ABCD").count(), {
        1 + made.options.chunks.iter().filter(|chunk| chunk.name == *b"ABCD").count()
    });
}

#[test]
fn usage_and_outputs() {
    let folder = folder("cut_usage");
    let mut form = parts(&rich(true).bytes);
    let (path, out) = (folder.join("in.dff"), folder.join("out.dff"));
    fs::write(&path, form.bytes()).unwrap();
    let to = out.to_str().unwrap();
    for (args, status) in [
        (&["-o", to, "--from", "2", "--to", "2"][..], 2),
        (&["-o", to, "--from", "3", "--to", "2"], 2),
        (&["-o", to, "--to", "5"], 2),
        (&["-o", to, "--from", "4294967295"], 2),
        (&["-o", to, "--from", "x"], 2),
        (&["-o", to, "--plain", "/nowhere/at/all"], 4),
        (&["-o", "/nowhere/at/all/out.dff"], 5),
        (&["-o", to, "--from", "00:00:00:01", "--to", "00:00:00:03"], 0),
        (&["-o", to], 5),
        (&["-o", to, "--force"], 0),
    ] {
        let run = dff_on("cut", &path, args);
        assert_eq!(run.status, status, "{args:?}: {}", run.err);
    }
    assert_eq!(dff_on("cut", &folder.join("missing.dff"), &["-o", to, "--force"]).status, 4);
    assert_eq!(dff_on("cut", &folder, &["-o", to, "--force"]).status, 4);
    // a failed run leaves the old file
    let before = fs::read(&out).unwrap();
    form.chunks.push(Part::leaf(b"MANF", &[]));
    fs::write(&path, form.bytes()).unwrap();
    assert_eq!(dff_on("cut", &path, &["-o", to, "--force"]).status, 1);
    assert!(fs::read(&out).unwrap() == before);
    assert_eq!(fs::read_dir(&folder).unwrap().count(), 2);
}

#[test]
fn a_short_last_frame() {
    let folder = folder("cut_short");
    let frames = Frames { coded: vec![], plain: vec![vec![0x69; 9408], vec![0x96; 9408]] };
    let made = Made::new(Area::new(Kind::Dsd, 2, Layout::Stereo, 2), Options::default(), frames).unwrap();
    let mut form = parts(&made.bytes);
    form.at(b"DSD ").data.truncate(9408 + 100);
    not_carried(&folder, &form, &[], "the last frame has only 100 bytes");
    not_carried(&folder, &form, &[], "--to 1 leaves it out");
    assert_eq!(cut_of(&folder, &form, &["--to", "1"]), (0, String::new()));
    let expected = Made::new(Area { end: 1, ..made.area }, made.options, made.frames).unwrap();
    assert!(fs::read(folder.join("out.dff")).unwrap() == expected.bytes);
    assert_eq!(cut_of(&folder, &form, &["--to", "2"]).0, 2);
}

/// ffmpeg, which takes the frames of a file by its own reader, gets from a cut just those of the span.
#[test]
fn ffmpeg_copies_the_right_frames() {
    if std::process::Command::new("ffmpeg").arg("-version").output().is_err() {
        println!("skipped: ffmpeg is not there");
        return;
    }
    let folder = folder("cut_ffmpeg");
    let mut random = Draw(8);
    let plain: Vec<Vec<u8>> = (0..40).map(|_| random.bytes(9408)).collect();
    for kind in [Kind::Dsd, Kind::Dst] {
        let coded = if kind == Kind::Dst {
            plain.iter().map(|content| [&[0], content.as_slice()].concat()).collect()
        } else {
            vec![]
        };
        let frames = Frames { coded, plain: plain.clone() };
        let options = Options { dst_crc: true, ..Options::default() };
        let made = Made::new(Area::new(kind, 2, Layout::Stereo, 40), options, frames).unwrap();
        let source = if kind == Kind::Dst { &made.frames.coded } else { &made.frames.plain };
        let (path, out) = (folder.join("in.dff"), folder.join("out.dff"));
        fs::write(&path, &made.bytes).unwrap();
        assert!(copied(&path) == source.concat());
        let run = dff_on("cut", &path, &["--force", "-o", out.to_str().unwrap(), "--from", "7", "--to", "31"]);
        assert_eq!(run.status, 0, "{}", run.err);
        assert!(copied(&out) == source[7..31].concat());
    }
}

/// The sound of a file, copied by ffmpeg.
fn copied(path: &Path) -> Vec<u8> {
    let mut ffmpeg = std::process::Command::new("ffmpeg");
    ffmpeg.args(["-v", "error", "-i"]).arg(path).args(["-map", "0:a", "-c", "copy", "-f", "data", "-"]);
    let output = ffmpeg.output().unwrap();
    assert!(output.status.success(), "{}", String::from_utf8_lossy(&output.stderr));
    output.stdout
}

/// A file of twice the rate is read, but can't be written.
#[test]
fn twice_the_rate() {
    let folder = folder("cut_rate");
    let frames = Frames { coded: vec![], plain: vec![vec![0x69; 9408]; 4] };
    let made = Made::new(Area::new(Kind::Dsd, 2, Layout::Stereo, 4), Options::default(), frames).unwrap();
    let mut form = parts(&made.bytes);
    form.at(b"PROP").at(b"FS  ").data = 5_644_800u32.to_be_bytes().to_vec();
    not_carried(&folder, &form, &[], "5644800 samples a second");
    let run = dff_on("show", &folder.join("edited.dff"), &[]);
    assert_eq!(run.status, 0);
    assert!(run.out.contains("2 frames of 18816 bytes"), "{}", run.out);
}

/// A file may have more frames than a build takes; a span of it is cut.
#[test]
fn a_span_of_a_very_long_file() {
    let (folder, frames) = (folder("cut_long"), 2_000_000u64);
    let frame = Frames { coded: vec![], plain: vec![vec![0x69; 4704]] };
    let one = Made::new(Area::new(Kind::Dsd, 1, Layout::Unspecified, 1), Options::default(), frame).unwrap();
    let mut head = one.bytes[..one.bytes.len() - 4704].to_vec();
    let (place, size) = (head.len(), frames * 4704);
    head[4..12].copy_from_slice(&(place as u64 - 12 + size).to_be_bytes());
    head[place - 8..].copy_from_slice(&size.to_be_bytes());
    let (path, out) = (folder.join("long.dff"), folder.join("out.dff"));
    let file = fs::File::create(&path).unwrap();
    file.set_len(place as u64 + size).unwrap();
    file.write_all_at(&head, 0).unwrap();
    file.write_all_at(&[7; 4704], place as u64 + 1_999_998 * 4704).unwrap();
    let to = out.to_str().unwrap();
    let run = dff_on("cut", &path, &["-o", to, "--from", "1999997", "--to", "1999999"]);
    assert_eq!(run.status, 0, "{}", run.err);
    let expected = Frames { coded: vec![], plain: vec![vec![0; 4704], vec![7; 4704]] };
    let expected = Made::new(Area::new(Kind::Dsd, 1, Layout::Unspecified, 2), Options::default(), expected).unwrap();
    assert!(fs::read(&out).unwrap() == expected.bytes);
    // all of it is more than a file can have
    let run = dff_on("cut", &path, &["-o", to, "--force"]);
    assert_eq!(run.status, 3);
    assert!(run.err.contains("cannot be written again: refused (6)"), "{}", run.err);
    assert!(run.err.ends_with("\n  --from and --to give a shorter span\n"), "{}", run.err);
    fs::remove_file(&path).unwrap();
}
