//! `dff show`: the tree in words and as JSON, and files at fault.

mod made;

use jangqeruz::{Area, ArtistTitle, Comment, CommentKind, Kind, Layout, Marker, MarkerKind, Options};
use made::edit::parts;
use made::{Draw, Frames, Made, dff_on, draw, folder, settle};
use serde_json::{Value, json};
use std::fs;

fn rich() -> Made {
    let frames = Frames { coded: vec![vec![0x80; 3], vec![0x80; 4]], plain: vec![vec![0x69; 9408]; 2] };
    let markers = vec![
        Marker { frame: 0, kind: MarkerKind::TrackStart, track_flags: 3, text: b"one".to_vec() },
        Marker { frame: 2, kind: MarkerKind::TrackStop, track_flags: 0, text: vec![] },
    ];
    let comment = Comment {
        year: 2001,
        month: 2,
        day: 3,
        hour: 4,
        minutes: 5,
        kind: CommentKind::FileHistory,
        reference: 2,
        text: "say \"é\"".into(),
    };
    let options = Options {
        absolute_start: Some(270_001),
        edited_master_info: true,
        edited_master_id: Some(b"id".to_vec()),
        custom_markers: Some(markers),
        artist_title: Some(true),
        album: ArtistTitle { artist: Some("Ä".into()), title: None },
        d2: true,
        comments: vec![comment],
        ..Options::default()
    };
    Made::new(Area::new(Kind::Dst, 2, Layout::Stereo, 2), options, frames).unwrap()
}

#[test]
fn in_words() {
    let path = folder("show_words").join("a.dff");
    fs::write(&path, rich().bytes).unwrap();
    let run = dff_on("show", &path, &[]);
    assert_eq!((run.status, run.err.as_str()), (0, ""));
    let out = run.out;
    for words in [
        "DST, 2 channels, 2 frames (00:00:00:02)\n",
        "FRM8 at 0, ",
        "\n  FVER at 16, 4 bytes: version 1.5.0.0\n",
        "\n    FS   at 48, 4 bytes: 2822400 samples a second\n",
        "2 channels: SLFT SRGT\n",
        "\"DST \", \"DST Encoded\"\n",
        "8 bytes: 01:00:00:01\n",
        "2 bytes: 0 (stereo)\n",
        "\n  DIIN at 184, 104 bytes: 2 markers\n",
        ": 01:00:00:01 track start, flags 0x0003, \"one\"\n",
        ": 01:00:00:03 track stop\n",
        ": \"Ä\"\n",
        ": 2001-02-03 04:05, file history 2: \"say \\\"é\\\"\"\n",
        "DSTF: 2 frames, 7 bytes, shortest 3 (frame 0), longest 4 (frame 1)\n",
        "2 entries, each leads to its frame (chunk-header)\n",
    ] {
        assert!(out.contains(words), "{words}: {out}");
    }
}

#[test]
fn as_json() {
    let path = folder("show_json").join("a.dff");
    let made = rich();
    fs::write(&path, &made.bytes).unwrap();
    let run = dff_on("show", &path, &["--json"]);
    assert_eq!((run.status, run.err.as_str()), (0, ""));
    let shown: Value = serde_json::from_str(&run.out).unwrap();
    assert_eq!(shown["size"], made.bytes.len());
    assert_eq!(
        (&shown["kind"], &shown["frames"], &shown["duration"]),
        (&json!("DST"), &json!(2), &json!("00:00:00:02"))
    );
    assert_eq!(shown["index"], json!({ "entries": 2, "frames": 2, "offsets": "chunk-header", "wrong": 0 }));
    assert_eq!(shown["faults"], json!([]));
    let form = &shown["chunks"][0];
    assert_eq!((&form["name"], &form["place"]), (&json!("FRM8"), &json!(0)));
    let find = |parent: &Value, name: &str| {
        let list = parent["chunks"].as_array().unwrap();
        list.iter().find(|chunk| chunk["name"] == name).unwrap().clone()
    };
    let info = find(form, "DIIN");
    assert_eq!(info["value"], json!({ "markers": 2 }));
    assert_eq!(find(&info, "EMID")["value"], json!({ "text": "id" }));
    assert_eq!(find(&info, "DIAR")["value"], json!({ "text": "Ä" }));
    let marker = find(&info, "MARK");
    assert_eq!((&marker["value"]["time"]["frame"], &marker["value"]["flags"]), (&json!(270_001), &json!(3)));
    assert_eq!(find(form, "COMT")["value"]["comments"][0]["text"], "say \"é\"");
    assert_eq!(find(form, "DST ")["value"]["longest"]["length"], 4);
    let property = find(form, "PROP");
    assert_eq!(find(&property, "CHNL")["value"], json!({ "channels": ["SLFT", "SRGT"] }));
    assert_eq!(find(&property, "ABSS")["value"]["time"], "01:00:00:01");
    // places and sizes are those of the file
    let fver = find(form, "FVER");
    let place = fver["place"].as_u64().unwrap() as usize;
    assert_eq!(&made.bytes[place..place + 4], b"FVER");
}

#[test]
fn an_index_that_leads_astray() {
    let path = folder("show_index").join("a.dff");
    let mut form = parts(&rich().bytes);
    form.at(b"DSTI").data[19] ^= 1;
    fs::write(&path, form.bytes()).unwrap();
    let run = dff_on("show", &path, &[]);
    assert_eq!(run.status, 0);
    assert!(run.out.contains("2 entries, 1 wrong; the first is 1, at "), "{}", run.out);
    let run = dff_on("show", &path, &["--json"]);
    let shown: Value = serde_json::from_str(&run.out).unwrap();
    assert_eq!((&shown["index"]["wrong"], &shown["index"]["first_wrong"]["entry"]), (&json!(1), &json!(1)));
}

#[test]
fn files_at_fault() {
    let path = folder("show_faults").join("a.dff");
    let bytes = rich().bytes;
    fs::write(&path, &bytes[..bytes.len() - 30]).unwrap();
    let run = dff_on("show", &path, &[]);
    assert_eq!(run.status, 1);
    assert!(run.out.contains("2 channels: SLFT SRGT") && run.out.contains("runs past its parent"), "{}", run.out);
    assert!(run.err.contains("a.dff: at 0: FRM8 of size") && !run.err.contains("(49)"), "{}", run.err);
    let run = dff_on("show", &path, &["--json"]);
    assert_eq!(run.status, 1);
    let shown: Value = serde_json::from_str(&run.out).unwrap();
    assert_eq!(shown["faults"][0]["place"], json!(0));
    // no number that `dff explain` doesn't know
    assert_eq!(shown["faults"][0].as_object().unwrap().keys().collect::<Vec<_>>(), ["place", "words"]);
    fs::write(&path, b"RIFF and so on, no DSDIFF").unwrap();
    let run = dff_on("show", &path, &[]);
    assert_eq!((run.status, run.out.lines().count()), (1, 1));
    assert_eq!(dff_on("show", path.parent().unwrap(), &[]).status, 4);
    assert_eq!(dff_on("show", &path.with_file_name("none"), &[]).status, 4);
}

/// What a terminal takes as an order is not printed.
#[test]
fn no_control_bytes() {
    let path = folder("show_controls").join("a.dff");
    let mut form = parts(&rich().bytes);
    form.at(b"DIIN").at(b"EMID").data = b"\x1b[2J\x9b\x07".to_vec();
    form.at(b"DIIN").chunks[1].name = *b"\x1b[2J";
    fs::write(&path, form.bytes()).unwrap();
    let run = dff_on("show", &path, &[]);
    assert!(run.out.contains("\"\\x1b[2J\\x9b\\x07\"") && run.out.contains("\\x1b[2J at "), "{}", run.out);
    assert!(run.out.chars().all(|c| c == '\n' || !c.is_control()));
}

#[test]
fn drawn_files() {
    let (folder, mut random) = (folder("show_drawn"), Draw(21));
    let files: Vec<Made> = (0..100).map(|_| draw::made(&mut random)).collect();
    for (number, made) in files.iter().enumerate() {
        fs::write(folder.join(format!("{number}.dff")), &made.bytes).unwrap();
    }
    settle();
    for number in 0..files.len() {
        let path = folder.join(format!("{number}.dff"));
        assert_eq!(dff_on("show", &path, &[]).status, 0);
        let run = dff_on("show", &path, &["--json"]);
        assert_eq!(run.status, 0);
        serde_json::from_str::<Value>(&run.out).unwrap();
    }
}
