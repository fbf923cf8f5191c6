//! Files as sources of a manifest: `source = { dff = "other.dff" }`.

mod made;

use jangqeruz::{Area, Kind, Layout, Options};
use made::common::Folder;
use made::edit::parts;
use made::{Frames, Made};

fn coded(own: bool) -> Made {
    let plain: Vec<Vec<u8>> = (0..5).map(|number| vec![number; 9408]).collect();
    let compressed = |content: &Vec<u8>| vec![0x80 | content[0]; 5 + usize::from(content[0])];
    let frame = |content: &Vec<u8>| if own { [vec![0], content.clone()].concat() } else { compressed(content) };
    let frames = Frames { coded: plain.iter().map(frame).collect(), plain };
    Made::new(Area::new(Kind::Dst, 2, Layout::Stereo, 5), Options::default(), frames).unwrap()
}

fn manifest(source: &str, more: &str) -> String {
    format!("version = 1\n[[file]]\nname = \"a.dff\"\nsource = {{ dff = \"in.dff\"{source} }}\n{more}\n")
}

#[test]
fn coded_sound() {
    let folder = Folder::new("dff_sources_coded");
    let made = coded(false);
    folder.write("in.dff", &made.bytes);
    folder.run("build", &manifest("", "")).with(0, "");
    assert!(folder.read("out/a.dff") == made.bytes);
    let area = Area { first: 1, end: 4, ..made.area.clone() };
    std::fs::remove_file(folder.path("out/a.dff")).unwrap();
    folder.run("build", &manifest("", "range = { from = 1, to = 4 }")).with(0, "");
    assert!(folder.read("out/a.dff") == Made::new(area, Options::default(), made.frames.clone()).unwrap().bytes);
    std::fs::remove_file(folder.path("out/a.dff")).unwrap();
    // CRCs want the content
    folder.run("build", &manifest("", "dst_crc = true")).with(4, "frame 0 is compressed");
    folder.write("plain.raw", made.plain());
    folder.run("build", &manifest(", plain = \"plain.raw\"", "dst_crc = true")).with(0, "");
    let options = Options { dst_crc: true, ..Options::default() };
    let with_crcs = Made::new(made.area.clone(), options, made.frames.clone()).unwrap();
    assert!(folder.read("out/a.dff") == with_crcs.bytes);
    std::fs::remove_file(folder.path("out/a.dff")).unwrap();
    folder.write("plain.raw", &made.plain()[1..]);
    folder.run("build", &manifest(", plain = \"plain.raw\"", "dst_crc = true")).with(4, "are wanted for 5 frames");
    // frames that are their own content have it
    let own = coded(true);
    folder.write("in.dff", &own.bytes);
    folder.run("build", &manifest("", "dst_crc = true")).with(0, "");
    let walked = walk::walk(&folder.read("out/a.dff")[..]).unwrap();
    let crcs: Vec<u32> = walked.sound.unwrap().crcs.iter().map(|crc| crc.value).collect();
    assert_eq!(crcs, own.frames.plain.iter().map(|content| jangqeruz::crc(content)).collect::<Vec<_>>());
}

#[test]
fn plain_sound() {
    let folder = Folder::new("dff_sources_plain");
    let frames = Frames { coded: vec![], plain: vec![vec![1; 4704], vec![2; 4704]] };
    let options = Options { channel_numbers: Some(vec![7]), ..Options::default() };
    let made = Made::new(Area::new(Kind::Dsd, 1, Layout::Unspecified, 2), options, frames).unwrap();
    folder.write("in.dff", &made.bytes);
    folder.run("build", &manifest("", "channel_numbers = [7]")).with(0, "");
    assert!(folder.read("out/a.dff") == made.bytes);
    std::fs::remove_file(folder.path("out/a.dff")).unwrap();
    // a short last frame
    let mut form = parts(&made.bytes);
    form.at(b"DSD ").data.truncate(4704 + 1);
    folder.write("in.dff", form.bytes());
    folder.run("build", &manifest("", "channel_numbers = [7]")).with(4, "its last frame has 1 of 4704 bytes");
    folder.run("build", &manifest(", pad = true", "channel_numbers = [7]")).with(0, "");
    let walked = walk::walk(&folder.read("out/a.dff")[..]).unwrap();
    let sound = walked.sound.unwrap();
    let bytes = folder.read("out/a.dff");
    let stored = &bytes[sound.place as usize + 12..][..sound.size as usize];
    assert!(stored[..4704] == [1; 4704] && stored[4704] == 2 && stored[4705..] == [0x69; 4703]);
    // a file at fault
    std::fs::remove_file(folder.path("out/a.dff")).unwrap();
    folder.write("in.dff", &made.bytes[..made.bytes.len() - 1]);
    folder.run("build", &manifest("", "")).with(1, "at 0: FRM8 of size");
}

/// A file whose channels have these names.
fn with_names(names: &[&[u8; 4]]) -> Vec<u8> {
    let frames = Frames { coded: vec![], plain: vec![vec![1; 4704 * names.len()]] };
    let area = Area::new(Kind::Dsd, names.len() as u32, Layout::of_channels(names.len() as u32), 1);
    let options = Options { loudspeaker_configuration: false, ..Options::default() };
    let made = Made::new(area, options, frames).unwrap();
    let mut form = parts(&made.bytes);
    form.at(b"PROP").at(b"CHNL").data.splice(2.., names.iter().flat_map(|name| name.iter().copied()));
    form.bytes()
}

fn names_of(bytes: &[u8]) -> Vec<[u8; 4]> {
    walk::walk(bytes).unwrap().channels.unwrap().value.iter().map(|name| name.0).collect()
}

#[test]
fn channels_keep_their_names() {
    let folder = Folder::new("dff_sources_names");
    let run = |names: &[&[u8; 4]], more: &str| {
        folder.write("in.dff", with_names(names));
        let _ = std::fs::remove_file(folder.path("out/a.dff"));
        folder.run("build", &manifest("", more))
    };
    let known: [&[&[u8; 4]]; 5] = [
        &[b"SLFT", b"SRGT"],
        &[b"MLFT", b"MRGT", b"C   ", b"LS  ", b"RS  "],
        &[b"MLFT", b"MRGT", b"C   ", b"LFE ", b"LS  ", b"RS  "],
        &[b"C017", b"C003"],
        &[b"C009", b"C008", b"C007", b"C006", b"C005", b"C004"],
    ];
    for names in known {
        run(names, "").with(0, "");
        assert!(names_of(&folder.read("out/a.dff")).iter().eq(names.iter().copied()));
    }
    let unknown: [&[&[u8; 4]]; 5] = [
        &[b"SRGT", b"SLFT"],
        &[b"MLFT", b"MRGT"],
        &[b"MLFT", b"MRGT", b"LFE ", b"C   ", b"LS  ", b"RS  "],
        &[b"ABCD"],
        &[b"C000", b"SRGT"],
    ];
    for names in unknown {
        let ran = run(names, "").with(1, "album.toml:3: a.dff: ").with(1, "are no layout");
        assert!(ran.err.contains("  remedy: give the file's `layout` in the manifest"), "{ran:?}");
        assert!(names.iter().all(|name| ran.err.contains(std::str::from_utf8(&name[..]).unwrap())), "{ran:?}");
        assert!(!folder.path("out/a.dff").exists());
        run(names, "layout = \"unspecified\"").with(0, "");
        let numbered: Vec<[u8; 4]> = (0..names.len()).map(|number| [b'C', b'0', b'0', b'0' + number as u8]).collect();
        assert_eq!(names_of(&folder.read("out/a.dff")), numbered);
    }
    // What the entry says goes before what the file says.
    run(&[b"MLFT", b"MRGT"], "layout = \"stereo\"").with(0, "");
    assert_eq!(names_of(&folder.read("out/a.dff")), [*b"SLFT", *b"SRGT"]);
    run(&[b"C017", b"C003"], "layout = \"stereo\"").with(0, "");
    assert_eq!(names_of(&folder.read("out/a.dff")), [*b"SLFT", *b"SRGT"]);
    run(&[b"C017", b"C003"], "channel_numbers = [4, 5]").with(0, "");
    assert_eq!(names_of(&folder.read("out/a.dff")), [*b"C004", *b"C005"]);
    run(&[b"C017", b"C003"], "layout = \"unspecified\"").with(0, "");
    assert_eq!(names_of(&folder.read("out/a.dff")), [*b"C017", *b"C003"]);
}

#[test]
fn a_source_at_fault_is_named() {
    let folder = Folder::new("dff_sources_named");
    let made = coded(false);
    let options = Options { dst_crc: true, ..Options::default() };
    let with_crcs = Made::new(made.area.clone(), options, made.frames.clone()).unwrap();
    folder.write("in.dff", &with_crcs.bytes);
    let mut plain = made.plain();
    plain[9408 * 3] ^= 1;
    folder.write("plain.raw", plain);
    let ran = folder.run("build", &manifest(", plain = \"plain.raw\"", "dst_crc = true")).with(4, "in.dff: at ");
    assert!(ran.err.contains("the CRC of frame 3") && ran.err.contains("plain.raw has "), "{ran:?}");
    assert!(!ran.err.contains("a.dff"), "{ran:?}");
    // A frame that is its own content has another beside it.
    folder.write("in.dff", coded(true).bytes);
    let ran = folder.run("build", &manifest(", plain = \"plain.raw\"", "dst_crc = true"));
    ran.with(4, "in.dff: frame 3 is not compressed, and its content is not that in");
}
