//! What `dff build` writes is what reads of any pieces give, and 01's figures.

mod common;

use common::{Draw, Folder};
use dff::manifest::Manifest;
use dff::plans::plans;
use dff::sizes::Size;

fn folder(name: &str) -> Folder {
    let folder = Folder::new(name);
    let mut draw = Draw(1);
    folder.write("sound.raw", draw.bytes(40 * 9_408));
    folder.write("short.raw", draw.bytes(3 * 9_408 + 77));
    let lengths: Vec<usize> = (0..40).map(|_| 1 + draw.below(3_000)).collect();
    folder.write("frames.dst", draw.bytes(lengths.iter().sum()));
    folder.write("frames.txt", lengths.iter().map(|length| format!("{length}\n")).collect::<String>());
    folder
}

const TEXTS: &str = "edited_master_info = true\nmarker_titles = true\n\
    artist_title = true\nalbum = { artist = 'a', title = 'bc' }\n\
    absolute_start = '01:02:03:04'\n\
    [[file.track]]\nstart = 0\nduration = 20\ntitle = 'one'\n[[file.track]]\nstart = 20\nduration = 20\n\
    [[file.comment]]\nyear = 2025\nmonth = 1\nday = 2\ntext = 'abc'\n\
    [[file.chunk]]\nname = 'ABCD'\nhex = '00 01 ff'\n[[file.chunk]]\nname = 'EF  '\ntext = 'é'\n";

#[test]
fn random_pieces_are_the_file() {
    let folder = folder("pieces");
    let dst = "source = { dst = 'frames.dst', lengths = 'frames.txt', channels = 2, plain = 'sound.raw' }";
    let sources = [
        "source = { raw = 'sound.raw', channels = 2 }\nrange = { from = 0 }".to_string(),
        "source = { raw = 'sound.raw', channels = 1 }\nrange = { from = 11, to = 40 }".to_string(),
        "source = { raw = 'short.raw', channels = 2, pad = true }".to_string(),
        dst.to_string(),
        format!("{dst}\ndst_crc = true\nrange = {{ from = 7 }}"),
        format!("{dst}\ndst_crc = true\ndst_index_offset = 'frame-data'"),
        format!("{dst}\ndst_index = false"),
    ];
    let mut text = String::from("version = 1\n");
    for (number, source) in sources.iter().enumerate() {
        text += &format!("[[file]]\nname = '{number}.dff'\n{source}\n");
        text += &format!("[[file]]\nname = '{number}-texts.dff'\n{source}\n{TEXTS}");
    }
    folder.run("build", &text).with(0, "");

    let manifest = Manifest::read(&folder.path("album.toml")).unwrap();
    let mut draw = Draw(2);
    let plans = plans(&manifest, None, Size(u64::MAX)).unwrap();
    for (planned, plan) in manifest.files.iter().zip(plans.files) {
        let file = plan.unwrap().file;
        let written = folder.read(&format!("out/{}", planned.name));
        assert_eq!(written.len() as u64, file.len());
        let read = |offset: usize, room: usize| {
            let mut buffer = vec![0; room];
            let count = file.read_at(offset as u64, &mut buffer).unwrap();
            assert_eq!(count, room.min(written.len().saturating_sub(offset)));
            assert_eq!(buffer[..count], written[offset.min(written.len())..][..count], "{} at {offset}", planned.name);
            count
        };
        // Pieces that follow each other, read in any order, then some that don't.
        let mut pieces = Vec::new();
        let mut offset = 0;
        while offset < written.len() {
            let most = [16, 5_000, 60_000][draw.below(3)];
            pieces.push((offset, draw.below(most) + 1));
            offset += pieces.last().unwrap().1;
        }
        for last in (1..pieces.len()).rev() {
            pieces.swap(last, draw.below(last + 1));
        }
        let gathered: usize = pieces.into_iter().map(|(offset, room)| read(offset, room)).sum();
        assert_eq!(gathered, written.len());
        for _ in 0..100 {
            read(draw.below(written.len() + 10), draw.below(20_000));
        }
    }
}

#[test]
fn the_figures_of_one_frame_and_of_two_dst_frames() {
    let folder = Folder::new("figures");
    folder.write("one.raw", [0x5A; 9_408]);
    folder.write("two.dst", [1, 2, 3, 4, 5, 6, 7]);
    folder.write("two.txt", "3\n4\n");
    let text = "version = 1\n[[file]]\nname = 'one.dff'\nsource = { raw = 'one.raw', channels = 2 }\n\
        [[file]]\nname = 'two.dff'\nsource = { dst = 'two.dst', lengths = 'two.txt', channels = 2 }\n";
    folder.run("build", text).with(0, "");
    let one = folder.read("out/one.dff");
    assert_eq!(one.len(), 9_552);
    assert_eq!(one[..16], *b"FRM8\0\0\0\0\0\0\x25\x44DSD ");
    assert_eq!(one[132..144], *b"DSD \0\0\0\0\0\0\x24\xC0");
    assert_eq!(one[144..], [0x5A; 9_408]);
    let two = folder.read("out/two.dff");
    assert_eq!(two.len(), 226);
    assert_eq!(two[158..174], *b"DSTF\0\0\0\0\0\0\0\x03\x01\x02\x03\0");
    assert_eq!(two[174..190], *b"DSTF\0\0\0\0\0\0\0\x04\x04\x05\x06\x07");
    assert_eq!(two[190..202], *b"DSTI\0\0\0\0\0\0\0\x18");
    assert_eq!(two[202..], *b"\0\0\0\0\0\0\0\x9E\0\0\0\x03\0\0\0\0\0\0\0\xAE\0\0\0\x04");
}

#[test]
fn a_short_last_frame_is_filled_up_with_silence() {
    let folder = folder("padded");
    folder.run(
        "build",
        "version = 1\n[[file]]\nname = 'one.dff'\nsource = { raw = 'short.raw', channels = 2, pad = true }\n",
    );
    let mut sound = folder.read("short.raw");
    sound.resize(4 * 9_408, 0x69);
    assert_eq!(folder.read("out/one.dff")[144..], sound);
}
