//! The figures that the rules of the format give.

use jangqeruz::{Area, BuildError, File, IndexOffset, Kind, Layout, Options, Refusal, Track, verdict};

use crate::recording::whole;
use crate::sources::Silence;

fn dsd(options: &Options) -> File<Silence> {
    File::build(&Area::new(Kind::Dsd, 2, Layout::Stereo, 1), options, &[], Silence).unwrap()
}

fn dst(options: &Options) -> File<Silence> {
    File::build(&Area::new(Kind::Dst, 2, Layout::Stereo, 2), options, &[3, 4], Silence).unwrap()
}

fn number(bytes: &[u8]) -> u64 {
    bytes.iter().fold(0, |number, &byte| number << 8 | u64::from(byte))
}

/// The size of a chunk at this place.
fn size(file: &[u8], place: usize, name: &[u8; 4]) -> u64 {
    assert_eq!(&file[place..place + 4], name);
    number(&file[place + 4..place + 12])
}

/// The place of the first chunk of this name, looked for as bytes.
fn place(file: &[u8], name: &[u8; 4]) -> usize {
    file.windows(4).position(|bytes| bytes == name).unwrap()
}

/// The offsets of the two entries of the index.
fn entries(file: &File<Silence>) -> [u64; 2] {
    let bytes = whole(file);
    let data = place(&bytes, b"DSTI") + 12;
    [number(&bytes[data..data + 8]), number(&bytes[data + 12..data + 20])]
}

#[test]
fn stereo_dsd_of_one_frame() {
    let file = dsd(&Options::default());
    assert_eq!((file.header().len(), file.sound_len(), file.trailer().len()), (144, 9_408, 0));
    assert_eq!(file.len(), 9_552);
    let bytes = whole(&file);
    assert_eq!(size(&bytes, 0, b"FRM8"), 9_540);
    assert_eq!(size(&bytes, place(&bytes, b"PROP"), b"PROP"), 88);
    assert_eq!(size(&bytes, place(&bytes, b"CMPR"), b"CMPR"), 19);
    assert!(bytes[144..].iter().all(|&byte| byte == Silence::BYTE));
}

#[test]
fn d1_moves_the_size_of_cmpr_alone() {
    let (plain, counted) = (whole(&dsd(&Options::default())), whole(&dsd(&Options::default().d1(true))));
    let differ: Vec<_> = (0..plain.len()).filter(|&i| plain[i] != counted[i]).collect();
    assert_eq!(differ, [place(&plain, b"CMPR") + 11]);
    assert_eq!(size(&counted, place(&counted, b"CMPR"), b"CMPR"), 20);
}

#[test]
fn stereo_dst_of_two_frames() {
    let file = dst(&Options::default());
    assert_eq!((file.header().len(), file.len()), (158, 226));
    assert_eq!(file.lengths(), [3, 4]);
    let bytes = whole(&file);
    assert_eq!(size(&bytes, 0, b"FRM8"), 214);
    assert_eq!(size(&bytes, place(&bytes, b"FRTE") - 12, b"DST "), 50);
    assert_eq!(entries(&file), [158, 174]);
    assert_eq!(entries(&dst(&Options::default().dst_index_offset(IndexOffset::FrameData))), [170, 186]);
}

#[test]
fn stereo_dst_with_crcs() {
    let file = dst(&Options::default().dst_crc(true));
    assert_eq!(file.len(), 258);
    assert_eq!(entries(&file), [158, 190]);
    let crc = jangqeruz::crc(&[Silence::BYTE; 9_408]);
    let bytes = whole(&file);
    assert_eq!(number(&bytes[158 + 16 + 12..][..4]), u64::from(crc));
}

#[test]
fn the_last_frame_of_the_day() {
    let area = Area::new(Kind::Dsd, 2, Layout::Stereo, 1);
    let start = |frame| Options::default().absolute_start(Some(frame));
    assert_eq!(verdict(&area, &start(6_479_998), &[]), Ok(()));
    assert_eq!(verdict(&area, &start(6_479_999), &[]), Err(BuildError::Refused(Refusal::Start)));
}

#[test]
fn crcs() {
    assert_eq!(jangqeruz::crc(&[]), 0);
    assert_eq!(jangqeruz::crc(&[1]), 0x8000_0011);
}

#[test]
fn markers_of_two_tracks() {
    let tracks = vec![
        Track { start: 0, duration: 75, title: "One".into() },
        Track { start: 75, duration: 75, title: "Two".into() },
    ];
    let area = Area { tracks, ..Area::new(Kind::Dsd, 2, Layout::Stereo, 150) };
    let options = Options::default().edited_master_info(true).marker_titles(true);
    let file = File::build(&area, &options, &[], Silence).unwrap();
    let header = file.header();
    // Each MARK: the second, at byte 3 of its time, and the kind.
    let marks: Vec<_> = (0..header.len() - 4)
        .filter(|&at| &header[at..at + 4] == b"MARK")
        .map(|at| (header[at + 12 + 3], number(&header[at + 12 + 12..at + 12 + 14])))
        .collect();
    assert_eq!(marks, [(0, 2), (0, 0), (1, 0), (2, 1)]);
    assert!(header.windows(3).any(|text| text == b"One") && header.windows(3).any(|text| text == b"Two"));
}
