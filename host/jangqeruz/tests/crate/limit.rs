//! A limit on header and trailer: both sides of it, for each thing that is held to it.

use jangqeruz::{
    Area, BuildError, CallerChunk, Comment, CommentKind, File, Kind, Layout, LocalChunk, Measured, Options, Refusal,
    given_bytes,
};

use crate::recording::whole;
use crate::sources::Silence;

/// Four frames of DST with an index, a comment of a thousand characters and a chunk of five bytes.
fn given() -> (Area, Options, [u32; 4]) {
    let comment = Comment {
        year: 2026,
        month: 11,
        day: 17,
        hour: 0,
        minutes: 0,
        kind: CommentKind::General,
        reference: 0,
        text: "é".repeat(1_000),
    };
    let chunk = CallerChunk { name: *b"ABCD", data: vec![7; 5] };
    (Area::new(Kind::Dst, 2, Layout::Stereo, 4), Options::default().comments(vec![comment]).chunks(vec![chunk]), [9; 4])
}

fn above(measured: Measured, bytes: u64, limit: u64) -> BuildError {
    BuildError::AboveLimit { measured, bytes, limit }
}

#[test]
fn each_measure_is_held_to_the_limit() {
    let (area, options, lengths) = given();
    let build = |limit| File::build_within(limit, &area, &options, &lengths, Silence);
    let file = build(u64::MAX).unwrap();
    let (header, trailer) = (file.header().len() as u64, file.trailer().len() as u64);
    assert!(header > 1_000 && trailer > 4 * 12);
    assert_eq!(given_bytes(&area, &options), 1_005);
    for (measured, bytes) in
        [(Measured::Given, 1_005), (Measured::Header, header), (Measured::HeaderAndTrailer, header + trailer)]
    {
        assert_eq!(build(bytes - 1).unwrap_err(), above(measured, bytes, bytes - 1));
    }
    // One more byte and the next measure is what is above it.
    assert_eq!(build(0).unwrap_err(), above(Measured::Given, 1_005, 0));
    assert_eq!(build(1_005).unwrap_err(), above(Measured::Header, header, 1_005));
    assert_eq!(build(header).unwrap_err(), above(Measured::HeaderAndTrailer, header + trailer, header));
    let within = build(header + trailer).unwrap();
    assert_eq!((whole(&within), within.header(), within.trailer()), (whole(&file), file.header(), file.trailer()));
    let without = File::build(&area, &options, &lengths, Silence).unwrap();
    assert_eq!(whole(&without), whole(&file));
}

#[test]
fn a_file_without_a_trailer() {
    let (area, options) = (Area::new(Kind::Dsd, 2, Layout::Stereo, 1), Options::default());
    let build = |limit| File::build_within(limit, &area, &options, &[], Silence);
    assert_eq!(build(143).unwrap_err(), above(Measured::Header, 144, 143));
    let file = build(144).unwrap();
    assert_eq!((file.header().len(), file.trailer().len()), (144, 0));
}

#[test]
fn what_is_not_written_counts_as_given() {
    let (area, options, lengths) = given();
    let options = options.edited_master_info(false).edited_master_id(Some(vec![0x20; 1_000_000]));
    let build = |limit| File::build_within(limit, &area, &options, &lengths, Silence);
    assert_eq!(build(1_001_004).unwrap_err(), above(Measured::Given, 1_001_005, 1_001_004));
    assert!(build(1_001_005).unwrap().header().len() < 2_000);
}

#[test]
fn refusals_come_between() {
    let (area, options, lengths) = given();
    let build = |limit, area: &Area, options: &Options| File::build_within(limit, area, options, &lengths, Silence);
    let seven = Area { channels: 7, ..area.clone() };
    // What is given is looked at before the library is asked, what it measures after its verdict.
    assert_eq!(build(1_004, &seven, &options).unwrap_err(), above(Measured::Given, 1_005, 1_004));
    assert_eq!(build(1_005, &seven, &options).unwrap_err(), BuildError::Refused(Refusal::Channels));
    let order = vec![LocalChunk::Prop];
    let lacks = build(1_005, &area, &options.local_order(order)).unwrap_err();
    assert_eq!(lacks, BuildError::Refused(Refusal::new(38, 0).unwrap()));
}

#[test]
fn words() {
    for (measured, said) in [
        (Measured::Given, "texts and chunks that are given have up to 3 bytes"),
        (Measured::Header, "the header has 3 bytes"),
        (Measured::HeaderAndTrailer, "header and trailer have 3 bytes"),
    ] {
        let words = above(measured, 3, 2).to_string();
        assert_eq!(words, format!("{said}; the limit on header and trailer together is 2"));
    }
}
