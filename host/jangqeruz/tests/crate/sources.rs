//! Sources that fail, and ways to hold one.

use std::io;
use std::ops::Range;
use std::sync::Arc;

use jangqeruz::{File, Kind, Options, ReadError, Source};

use crate::random::Random;
use crate::recording::{Recording, area, whole};

/// Of any length.
#[derive(Debug)]
pub struct Silence;

impl Silence {
    pub const BYTE: u8 = 0x69;
}

impl Source for Silence {
    fn fetch(&self, _frames: Range<u32>, coded: &mut [u8], plain: &mut [u8]) -> io::Result<()> {
        coded.fill(0);
        plain.fill(Silence::BYTE);
        Ok(())
    }
}

/// Fails, after it has filled what it could.
struct Failing;

impl Source for Failing {
    fn fetch(&self, frames: Range<u32>, coded: &mut [u8], plain: &mut [u8]) -> io::Result<()> {
        coded.fill(1);
        plain.fill(1);
        Err(io::Error::other(format!("no frames {frames:?}")))
    }
}

#[test]
fn a_failure_is_told_and_leaves_the_buffer_alone() {
    let file = File::build(&area(Kind::Dsd), &Options::default(), &[], Failing).unwrap();
    let mut buf = vec![0xEE; 20_000];
    let error = file.read_at(100, &mut buf).unwrap_err();
    assert!(matches!(&error, ReadError::Source(source) if source.to_string() == "no frames 3..6"));
    assert_eq!(error.to_string(), "the source failed: no frames 3..6");
    assert!(std::error::Error::source(&error).is_some());
    assert!(buf.iter().all(|&byte| byte == 0xEE));
    // What needs no frame is read.
    assert_eq!(file.read_at(0, &mut buf[..144]).unwrap(), 144);
    assert_eq!(&buf[..144], file.header());
}

#[test]
fn a_source_can_be_held_in_several_ways() {
    let recording = Recording::new(&mut Random::new(5), 2, 12);
    let (area, options) = (area(Kind::Dst), Options::default().dst_crc(true));
    let lengths = recording.lengths(3..10);
    let wanted = whole(&recording.file(&area, &options));
    let dynamic: &dyn Source = &recording;
    assert_eq!(whole(&File::build(&area, &options, &lengths, dynamic).unwrap()), wanted);
    let shared = Arc::new(recording);
    assert_eq!(whole(&File::build(&area, &options, &lengths, shared.clone()).unwrap()), wanted);
    let boxed: Box<dyn Source> = Box::new(shared);
    let file = File::build(&area, &options, &lengths, boxed).unwrap();
    assert_eq!(whole(&file), wanted);
    file.source().fetch(3..4, &mut [], &mut []).unwrap();
}
