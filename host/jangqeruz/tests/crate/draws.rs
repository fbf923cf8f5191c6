//! Thousands of random builds: verdict and build agree, what is built can be read, and nothing panics.

use std::collections::BTreeMap;

use jangqeruz::{BuildError, File, verdict};

use crate::draw;
use crate::random::Random;
use crate::sources::Silence;

const CASES: u32 = 20_000;

#[test]
fn verdict_and_build_agree() {
    let random = &mut Random::new(20_240_611);
    let mut counts: BTreeMap<u32, u32> = BTreeMap::new();
    for case in 0..CASES {
        let area = draw::area(random);
        let options = draw::options(random, &area);
        let lengths = draw::lengths(random, &area);
        let said = verdict(&area, &options, &lengths);
        match File::build(&area, &options, &lengths, Silence) {
            Ok(file) => {
                assert_eq!(said, Ok(()), "case {case}: {area:?} {options:?}");
                *counts.entry(0).or_default() += 1;
                holds(random, &file);
            }
            Err(error) => {
                assert_eq!(said.as_ref(), Err(&error), "case {case}: {area:?} {options:?}");
                let BuildError::Refused(refusal) = error else { panic!("case {case}: {error}") };
                *counts.entry(refusal.number()).or_default() += 1;
            }
        }
    }
    // Many are accepted, and most of the refusals come up.
    assert!(counts[&0] > CASES / 10, "{counts:?}");
    assert!(counts.len() > 25, "{counts:?}");
}

/// Header, sound and trailer are what a file has, and windows can be read.
fn holds(random: &mut Random, file: &File<Silence>) {
    let header = file.header();
    assert_eq!(&header[..4], b"FRM8");
    let size = header[4..12].iter().fold(0, |size: u64, &byte| size << 8 | u64::from(byte));
    assert_eq!(size + 12, file.len());
    assert_eq!(file.len(), header.len() as u64 + file.sound_len() + file.trailer().len() as u64);
    let mut buf = vec![0; random.below(3_000) as usize];
    let windows = [0, header.len() as u64, file.len() - file.trailer().len() as u64, file.len(), u64::MAX]
        .map(|place| place.saturating_sub(random.next() % 2_000));
    for offset in windows {
        let filled = file.read_at(offset, &mut buf).unwrap();
        assert_eq!(filled as u64, file.len().saturating_sub(offset).min(buf.len() as u64));
        let of_header = header.len().saturating_sub(offset.min(header.len() as u64) as usize).min(filled);
        assert_eq!(buf[..of_header], header[header.len().min(offset as usize)..][..of_header]);
    }
}
