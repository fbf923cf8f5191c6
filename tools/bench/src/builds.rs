//! Builds, by both sides: header and trailer of a file.

use std::hint::black_box;

use library::builds::{self as ours, ANSWERS, HEADER_SHORT, TRAILER_SHORT};
use library::checks::{Build, COMT, DIIN, DSTI, Lent, ON, PROP, SOUND, WORDS};
use library::markers::{Info, Properties};
use original::{Inputs, Layout};

use crate::pool::CHANNELS;
use crate::sound::Sound;
use crate::texts::{Rows, Texts};
use crate::timing::{best, each, timed};

/// What the original's build is given. It takes the lengths, so that they are copied for each build.
pub struct Original<'a> {
    inputs: Inputs,
    sound: Sound<'a>,
}

impl<'a> Original<'a> {
    pub fn new(sound: Sound<'a>, texts: Option<&Texts>) -> Original<'a> {
        let inputs = Inputs::new(CHANNELS, sound.positions as u32, sound.crc());
        let inputs = if let Some(texts) = texts { inputs.with_texts(&texts.original) } else { inputs };
        Original { inputs, sound }
    }

    pub fn build(&self, lengths: Vec<u32>) -> Layout {
        let layout = if self.sound.dst() { self.inputs.dst(lengths) } else { self.inputs.dsd() };
        layout.expect("a file that the original accepts")
    }
}

/// The original's defaults.
pub fn defaults(sound: Sound<'_>) -> Build {
    let positions = sound.positions as u32;
    let properties = Properties {
        order: [0, 1, 2, 3, 4],
        dst: sound.dst(),
        channels: CHANNELS,
        loudspeaker_configuration: true,
        ..Properties::default()
    };
    Build {
        properties,
        info: Info { order: [0, 1, 2, 3], end: positions, playtime: positions, ..Info::default() },
        dst_crc: sound.crc(),
        dst_index: true,
        replacement: Some(b'?'),
        local_order: [PROP, COMT, DIIN, SOUND, DSTI],
        local_count: 5,
        ..Build::default()
    }
}

/// The same with DIIN and COMT: an empty EMID, which is the original's default, and the texts.
fn with_texts<'a>(build: Build, lent: Lent<'a>, rows: &'a Rows) -> (Build, Lent<'a>) {
    let (emid, album_artist, album_title) = ([1, 0, 0], rows.artist, rows.title);
    let info = Info { on: true, empty_info: true, emid, titles: true, album_artist, album_title, ..build.info };
    let (tracks, comments) = (rows.tracks.as_flattened(), rows.comments.as_flattened());
    (Build { info, artist_title: ON, ..build }, Lent { pool: &rows.pool, tracks, comments, ..lent })
}

/// What our build is given.
pub struct Ours<'a> {
    words: [u32; WORDS],
    lent: Lent<'a>,
}

/// The buffers of our build, and the sound's length.
pub struct Built {
    pub header: Vec<u8>,
    pub trailer: Vec<u8>,
    pub sound: u64,
}

impl<'a> Ours<'a> {
    pub fn new(sound: Sound<'a>, texts: Option<&'a Texts>) -> Ours<'a> {
        let (build, lengths) = (defaults(sound), sound.lengths());
        let lent = Lent { pool: &[], raw: &[], tracks: &[], markers: &[], comments: &[], callers: &[], lengths };
        let (build, lent) = match texts {
            Some(texts) => with_texts(build, lent, &texts.ours),
            None => (build, lent),
        };
        Ours::of(&build, lent)
    }

    /// Of any values and rows.
    pub fn of(build: &Build, lent: Lent<'a>) -> Ours<'a> {
        Ours { words: build.words(), lent }
    }

    /// The refusal's number, 0 if it is built, and the answer.
    fn call(&self, header: &mut [u8], trailer: &mut [u8]) -> (u64, [u64; ANSWERS]) {
        let mut answer = [0; ANSWERS];
        (ours::build(black_box(&self.words), self.lent, header, trailer, &mut answer), answer)
    }

    /// How long the header is: what the refusal of an empty buffer tells.
    pub fn header_length(&self) -> u64 {
        let (number, [needed, ..]) = self.call(&mut [], &mut []);
        if number == HEADER_SHORT { needed } else { 0 }
    }

    /// How long the trailer is, likewise.
    pub fn trailer_length(&self, header: &mut [u8]) -> u64 {
        let (number, [needed, ..]) = self.call(header, &mut []);
        if number == TRAILER_SHORT { needed } else { 0 }
    }

    /// Buffers of the right lengths, full of one byte, and the build in them.
    pub fn build(&self, byte: u8) -> Built {
        let mut header = vec![byte; self.header_length() as usize];
        let mut trailer = vec![byte; self.trailer_length(&mut header) as usize];
        let (number, [_, sound, _]) = self.call(&mut header, &mut trailer);
        assert_eq!(number, 0, "a file that ours accepts");
        Built { header, trailer, sound }
    }
}

/// Nanoseconds for a build.
pub struct Times {
    pub original: f64,
    /// Our build, into buffers that are there.
    pub ours: f64,
    /// Our two refused builds that tell how long the buffers have to be.
    pub sizes: f64,
    /// Those two, fresh buffers, and the build.
    pub fresh: f64,
}

/// Builds that are timed together: fewer if there is much to go through.
fn together(sound: Sound<'_>, texts: Option<&Texts>) -> usize {
    let length = sound.positions + texts.map_or(0, Texts::characters);
    (256_000 / length).clamp(1, 64)
}

/// What is built is freed after it was timed.
pub fn times(sound: Sound<'_>, texts: Option<&Texts>) -> Times {
    let (original, ours) = (Original::new(sound, texts), Ours::new(sound, texts));
    let Built { mut header, mut trailer, .. } = ours.build(0);
    let calls = together(sound, texts);
    let times = best(|| {
        let lengths = vec![sound.lengths().to_vec(); calls];
        let mut layouts = Vec::with_capacity(calls);
        let original = timed(|| layouts.extend(lengths.into_iter().map(|lengths| original.build(black_box(lengths)))));
        let built = timed(|| {
            for _ in 0..calls {
                black_box(ours.call(black_box(&mut header), black_box(&mut trailer)));
            }
        });
        let sizes = timed(|| {
            for _ in 0..calls {
                black_box(ours.header_length());
                black_box(ours.trailer_length(black_box(&mut header)));
            }
        });
        let mut all = Vec::with_capacity(calls);
        let fresh = timed(|| all.extend((0..calls).map(|_| ours.build(0))));
        [original, built, sizes, fresh]
    });
    let [original, ours, sizes, fresh] = times.map(|time| each(time, calls));
    Times { original, ours, sizes, fresh }
}
