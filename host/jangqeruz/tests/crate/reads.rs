//! Reads at any place.

use std::thread;

use jangqeruz::{
    Area, CallerChunk, Comment, CommentKind, FRAME_BYTES_PER_CHANNEL, File, Kind, Layout, LocalChunk, Options, Scratch,
};

use crate::random::Random;
use crate::recording::{Recording, area, whole};
use crate::sources::Silence;

/// Files of each kind: DSD, DST, DST with CRCs; the index before and behind the sound; something behind it.
fn kinds() -> Vec<(Area, Options)> {
    use LocalChunk::{Comt, Diin, Dsti, Prop, Sound};
    let text = Comment {
        year: 2024,
        month: 6,
        day: 11,
        hour: 23,
        minutes: 59,
        kind: CommentKind::General,
        reference: 0,
        text: "Größe".into(),
    };
    let options = Options::default()
        .edited_master_info(true)
        .comments(vec![text])
        .chunks(vec![CallerChunk { name: *b"ID3 ", data: b"odd".to_vec() }]);
    let in_front = options.clone().local_order(vec![Prop, Dsti, Sound, Comt, Diin]);
    let mut kinds = vec![(area(Kind::Dsd), Options::default()), (area(Kind::Dsd), options.clone())];
    for crc in [false, true] {
        kinds.extend([options.clone(), in_front.clone()].map(|options| (area(Kind::Dst), options.dst_crc(crc))));
    }
    kinds
}

#[test]
fn pieces_make_the_whole() {
    let random = &mut Random::new(20_240_611);
    let recording = Recording::new(random, 2, 12);
    for (area, options) in kinds() {
        let file = recording.file(&area, &options);
        let wanted = whole(&file);
        let sound = file.header().len()..file.len() as usize - file.trailer().len();
        assert_eq!(&wanted[..sound.start], file.header());
        assert_eq!(&wanted[sound.end..], file.trailer());
        if area.kind == Kind::Dsd {
            assert!(wanted[sound] == recording.contents[3..10].concat());
        }
        for most in [7, 100, 5_000, 30_000] {
            let mut scratch = Scratch::default();
            let mut copy = Vec::new();
            loop {
                let mut buf = vec![0xEE; 1 + random.below(most) as usize];
                let filled = file.read_at_with(copy.len() as u64, &mut buf, &mut scratch).unwrap();
                assert!(buf[filled..].iter().all(|&byte| byte == 0xEE), "bytes behind what is filled stay");
                copy.extend_from_slice(&buf[..filled]);
                if filled < buf.len() {
                    break;
                }
            }
            assert!(copy == wanted, "{area:?} {options:?}, pieces up to {most}");
        }
        // Anywhere.
        for _ in 0..200 {
            let offset = random.below(wanted.len() as u32) as usize;
            let mut buf = vec![0; random.below(20_000) as usize];
            let filled = file.read_at(offset as u64, &mut buf).unwrap();
            assert_eq!(filled, buf.len().min(wanted.len() - offset));
            assert!(buf[..filled] == wanted[offset..offset + filled]);
        }
    }
}

#[test]
fn at_and_past_the_end_there_is_nothing() {
    let recording = Recording::new(&mut Random::new(1), 2, 12);
    for (area, options) in kinds() {
        let file = recording.file(&area, &options);
        for offset in [file.len(), file.len() + 1, u64::MAX - 1, u64::MAX] {
            let mut buf = [0xEE; 100];
            assert_eq!(file.read_at(offset, &mut buf).unwrap(), 0);
            assert_eq!(buf, [0xEE; 100]);
            assert_eq!(file.needed(offset, u64::MAX).unwrap(), 0..0);
        }
        for offset in [0, 1_000, file.len() - 1] {
            assert_eq!(file.read_at(offset, &mut []).unwrap(), 0);
        }
        let mut buf = [0xEE; 100];
        assert_eq!(file.read_at(file.len() - 1, &mut buf).unwrap(), 1);
    }
}

#[test]
fn a_read_asks_its_source_once() {
    let random = &mut Random::new(2);
    let recording = Recording::new(random, 2, 12);
    for (area, options) in kinds() {
        let file = recording.file(&area, &options);
        assert_eq!(file.needed(0, file.len()).unwrap(), 0..7);
        assert_eq!(file.needed(0, file.header().len() as u64).unwrap(), 0..0);
        for _ in 0..300 {
            let offset = u64::from(random.below(file.len() as u32 + 10));
            let mut buf = vec![0; random.below(40_000) as usize];
            let needed = file.needed(offset, buf.len() as u64).unwrap();
            recording.calls();
            file.read_at(offset, &mut buf).unwrap();
            assert_eq!(recording.calls(), u32::from(!needed.is_empty()));
        }
    }
}

#[test]
fn threads_can_share_a_file() {
    let recording = Recording::new(&mut Random::new(4), 2, 12);
    for (area, options) in kinds() {
        let file = recording.file(&area, &options);
        let wanted = whole(&file);
        thread::scope(|scope| {
            for start in 0..4 {
                let (file, wanted) = (&file, &wanted);
                scope.spawn(move || {
                    let mut scratch = Scratch::default();
                    let mut buf = [0; 777];
                    for offset in (start * 100..wanted.len()).step_by(500) {
                        let filled = file.read_at_with(offset as u64, &mut buf, &mut scratch).unwrap();
                        assert!(buf[..filled] == wanted[offset..offset + filled]);
                    }
                });
            }
        });
    }
}

/// 75 GB, of which little is read.
#[test]
fn the_longest_file() {
    let positions = 1_151_999;
    let area = Area::new(Kind::Dst, 6, Layout::FivePointOne, positions);
    let lengths = vec![65_536; positions as usize];
    let file = File::build(&area, &Options::default().dst_crc(true), &lengths, Silence).unwrap();
    assert_eq!(file.sound_len(), u64::from(positions) * (12 + 65_536 + 16));
    assert_eq!(file.trailer().len(), 12 + 12 * positions as usize);
    let sound_end = file.len() - file.trailer().len() as u64;
    // The last CRC and the head of the index.
    let mut buf = [0; 32];
    assert_eq!(file.read_at(sound_end - 16, &mut buf).unwrap(), 32);
    assert_eq!(&buf[..4], b"DSTC");
    assert_eq!(buf[12..16], jangqeruz::crc(&[Silence::BYTE; 6 * FRAME_BYTES_PER_CHANNEL]).to_be_bytes());
    assert_eq!(buf[16..], file.trailer()[..16]);
    assert_eq!(file.needed(sound_end - 1, 100).unwrap(), positions - 1..positions);
    assert_eq!(file.needed(0, u64::MAX).unwrap(), 0..positions);
}
