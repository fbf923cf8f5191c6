//! The index of a DST file against the places of its frames, by a plain walk of the chunks.

use std::ops::Range;

use jangqeruz::{IndexOffset, Kind, LocalChunk, Options};

use crate::random::Random;
use crate::recording::{Recording, area, whole};

/// The chunks of a part of a file: name, and place of the data.
fn chunks(file: &[u8], part: Range<usize>) -> Vec<(&[u8], Range<usize>)> {
    let mut found = Vec::new();
    let mut at = part.start;
    while at < part.end {
        let size = u64::from_be_bytes(file[at + 4..at + 12].try_into().unwrap()) as usize;
        let data = at + 12..at + 12 + size;
        assert!(data.end <= part.end);
        found.push((&file[at..at + 4], data.clone()));
        if size % 2 == 1 {
            assert_eq!(file[data.end], 0, "a pad is zero");
        }
        at = data.end + size % 2;
    }
    assert_eq!(at, part.end);
    found
}

/// The data of the only chunk of this name.
fn only(chunks: &[(&[u8], Range<usize>)], name: &[u8]) -> Range<usize> {
    let mut places = chunks.iter().filter(|chunk| chunk.0 == name);
    let (Some(chunk), None) = (places.next(), places.next()) else { panic!("none or several {name:?}") };
    chunk.1.clone()
}

#[test]
fn entries_lead_to_the_frames() {
    use LocalChunk::{Comt, Diin, Dsti, Prop, Sound};
    let recording = Recording::new(&mut Random::new(3), 2, 12);
    for crc in [false, true] {
        for (offset, shift) in [(IndexOffset::ChunkHeader, 0), (IndexOffset::FrameData, 12)] {
            for order in [vec![Prop, Dsti, Comt, Sound, Diin], vec![Prop, Comt, Diin, Sound, Dsti]] {
                let options = Options::default().dst_crc(crc).dst_index_offset(offset).local_order(order);
                let file = whole(&recording.file(&area(Kind::Dst), &options));

                assert_eq!(chunks(&file, 0..file.len()).len(), 1, "FRM8 is all of the file");
                let locals = chunks(&file, 16..file.len());
                let sound = chunks(&file, only(&locals, b"DST "));
                let frames: Vec<_> = sound.iter().filter(|chunk| chunk.0 == b"DSTF").collect();
                let index = &file[only(&locals, b"DSTI")];

                assert_eq!(frames.len(), 7);
                assert_eq!(index.len(), 7 * 12);
                for (k, entry) in index.chunks(12).enumerate() {
                    let place = u64::from_be_bytes(entry[..8].try_into().unwrap()) as usize;
                    let length = u32::from_be_bytes(entry[8..].try_into().unwrap()) as usize;
                    assert_eq!(place, frames[k].1.start - 12 + shift);
                    assert_eq!(length, frames[k].1.len());
                    assert_eq!(file[frames[k].1.clone()], recording.frames[3 + k]);
                }
                let crcs: Vec<_> = sound.iter().filter(|chunk| chunk.0 == b"DSTC").collect();
                assert_eq!(crcs.len(), if crc { 7 } else { 0 });
                for (k, chunk) in crcs.iter().enumerate() {
                    let wanted = plain_crc(&recording.contents[3 + k]);
                    assert_eq!(file[chunk.1.clone()], wanted.to_be_bytes());
                    assert_eq!(jangqeruz::crc(&recording.contents[3 + k]), wanted);
                }
            }
        }
    }
}

/// Bit by bit.
fn plain_crc(content: &[u8]) -> u32 {
    content.iter().fold(0, |crc, &byte| {
        (0..8)
            .fold(crc ^ u32::from(byte) << 24, |crc, _| if crc >> 31 == 1 { crc << 1 ^ 0x8000_0011 } else { crc << 1 })
    })
}
