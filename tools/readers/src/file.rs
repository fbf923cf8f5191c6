//! A file as our library makes it: a build, then queries and reads.

use std::ops::Range;

use library::builds::{self, ANSWERS, HEADER_SHORT, TRAILER_SHORT};
use library::reads::{self, Format};
use library::sound::Lent;

use crate::case::Case;
use crate::sound::Sound;

struct Built {
    header: Vec<u8>,
    trailer: Vec<u8>,
    size: u64,
}

/// Builds with buffers that have no room first, then as much as the refusals 40 and 41 say.
fn build(case: &Case, sound: &Sound) -> Result<Built, String> {
    let words = case.build.words();
    let (mut header, mut trailer) = (Vec::new(), Vec::new());
    let mut answer = [0; ANSWERS];
    let mut number = 0;
    for _ in 0..3 {
        number = builds::build(&words, case.lent(&sound.lengths), &mut header, &mut trailer, &mut answer);
        match number {
            HEADER_SHORT => header.resize(answer[0] as usize, 0xEE),
            TRAILER_SHORT => trailer.resize(answer[0] as usize, 0xEE),
            _ => break,
        }
    }
    let size = answer.iter().sum();
    match number {
        0 if answer[0] == header.len() as u64 && answer[2] == trailer.len() as u64 => {
            Ok(Built { header, trailer, size })
        }
        0 => Err(format!("the lengths {answer:?} are not those of the buffers")),
        _ => Err(format!("the build is refused: {number}, {}", answer[0])),
    }
}

/// The file's bytes, by reads of so many bytes each, one behind the other, until one fills nothing. Each is lent what its
/// query says.
pub fn bytes(case: &Case, sound: &Sound, read_bytes: usize) -> Result<Vec<u8>, String> {
    let Built { header, trailer, size } = build(case, sound)?;
    let properties = &case.build.properties;
    let format = Format {
        dst: properties.dst,
        crc: case.build.dst_crc,
        channels: properties.channels,
        positions: sound.contents.len() as u32,
        lengths: &sound.lengths,
    };
    let mut file = Vec::new();
    loop {
        let offset = file.len() as u64;
        let lengths = (header.len() as u64, trailer.len() as u64);
        let (number, range) = reads::query(format, lengths.0, lengths.1, offset, read_bytes as u64);
        if number != 0 {
            return Err(format!("the query at {offset} is refused: {number}"));
        }
        let needed = range[0] as usize..range[1] as usize;
        let mut out = vec![0xEE; read_bytes];
        let (number, filled) =
            with_lent(sound, format, needed, |lent| reads::read(&mut out, format, &header, &trailer, offset, lent));
        if number != 0 {
            return Err(format!("the read at {offset} is refused: {number}"));
        }
        if filled == 0 {
            break;
        }
        file.extend_from_slice(&out[..filled as usize]);
    }
    match file.len() as u64 == size {
        true => Ok(file),
        false => Err(format!("the reads gave {} bytes, the build says {size}", file.len())),
    }
}

fn with_lent<T>(sound: &Sound, format: Format<'_>, needed: Range<usize>, read: impl FnOnce(Lent<'_>) -> T) -> T {
    let contents = match format.dst && !format.crc {
        true => Vec::new(),
        false => sound.contents[needed.clone()].concat(),
    };
    match format.dst {
        true => read(Lent {
            lengths: &sound.lengths[needed.clone()],
            frames: &sound.frames[needed].concat(),
            contents: &contents,
        }),
        false => read(Lent { lengths: &[], frames: &[], contents: &contents }),
    }
}
