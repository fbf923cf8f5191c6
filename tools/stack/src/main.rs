//! Builds a file and reads all of it, in a thread with so much stack: `stack KIB`. A thread that wants more ends the program
//! by a signal. Status: 0 it ran, 1 an answer is not as it should be, 2 no number is given.

use std::env;
use std::process::ExitCode;
use std::thread;

use library::builds::{self, ANSWERS};
use library::checks::{Build, COMT, DIIN, DSTI, Lent, ON, PROP, SOUND, WORDS};
use library::markers::{Info, Properties, Start};
use library::reads::{self, Format};
use library::sound;

const POSITIONS: usize = 50;
const CHANNELS: u8 = 6;
// A layout with a subwoofer.
const FIVE_POINT_ONE: u8 = 2;
// A channel's bytes in a position.
const FRAME: usize = 4_704;
const ROOM: usize = 16_384;
const READ: usize = 1_000;

/// Every chunk that a DST file can have.
fn words() -> [u32; WORDS] {
    let end = POSITIONS as u32;
    let text = [1, 0, 4];
    let properties = Properties {
        order: [0, 1, 2, 3, 4],
        dst: true,
        layout: FIVE_POINT_ONE,
        channels: CHANNELS,
        start: Start { given: true, frame: 0 },
        loudspeaker_configuration: true,
        ..Properties::default()
    };
    let info = Info {
        order: [0, 1, 2, 3],
        on: true,
        emid: text,
        end,
        playtime: end,
        titles: true,
        album_artist: text,
        album_title: text,
        ..Info::default()
    };
    let build = Build {
        properties,
        info,
        dst_crc: true,
        dst_index: true,
        artist_title: ON,
        replacement: Some(b'?'),
        local_order: [PROP, COMT, DIIN, SOUND, DSTI],
        local_count: 5,
        ..Build::default()
    };
    build.words()
}

/// A file's header and trailer, and the sound's length.
struct File {
    header: Vec<u8>,
    trailer: Vec<u8>,
    sound: u64,
}

fn built(lengths: &[u32]) -> Option<File> {
    let pool: Vec<u32> = "text".chars().map(u32::from).collect();
    let lent = Lent {
        pool: &pool,
        raw: b"text",
        tracks: &[0, 25, 0, 4, 25, 25, 0, 4],
        markers: &[],
        comments: &[2026, 11, 16, 12, 0, 0, 0, 0, 4],
        callers: &[u32::from_be_bytes(*b"ABCD"), 0, 4],
        lengths,
    };
    let mut header = vec![0; ROOM];
    let mut trailer = vec![0; ROOM];
    let mut answer = [0; ANSWERS];
    let number = builds::build(&words(), lent, &mut header, &mut trailer, &mut answer);
    if number != 0 {
        eprintln!("the build is refused: {number}, {answer:?}");
        return None;
    }
    header.truncate(answer[0] as usize);
    trailer.truncate(answer[2] as usize);
    Some(File { header, trailer, sound: answer[1] })
}

/// How many bytes the read at this place fills.
fn filled(file: &File, lengths: &[u32], offset: u64, out: &mut [u8]) -> Option<u64> {
    let format = Format { dst: true, crc: true, channels: CHANNELS, positions: 0, lengths };
    let (header, trailer) = (file.header.len() as u64, file.trailer.len() as u64);
    let (number, [first, end]) = reads::query(format, header, trailer, offset, out.len() as u64);
    if number != 0 {
        eprintln!("the query at {offset} is refused: {number}");
        return None;
    }
    let needed = &lengths[first as usize..end as usize];
    let frames = vec![0; needed.iter().sum::<u32>() as usize];
    let contents = vec![0; needed.len() * usize::from(CHANNELS) * FRAME];
    let lent = sound::Lent { lengths: needed, frames: &frames, contents: &contents };
    let (number, filled) = reads::read(out, format, &file.header, &file.trailer, offset, lent);
    if number != 0 {
        eprintln!("the read at {offset} is refused: {number}, {filled}");
        return None;
    }
    Some(filled)
}

/// The lengths of header, sound and trailer, and how many reads there were, if it is built, and read to its end: as many
/// bytes as it has, its header in front and its trailer behind.
fn read() -> Option<[usize; 4]> {
    let lengths: Vec<u32> = (0..POSITIONS as u32).map(|k| 100 + 7 * k).collect();
    let file = built(&lengths)?;
    let mut bytes = Vec::new();
    let mut count = 0;
    loop {
        let mut out = vec![0; READ];
        let n = filled(&file, &lengths, bytes.len() as u64, &mut out)?;
        if n == 0 {
            break;
        }
        bytes.extend_from_slice(&out[..n as usize]);
        count += 1;
    }
    let File { header, trailer, sound } = file;
    let sides = bytes.starts_with(&header) && bytes.ends_with(&trailer);
    let is_whole = bytes.len() == header.len() + sound as usize + trailer.len();
    (sides && is_whole).then_some([header.len(), sound as usize, trailer.len(), count])
}

fn main() -> ExitCode {
    let Some(kib) = env::args().nth(1).and_then(|word| word.parse::<usize>().ok()) else {
        eprintln!("usage: stack KIB");
        return ExitCode::from(2);
    };
    let thread = thread::Builder::new().stack_size(kib * 1_024).spawn(read);
    let Ok(Ok(Some([header, sound, trailer, count]))) = thread.map(|running| running.join()) else {
        return ExitCode::from(1);
    };
    println!("header {header}, sound {sound}, trailer {trailer}; {count} reads");
    ExitCode::SUCCESS
}
