//! What our reads are made of: the test of all lengths, the walk, and the copying.

use std::hint::black_box;

use crate::file::{File, Joined, Read};
use crate::timing::{best_call, repeated};

/// Calls that are timed together.
const CALLS: usize = 64;

/// Where the bytes that are copied start in the sound.
const COPIED_FROM: usize = 1_237;

/// Reads that copy next to nothing: of the file's first byte, which need no walk, and at its end, before which all lengths
/// are walked.
pub fn calls(file: &File<'_>) -> Result<(), String> {
    let (nothing, mut out) = (Joined::default(), [0]);
    let mut calls = |offset: u64, filled: usize| {
        let read = Read { offset, bytes: 1 };
        if [file.original(read, &mut out), file.read(read, &nothing, &mut out)] != [filled; 2] {
            return Err(format!("{}: not {filled} bytes from {offset} on", file.sound.name()));
        }
        Ok(best_call(CALLS, || {
            let original = repeated(CALLS, || _ = black_box(file.original(black_box(read), &mut out)));
            let query = repeated(CALLS, || _ = black_box(file.query(black_box(read))));
            let ours = repeated(CALLS, || _ = black_box(file.read(black_box(read), &nothing, &mut out)));
            [original, query, ours]
        }))
    };
    let ([original, query, ours], end) = (calls(0, 1)?, calls(file.size(), 0)?);
    print!("{:14}{:>9}{original:>11.0}{query:>11.0}{ours:>11.0}", file.sound.name(), file.sound.positions);
    let walk = if file.sound.dst() { format!("{:.0}", end[2] - ours) } else { "-".into() };
    println!("{:>11.0}{:>11.0}{:>11.0}{walk:>11}", end[0], end[1], end[2]);
    Ok(())
}

pub fn print_calls_head() {
    println!("{:23}{:>33}{:>33}", "", "the first byte", "at the end");
    print!("{:14}{:>9}{:>11}{:>11}{:>11}", "sound", "positions", "original", "query", "read");
    println!("{:>11}{:>11}{:>11}{:>11}", "original", "query", "read", "walk");
}

/// Our reads of DSD, which are one copy each, against a copy of as many bytes from the same place. What a read of 1 byte takes
/// is the call and its checks; the rest of a read is the copying.
pub fn copies(dsd: &File<'_>, sizes: &[usize]) {
    println!(
        "{:>23}{:>11}{:>11}{:>8}{:>11}{:>11}{:>8}",
        "bytes", "copy", "our read", "ratio", "of 1 byte", "copying", "ratio"
    );
    let small = Read { offset: dsd.sound_start() + COPIED_FROM as u64, bytes: 1 };
    let small_lent = dsd.lent(small);
    for &bytes in sizes {
        let read = Read { bytes, ..small };
        let joined = dsd.lent(read);
        let mut out = vec![0; bytes];
        let [copy, fill, one] = best_call(CALLS, || {
            let copy = repeated(CALLS, || {
                let from = black_box(&joined).contents[COPIED_FROM..].split_at(bytes).0;
                black_box(&mut out).copy_from_slice(from);
            });
            let fill = repeated(CALLS, || _ = black_box(dsd.read(black_box(read), &joined, &mut out)));
            let one = repeated(CALLS, || _ = black_box(dsd.read(black_box(small), &small_lent, &mut out[..1])));
            [copy, fill, one]
        });
        let (ratio, copying) = (fill / copy, fill - one);
        print!("DSD {bytes:>19}{copy:>11.0}{fill:>11.0}{ratio:>8.2}");
        println!("{one:>11.0}{copying:>11.0}{:>8.2}", copying / copy);
    }
}
