//! The reads that are timed, and the times of both sides.

use std::hint::black_box;
use std::ops::Range;
use std::time::Duration;

use crate::file::{File, Joined, Read};
use crate::timing::{best, each, timed};

/// Reads that are timed together, and joined before; fewer if they have more than `GROUP_BYTES`.
const GROUP: usize = 8;
const GROUP_BYTES: usize = 512 << 10;

/// Reads at a place; fewer if they have more than `PLACE_BYTES`. In a row there are so many times as many.
const PLACE: usize = 64;
const PLACE_BYTES: usize = 8 << 20;
const IN_A_ROW: usize = 4;

/// Bytes from one read's start to the next one's at a place: so that they start anywhere in a unit.
const STEP: u64 = 1_237;

/// Reads of one size, and what they are called.
pub struct Reads {
    pub name: &'static str,
    pub reads: Vec<Read>,
}

/// Reads of so many bytes: from the file's front and middle on, up to the sound's end and, if there is a trailer, to the
/// file's; and one after the other from its first quarter on, as many as fit.
pub fn reads(file: &File<'_>, bytes: usize) -> Vec<Reads> {
    let from = |name, offset: u64, step: u64, count: usize| {
        let reads = (0..count as u64).map(|number| Read { offset: offset + number * step, bytes }).collect();
        Reads { name, reads }
    };
    let (size, count) = (file.size(), PLACE.min(PLACE_BYTES / bytes));
    let up_to = |name, end: u64| from(name, end - bytes as u64 - STEP * (count as u64 - 1), STEP, count);
    let mut all = vec![from("front", 0, STEP, count), from("middle", size / 2, STEP, count)];
    all.push(up_to("sound end", file.sound_end()));
    if file.sound_end() < size {
        all.push(up_to("file end", size));
    }
    let quarter = size / 4;
    let fit = (size - quarter) as usize / bytes;
    all.push(from("in a row", quarter, bytes as u64, fit.min(IN_A_ROW * count)));
    all
}

/// Holds the two sides' bytes against each other.
pub fn same(file: &File<'_>, reads: &[Read]) -> bool {
    reads.iter().all(|&read| {
        let (mut original, mut ours) = (vec![0x00; read.bytes], vec![0xFF; read.bytes]);
        let filled = [file.original(read, &mut original), file.read(read, &file.lent(read), &mut ours)];
        filled == [read.bytes; 2] && original == ours
    })
}

/// Nanoseconds for a read.
pub struct Times {
    pub original: f64,
    /// Our query and our read.
    pub ours: f64,
    /// Our query alone.
    pub query: f64,
    /// What the caller does between the two.
    pub joining: f64,
}

/// The sum of the groups' best times, for reads of so many bytes.
pub fn times(file: &File<'_>, bytes: usize, reads: &[Read]) -> Times {
    let mut out = vec![0; bytes];
    let count = (GROUP_BYTES / bytes).clamp(1, GROUP);
    let mut joined: Vec<Joined> = (0..count).map(|_| Joined::default()).collect();
    let mut sum = [Duration::ZERO; 4];
    for group in reads.chunks(count) {
        let needed: Vec<_> = group.iter().map(|&read| file.query(read)).collect();
        let times = best(|| group_times(file, group, &needed, &mut joined, &mut out));
        sum.iter_mut().zip(times).for_each(|(sum, time)| *sum += time);
    }
    let [original, ours, query, joining] = sum.map(|time| each(time, reads.len()));
    Times { original, ours, query, joining }
}

/// The times of the original, of ours, of our query alone and of the joining.
fn group_times(
    file: &File<'_>,
    group: &[Read],
    needed: &[Range<usize>],
    joined: &mut [Joined],
    out: &mut [u8],
) -> [Duration; 4] {
    let joining = timed(|| {
        for (needed, joined) in needed.iter().zip(joined.iter_mut()) {
            file.join(needed.clone(), black_box(joined));
        }
    });
    let query = timed(|| {
        for &read in group {
            black_box(file.query(black_box(read)));
        }
    });
    let ours = timed(|| {
        for (&read, joined) in group.iter().zip(&*joined) {
            black_box(file.query(black_box(read)));
            black_box(file.read(read, joined, out));
        }
    });
    let original = timed(|| {
        for &read in group {
            black_box(file.original(black_box(read), out));
        }
    });
    [original, ours, query, joining]
}
