//! CRCs: ours, the original's, and that of the crate `crc` if the program is built with it.

use std::hint::black_box;

use library::sound as ours;

use crate::crc_crate::{CrcCrate, MISSING};
use crate::file::{File, Read};
use crate::random::Random;
use crate::timing::{best_call, repeated};

/// The lengths that are timed: short ones, and the contents of a position for 1, 2, 3 and 6 channels.
const LENGTHS: [usize; 7] = [64, 320, 1_000, 4_704, 9_408, 14_112, 28_224];

/// Bytes that are timed together, at least.
const TOGETHER: usize = 1 << 20;

/// Prints the table, if all have the same CRCs, and the original's is what it writes in the file.
pub fn print(dst: &File<'_>) -> Result<(), String> {
    let content = dst.sound.pool.content(0);
    if [original_crc::crc(content), ours::crc(content)] != [written(dst); 2] {
        return Err("the CRC of a position is not what the original writes".into());
    }
    let mut random = Random(20_240_611);
    let content: Vec<u8> = (0..LENGTHS[LENGTHS.len() - 1]).map(|_| random.word() as u8).collect();
    let crc_crate = CrcCrate::new();
    print!("{:>23}{:>11}{:>11}{:>11}", "bytes", "original", "crc crate", "ours");
    println!("{:>15}{:>12}", "ours/original", "ours/crate");
    LENGTHS.iter().try_for_each(|&length| row(&content[..length], crc_crate.as_ref()))?;
    if crc_crate.is_none() {
        println!("{MISSING}");
    }
    Ok(())
}

/// The CRC of the first position in the original's file.
fn written(dst: &File<'_>) -> u32 {
    let length = u64::from(dst.sound.lengths()[0]);
    let mut written = [0; 4];
    dst.original(Read { offset: dst.sound_start() + 12 + length + length % 2 + 12, bytes: 4 }, &mut written);
    u32::from_be_bytes(written)
}

fn row(content: &[u8], crc_crate: Option<&CrcCrate>) -> Result<(), String> {
    let bytes = content.len();
    let by_original = original_crc::crc(content);
    if ours::crc(content) != by_original || crc_crate.is_some_and(|other| other.crc(content) != by_original) {
        return Err(format!("the CRCs of {bytes} bytes are not the same"));
    }
    let calls = TOGETHER.div_ceil(bytes);
    let [original, other, ours] = best_call(calls, || {
        let original = repeated(calls, || _ = black_box(original_crc::crc(black_box(content))));
        let other = repeated(calls, || _ = black_box(crc_crate.map(|other| other.crc(black_box(content)))));
        let ours = repeated(calls, || _ = black_box(ours::crc(black_box(content))));
        [original, other, ours]
    });
    let [time, ratio] = match crc_crate {
        Some(_) => [format!("{other:.0}"), format!("{:.2}", ours / other)],
        None => ["-".into(), "-".into()],
    };
    println!("CRC {bytes:>19}{original:>11.0}{time:>11}{ours:>11.0}{:>15.2}{ratio:>12}", ours / original);
    Ok(())
}
