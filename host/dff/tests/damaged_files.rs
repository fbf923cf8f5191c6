//! Damaged files through `show`, `verify` and `cut`: each run ends with a status, none by a panic.

mod made;

use made::{Draw, Made, dff_on, draw, folder, settle};
use std::fs;
use std::os::unix::fs::FileExt;
use std::path::Path;

const RUNS: usize = 100_000;
const BATCH: usize = 2_000;

/// Some small files that differ in what they have.
fn originals(random: &mut Draw) -> Vec<Made> {
    let mut files = vec![];
    while files.len() < 40 {
        let made = draw::made(random);
        if made.bytes.len() < 6_000 {
            files.push(made);
        }
    }
    files
}

/// Where the chunks of a file begin, inner ones too.
fn heads(bytes: &[u8]) -> Vec<usize> {
    let walked = walk::walk(bytes).unwrap();
    let mut places = vec![0];
    for chunk in walked.form.iter().flat_map(|form| &form.chunks) {
        places.push(chunk.place as usize);
        places.extend(chunk.chunks.iter().map(|inner| inner.place as usize));
    }
    let frames = walked.sound.iter().flat_map(|sound| &sound.frames);
    places.extend(frames.map(|frame| frame.place as usize - 12));
    places
}

fn damage(random: &mut Draw, bytes: &mut Vec<u8>, heads: &[usize]) {
    let at = random.under(bytes.len() as u64) as usize;
    let head = random.pick(heads).min(bytes.len().saturating_sub(12));
    match random.under(9) {
        0 => bytes[at] = random.next() as u8,
        1 => bytes[at] ^= 1 << random.under(8),
        2 => {
            // the header of a chunk
            let place = (head + random.under(16) as usize).min(bytes.len() - 1);
            bytes[place] = random.next() as u8;
        }
        3 => {
            // a size
            let sizes = [0, 1, 2, 3, 4, 11, 12, 13, 1 << 16, 1 << 32, 1 << 40, 1 << 60, u64::MAX, u64::MAX - 12];
            let size = random.pick(&sizes);
            if let Some(field) = bytes.get_mut(head + 4..head + 12) {
                field.copy_from_slice(&size.to_be_bytes());
            }
        }
        4 => bytes.truncate(at),
        5 => {
            // a chunk's size, a little more or less
            if let Some(byte) = bytes.get_mut(head + 11) {
                *byte = byte.wrapping_add(random.under(7) as u8).wrapping_sub(3);
            }
        }
        6 => {
            // a stretch from one chunk to another, once more at the end
            let other = random.pick(heads).min(bytes.len());
            let stretch = bytes[head.min(other)..head.max(other)].to_vec();
            bytes.extend(stretch);
        }
        7 => {
            // the names of two chunks changed over
            let other = random.pick(heads).min(bytes.len().saturating_sub(12));
            for i in 0..4 {
                if head + i < bytes.len() && other + i < bytes.len() {
                    bytes.swap(head + i, other + i);
                }
            }
        }
        _ => {
            // bytes put in or taken out, the form's size made right
            let count = random.under(24) as usize;
            if random.chance(50) {
                let more = random.bytes(count);
                bytes.splice(at..at, more);
            } else {
                bytes.drain(at..(at + count).min(bytes.len()));
            }
            let size = (bytes.len() as u64).saturating_sub(12);
            if let Some(field) = bytes.get_mut(4..12) {
                field.copy_from_slice(&size.to_be_bytes());
            }
        }
    }
    if bytes.is_empty() {
        bytes.push(0);
    }
}

/// The same file with other bytes: neither made anew nor emptied, both of which take file systems their time.
fn rewrite(path: &Path, bytes: &[u8]) {
    let file = fs::OpenOptions::new().write(true).create(true).truncate(false).open(path).unwrap();
    file.write_all_at(bytes, 0).unwrap();
    file.set_len(bytes.len() as u64).unwrap();
}

#[test]
fn each_run_ends_with_a_status() {
    let (folder, mut random) = (folder("damaged_files"), Draw(77));
    let originals = originals(&mut random);
    let heads: Vec<Vec<usize>> = originals.iter().map(|made| heads(&made.bytes)).collect();
    let out = folder.join("out");
    let mut statuses = [[0usize; 6]; 3];
    for batch in 0..RUNS / BATCH {
        for number in 0..BATCH {
            let which = random.under(originals.len() as u64) as usize;
            let mut bytes = originals[which].bytes.clone();
            for _ in 0..1 + random.under(3) {
                damage(&mut random, &mut bytes, &heads[which]);
            }
            rewrite(&folder.join(number.to_string()), &bytes);
        }
        settle();
        for number in 0..BATCH {
            let path = folder.join(number.to_string());
            let turn = (batch * BATCH + number) % 6;
            let run = match turn {
                0 => dff_on("show", &path, &[]),
                1 => dff_on("verify", &path, &[]),
                2 => dff_on("cut", &path, &["-o", out.to_str().unwrap(), "--drop-crc", "--quiet"]),
                3 => dff_on("show", &path, &["--json"]),
                4 => dff_on("verify", &path, &["--plain", path.to_str().unwrap()]),
                _ => dff_on("cut", &path, &["-o", out.to_str().unwrap(), "--drop-markers", "--to", "1"]),
            };
            statuses[turn % 3][usize::from(run.status)] += 1;
            assert_eq!(run.status == 0, run.err.is_empty(), "{}", run.err);
            if out.exists() {
                assert_eq!(run.status, 0);
                // what was cut is a right file
                if number % 16 == 2 {
                    assert_eq!(walk::walk(&fs::read(&out).unwrap()[..]).unwrap().faults, []);
                }
                fs::remove_file(&out).unwrap();
            }
        }
    }
    println!("status 0 to 5 of show, verify, cut: {statuses:?}");
    // some damages leave a file right, most don't
    for of_command in statuses {
        assert!(of_command[0] > RUNS / 300 && of_command[1] > RUNS / 6, "{statuses:?}");
    }
    fs::remove_dir_all(&folder).unwrap();
}
