//! Writes files with this repository's compiled functions, and beside each what was given for it:
//!   readers FOLDER
//! NAME.dff is the file, NAME.content the contents joined, NAME.frames the DST frames joined, NAME.txt the rest, a line each;
//! files.txt has the names.

#![forbid(unsafe_code)]

mod case;
mod cases;
mod coded;
mod file;
mod id3;
mod random;
mod sound;

use std::path::Path;
use std::process::ExitCode;
use std::{env, fs};

use case::Case;

/// Bytes of a read, from file to file in turn.
const READS: [usize; 4] = [10_000, 4_703, 9_999, 777];

fn main() -> ExitCode {
    let Some(folder) = env::args().nth(1) else {
        eprintln!("usage: readers FOLDER");
        return ExitCode::from(2);
    };
    match write_all(Path::new(&folder)) {
        Ok(()) => ExitCode::SUCCESS,
        Err(message) => {
            eprintln!("readers: {message}");
            ExitCode::from(2)
        }
    }
}

fn write_all(folder: &Path) -> Result<(), String> {
    let cases = cases::all();
    for (number, case) in cases.iter().enumerate() {
        write(folder, number, case).map_err(|message| format!("{}: {message}", case.name))?;
    }
    let names: String = cases.iter().map(|case| format!("{}\n", case.name)).collect();
    fs::write(folder.join("files.txt"), names).map_err(|error| error.to_string())
}

fn write(folder: &Path, number: usize, case: &Case) -> Result<(), String> {
    let sound = case.sound(number as u64 + 1);
    let read_bytes = READS[number % READS.len()];
    let put = |ending: &str, bytes: &[u8]| {
        let path = folder.join(format!("{}.{ending}", case.name));
        fs::write(path, bytes).map_err(|error| error.to_string())
    };
    put("dff", &file::bytes(case, &sound, read_bytes)?)?;
    put("content", &sound.contents.concat())?;
    put("frames", &sound.frames.concat())?;
    put("txt", case.given(&sound.lengths, read_bytes).as_bytes())
}
