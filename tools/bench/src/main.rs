//! Times builds and reads of whole files by this repository's compiled functions and by the original, side by side.
//! README.md says what the columns mean.

#![forbid(unsafe_code)]

mod asking;
mod builds;
mod crc_crate;
mod crcs;
mod file;
mod largest;
mod parts;
mod pool;
mod random;
mod reads;
mod shared;
mod sizes;
mod sound;
mod texts;
mod timing;

use std::env;
use std::process::ExitCode;

use file::File;
use pool::{AREAS, CHANNELS, Pool};
use reads::Reads;
use sound::{KINDS, Kind, Sound};
use texts::Texts;
use timing::REPETITIONS;

const SIZES: [usize; 3] = [4 << 10, 64 << 10, 1 << 20];

#[derive(Clone, Copy, PartialEq)]
enum Table {
    Reads,
    Parts,
    Crcs,
    Builds,
    Asking,
    Largest,
}

/// The one table that the program's arguments ask for, if they do; nothing if they are not as in the usage.
fn only() -> Option<Option<Table>> {
    let arguments: Vec<_> = env::args_os().skip(1).collect();
    let arguments = arguments.iter().map(|argument| argument.to_str()).collect::<Option<Vec<_>>>()?;
    let table = match arguments[..] {
        [] => return Some(None),
        ["--only", table] => table,
        _ => return None,
    };
    match table {
        "reads" => Some(Some(Table::Reads)),
        "parts" => Some(Some(Table::Parts)),
        "crc" => Some(Some(Table::Crcs)),
        "builds" => Some(Some(Table::Builds)),
        "asking" => Some(Some(Table::Asking)),
        "largest" => Some(Some(Table::Largest)),
        _ => None,
    }
}

fn main() -> ExitCode {
    let Some(only) = only() else {
        eprintln!("usage: bench [--only reads|parts|crc|builds|asking|largest]");
        return ExitCode::from(2);
    };
    match run(&Pool::new(), only) {
        Ok(()) => ExitCode::SUCCESS,
        Err(message) => {
            eprintln!("bench: {message}");
            ExitCode::FAILURE
        }
    }
}

fn run(pool: &Pool, only: Option<Table>) -> Result<(), String> {
    println!("{CHANNELS} channels; ns, the best of {REPETITIONS} repetitions after a warm-up");
    let files = files(pool)?;
    let [short, long] = AREAS;
    let texts = [
        Texts::new("texts", short, 20, 10, 200),
        Texts::new("long comments", short, 20, 8, 60_000),
        Texts::new("session notes", short, 20, 4, 1 << 20),
        Texts::new("2,000 tracks", long, 2_000, 0, 0),
    ];
    let with_texts = texts.iter().map(|texts| {
        let sound = Sound { kind: Kind::Dsd, positions: texts.positions, pool };
        File::new(sound, Some(texts))
    });
    let with_texts = with_texts.collect::<Result<Vec<_>, _>>()?;
    // Minutes: only if it is asked for.
    let wanted = |table| only.map_or(table != Table::Largest, |only| only == table);
    if wanted(Table::Reads) {
        println!();
        print_reads(&files)?;
    }
    if wanted(Table::Parts) {
        println!();
        print_parts(&files, pool)?;
    }
    if wanted(Table::Crcs) {
        println!();
        crcs::print(&file(pool, Kind::Dst { crc: true }, short)?)?;
    }
    if wanted(Table::Builds) {
        println!();
        print_builds(files.iter().chain(&with_texts));
    }
    if wanted(Table::Asking) {
        println!();
        asking::print(pool)?;
    }
    if wanted(Table::Largest) {
        println!();
        largest::print(pool)?;
    }
    Ok(())
}

/// The files without texts.
fn files(pool: &Pool) -> Result<Vec<File<'_>>, String> {
    let each = KINDS.into_iter().flat_map(|kind| AREAS.map(|positions| (kind, positions)));
    each.map(|(kind, positions)| file(pool, kind, positions)).collect()
}

fn file(pool: &Pool, kind: Kind, positions: usize) -> Result<File<'_>, String> {
    File::new(Sound { kind, positions, pool }, None)
}

fn print_parts(files: &[File<'_>], pool: &Pool) -> Result<(), String> {
    parts::print_calls_head();
    files.iter().try_for_each(parts::calls)?;
    println!();
    parts::copies(&file(pool, Kind::Dsd, AREAS[0])?, &SIZES);
    Ok(())
}

fn print_reads(files: &[File<'_>]) -> Result<(), String> {
    print!(
        "{:14}{:>9}{:>9}  {:10}{:>11}{:>11}{:>8}",
        "sound", "positions", "bytes", "place", "original", "ours", "ratio"
    );
    println!("{:>11}{:>8}{:>11}{:>9}", "query", "share", "joining", "ratio+j");
    for file in files {
        let Sound { positions, .. } = file.sound;
        let name = file.sound.name();
        for bytes in SIZES {
            for Reads { name: place, reads } in reads::reads(file, bytes) {
                if !reads::same(file, &reads) {
                    return Err(format!("{name}, {positions}, {bytes} bytes, {place}: the bytes are not the same"));
                }
                let reads::Times { original, ours, query, joining } = reads::times(file, bytes, &reads);
                let (ratio, share) = (ours / original, 100.0 * query / ours);
                let with_joining = (ours + joining) / original;
                print!("{name:14}{positions:>9}{bytes:>9}  {place:10}{original:>11.0}{ours:>11.0}{ratio:>8.2}");
                println!("{query:>11.0}{share:>7.0}%{joining:>11.0}{with_joining:>9.2}");
            }
        }
    }
    Ok(())
}

fn print_builds<'a>(files: impl Iterator<Item = &'a File<'a>>) {
    print!("{:14}{:>9}  {:>18}{:>11}{:>11}", "build", "positions", "header and trailer", "original", "ours");
    println!("{:>8}{:>11}{:>11}{:>9}", "ratio", "sizes", "fresh", "ratio+f");
    for file in files {
        let builds::Times { original, ours, sizes, fresh } = builds::times(file.sound, file.texts);
        let bytes = file.sound_start() + file.size() - file.sound_end();
        print!("{:14}{:>9}  {bytes:>18}{original:>11.0}{ours:>11.0}", file.name(), file.sound.positions);
        println!("{:>8.2}{sizes:>11.0}{fresh:>11.0}{:>9.2}", ours / original, fresh / original);
    }
}
