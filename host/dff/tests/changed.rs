//! A source that is altered while it is read: 4, and nothing is left.

mod common;

use common::{Draw, Folder};
use dff::sources::Sound;
use dff::sources::raw::Raw;
use dff::sources::watched::Watched;
use dff::{Fault, Ui};
use jangqeruz::{Area, File, Kind, Layout, Options, Source};
use std::fs::{self, OpenOptions};
use std::ops::Range;
use std::os::unix::fs::FileExt;
use std::path::{Path, PathBuf};
use std::process::{Command, Stdio};
use std::sync::atomic::{AtomicU32, Ordering};
use std::time::{Duration, Instant};

/// A source that does something before the given fetch.
struct Meddled<'a> {
    raw: Raw,
    fetches: AtomicU32,
    at: u32,
    meddle: &'a (dyn Fn() + Sync),
}

impl Source for Meddled<'_> {
    fn fetch(&self, frames: Range<u32>, coded: &mut [u8], plain: &mut [u8]) -> std::io::Result<()> {
        if self.fetches.fetch_add(1, Ordering::SeqCst) == self.at {
            (self.meddle)();
        }
        self.raw.fetch(frames, coded, plain)
    }
}

impl Sound for Meddled<'_> {
    fn kind(&self) -> Kind {
        self.raw.kind()
    }

    fn channels(&self) -> u32 {
        self.raw.channels()
    }

    fn frames(&self) -> u32 {
        self.raw.frames()
    }

    fn lengths(&self, range: Range<u32>) -> Vec<u32> {
        self.raw.lengths(range)
    }

    fn still_the_same(&self) -> Result<(), Fault> {
        self.raw.still_the_same()
    }
}

const FRAMES: u32 = 600;

/// Copies a source of some megabytes, which is meddled with before the given fetch. Answers also how many fetches it
/// took.
fn copied(folder: &Folder, pad: bool, at: u32, meddle: &(dyn Fn() + Sync)) -> (Result<(), Fault>, u32) {
    let path = folder.write("sound.raw", vec![0x69; FRAMES as usize * 9_408]);
    let watched = Watched::new(fs::File::open(&path).unwrap(), &path).unwrap();
    let raw = Raw::new(watched, 2, pad);
    let source = Meddled { raw, fetches: AtomicU32::new(0), at, meddle };
    let area = Area::new(Kind::Dsd, 2, Layout::Stereo, FRAMES);
    let file = File::build(&area, &Options::default(), &[], source).unwrap();
    let mut out = Vec::new();
    let ui = Ui::new(true, false, &mut out);
    let path = folder.path("out/one.dff");
    let output = dff::output::Output::create(&path, false).unwrap();
    let result = dff::copy::write(&file, output, "one.dff", &ui);
    (result, file.source().fetches.load(Ordering::SeqCst))
}

fn alter(path: &Path, change: impl Fn(&fs::File)) {
    change(&OpenOptions::new().write(true).open(path).unwrap());
}

#[test]
fn every_change_at_every_fetch_is_4() {
    let folder = Folder::new("changed");
    fs::create_dir(folder.path("out")).unwrap();
    let out = Folder(folder.path("out"));
    let (whole, fetches) = copied(&folder, false, u32::MAX, &|| ());
    assert_eq!(whole, Ok(()));
    assert!(fetches >= 3);
    fs::remove_file(folder.path("out/one.dff")).unwrap();

    let path = folder.path("sound.raw");
    let size = u64::from(FRAMES) * 9_408;
    let changes: [(&str, &(dyn Fn() + Sync)); 7] = [
        ("emptied", &|| alter(&path, |file| file.set_len(0).unwrap())),
        ("shortened by a byte", &|| alter(&path, |file| file.set_len(size - 1).unwrap())),
        ("longer by a byte", &|| alter(&path, |file| file.set_len(size + 1).unwrap())),
        ("first byte rewritten", &|| alter(&path, |file| assert_eq!(file.write_at(&[1], 0).unwrap(), 1))),
        ("last byte rewritten", &|| alter(&path, |file| assert_eq!(file.write_at(&[1], size - 1).unwrap(), 1))),
        ("written with the same bytes", &|| fs::write(&path, vec![0x69; size as usize]).unwrap()),
        ("its times set back", &|| {
            let file = OpenOptions::new().write(true).open(&path).unwrap();
            let modified = file.metadata().unwrap().modified().unwrap();
            file.write_at(&[1], 0).unwrap();
            file.set_modified(modified).unwrap();
        }),
    ];
    for (name, change) in changes {
        for pad in [false, true] {
            for at in 0..fetches {
                let (result, _) = copied(&folder, pad, at, change);
                let Err(Fault::Source(text)) = &result else { panic!("{name}, fetch {at}: {result:?}") };
                assert!(
                    text.contains("sound.raw: ") && (text.contains("changed") || text.contains("shorter")),
                    "{text}"
                );
                assert!(out.names().is_empty(), "{name}, fetch {at}");
            }
        }
    }
    // Another file that gets its name while it is read.
    let other = folder.write("other.raw", vec![0x69; size as usize]);
    let (result, _) = copied(&folder, false, 1, &|| fs::rename(&other, &path).unwrap());
    assert!(matches!(result, Err(Fault::Source(_))), "{result:?}");
    assert!(out.names().is_empty());
}

#[test]
fn a_write_that_follows_another_at_once_is_seen() {
    let folder = Folder::new("young");
    let path: PathBuf = folder.write("one.raw", [0; 9_408]);
    let watched = Watched::new(fs::File::open(&path).unwrap(), &path).unwrap();
    // The next write must be seen, however soon it comes.
    alter(&path, |file| assert_eq!(file.write_at(&[1], 0).unwrap(), 1));
    assert!(matches!(watched.still_the_same(), Err(Fault::Source(_))));
}

/// The program itself, with a large source that is altered while it runs.
#[test]
fn the_program_ends_with_4_or_has_the_whole_of_one_state() {
    let folder = Folder::new("changed-program");
    fs::create_dir(folder.path("out")).unwrap();
    let out = Folder(folder.path("out"));
    let path = folder.path("sound.raw");
    let size = 4_000 * 9_408;
    fs::File::create(&path).unwrap().set_len(size).unwrap();
    folder
        .write("album.toml", "version = 1\n[[file]]\nname = 'one.dff'\nsource = { raw = 'sound.raw', channels = 2 }\n");
    let spawn = || {
        let mut command = Command::new(env!("CARGO_BIN_EXE_dff"));
        command.args(["build", "album.toml", "-o", "out", "-q"]).current_dir(&folder.0);
        command.stderr(Stdio::piped()).spawn().unwrap()
    };
    let start = Instant::now();
    assert!(spawn().wait().unwrap().success());
    let mut whole = start.elapsed();
    fs::remove_file(folder.path("out/one.dff")).unwrap();
    let mut draw = Draw(3);
    let mut changed = 0;
    for turn in 0..1_000 {
        if changed == 10 {
            return;
        }
        // Whole frames, so that each state by itself could be built.
        let frames = 4_000 - u64::from(turn % 2 == 0);
        let child = spawn();
        std::thread::sleep(Duration::from_micros(draw.below(whole.as_micros() as usize) as u64));
        alter(&path, |file| file.set_len(frames * 9_408).unwrap());
        let ended = child.wait_with_output().unwrap();
        match ended.status.code() {
            Some(0) => {
                let length = folder.path("out/one.dff").metadata().unwrap().len();
                assert!([3_999, 4_000].map(|frames| 144 + frames * 9_408).contains(&length), "{length}");
                fs::remove_file(folder.path("out/one.dff")).unwrap();
                // Altered before it began or after it ended.
                whole = whole * 9 / 10 + Duration::from_millis(1);
            }
            Some(4) => {
                changed += 1;
                let text = String::from_utf8_lossy(&ended.stderr);
                assert!(text.contains("sound.raw"), "{text}");
            }
            _ => panic!("{ended:?}"),
        }
        assert!(out.names().is_empty());
    }
    panic!("only {changed} runs were hit");
}
