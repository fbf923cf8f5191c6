//! Runs that are killed at random places leave complete files or none, and never alter an old one.

mod common;

use common::{Draw, Folder};
use std::fs;
use std::os::unix::process::ExitStatusExt;
use std::process::{Child, Command};
use std::time::{Duration, Instant};

/// So many runs are hit; those that end before they are killed don't count.
const HITS: usize = 50;
const MOST_TURNS: usize = 1_000;

/// A folder with a large source and a manifest of two files, and the program run on it.
struct Kills {
    folder: Folder,
    /// What a whole run writes, and how long it takes.
    files: [Vec<u8>; 2],
    whole: Duration,
}

const NAMES: [&str; 2] = ["one.dff", "two.dff"];

impl Kills {
    fn new(name: &str) -> Kills {
        let folder = Folder::new(name);
        fs::create_dir(folder.path("out")).unwrap();
        let mut draw = Draw(4);
        folder.write("sound.raw", draw.bytes(1_000).repeat(3_000 * 9_408 / 1_000));
        let file = |name| format!("[[file]]\nname = '{name}'\nsource = {{ raw = 'sound.raw', channels = 2 }}\n");
        folder.write("album.toml", format!("version = 1\n{}{}", file(NAMES[0]), file(NAMES[1])));
        let mut kills = Kills { folder, files: [vec![], vec![]], whole: Duration::ZERO };
        let start = Instant::now();
        assert!(kills.spawn(&[]).wait().unwrap().success());
        kills.whole = start.elapsed();
        kills.files = NAMES.map(|name| kills.folder.read(&format!("out/{name}")));
        kills
    }

    fn spawn(&self, more: &[&str]) -> Child {
        let mut command = Command::new(env!("CARGO_BIN_EXE_dff"));
        command.args(["build", "album.toml", "-o", "out", "-q"]).args(more).current_dir(&self.folder.0).spawn().unwrap()
    }

    /// Kills runs at random places; before each one `prepare`, after it `check` is called.
    fn kill(&mut self, seed: u64, more: &[&str], prepare: impl Fn(&Kills), check: impl Fn(&Kills)) {
        let mut draw = Draw(seed);
        let mut hits = 0;
        for _ in 0..MOST_TURNS {
            prepare(self);
            let mut child = self.spawn(more);
            std::thread::sleep(Duration::from_micros(draw.below(self.whole.as_micros() as usize) as u64));
            child.kill().unwrap();
            let hit = child.wait().unwrap().signal().is_some();
            check(self);
            hits += usize::from(hit);
            if hits == HITS {
                return;
            }
            if !hit {
                // Runs are shorter than the first one was.
                self.whole = self.whole * 9 / 10 + Duration::from_millis(1);
            }
        }
        panic!("only {hits} runs were hit");
    }

    fn out(&self) -> Folder {
        Folder(self.folder.path("out"))
    }
}

#[test]
fn a_killed_run_leaves_complete_files_or_none() {
    let prepare = |kills: &Kills| {
        for name in kills.out().names() {
            fs::remove_file(kills.folder.path(&format!("out/{name}"))).unwrap();
        }
    };
    let check = |kills: &Kills| {
        for name in kills.out().names() {
            let number = NAMES.iter().position(|known| *known == name);
            let number = number.unwrap_or_else(|| panic!("{name} was left"));
            assert!(kills.folder.read(&format!("out/{name}")) == kills.files[number], "{name} is not complete");
        }
    };
    Kills::new("killed").kill(5, &[], prepare, check);
}

#[test]
fn a_killed_run_with_force_leaves_the_old_or_the_new() {
    let old = vec![0x55; 1_000_000];
    let prepare = |kills: &Kills| {
        for name in NAMES {
            kills.folder.write(&format!("out/{name}"), &old);
        }
    };
    let check = |kills: &Kills| {
        for (name, new) in NAMES.iter().zip(&kills.files) {
            let found = kills.folder.read(&format!("out/{name}"));
            assert!(found == old || found == *new, "{name} is neither");
        }
        // Between its hidden name and its own a file is complete too.
        for name in kills.out().names().iter().filter(|name| !NAMES.contains(&name.as_str())) {
            assert!(name.starts_with(".dff-"), "{name}");
            let found = kills.folder.read(&format!("out/{name}"));
            assert!(kills.files.contains(&found), "{name} is not complete");
            fs::remove_file(kills.folder.path(&format!("out/{name}"))).unwrap();
        }
    };
    Kills::new("killed-force").kill(6, &["--force"], prepare, check);
}
