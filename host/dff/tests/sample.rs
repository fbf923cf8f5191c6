//! `dff sample`, what `dff build` makes of it, and what other programs read of that.

mod common;

use common::{Folder, dff};
use std::process::Command;

const MADE: [&str; 4] = ["frames.dst", "frames.txt", "sample.toml", "sound.raw"];

#[test]
fn the_sample_is_made_built_and_read_by_others() {
    let folder = Folder::new("sample");
    let try_it = Folder(folder.path("deep/try"));
    let ran = dff(&["sample", &folder.text("deep/try")]).with(0, "");
    assert_eq!(try_it.names(), MADE);
    let (manifest, out) = (folder.text("deep/try/sample.toml"), folder.text("deep/try"));
    assert!(ran.out.ends_with(&format!("next: dff build {manifest} -o {out}\n")), "{ran:?}");
    dff(&["check", &manifest]).with(0, "");
    dff(&["build", &manifest, "-o", &out]).with(0, "");
    for (name, frames, codec) in
        [("tone.dff", 150, "dsd_msbf"), ("tone-dst.dff", 150, "dst"), ("span-dst.dff", 37, "dst")]
    {
        let path = folder.text(&format!("deep/try/{name}"));
        dff(&["verify", &path]).with(0, "");
        read_by_ffprobe(&path, frames, codec);
        read_by_mediainfo(&path);
    }
    let tone = try_it.read("tone.dff");
    let sound = try_it.read("sound.raw");
    assert!(tone.windows(sound.len()).any(|part| part == sound));
}

#[test]
fn nothing_is_replaced_without_force() {
    let folder = Folder::new("sample-again");
    folder.write("frames.txt", "mine");
    let ran = dff(&["sample", &folder.text("")]).with(5, "frames.txt: is there already; --force replaces it");
    assert_eq!(ran.err.lines().count(), 1);
    assert_eq!(folder.names(), ["frames.txt"]);
    dff(&["sample", &folder.text(""), "--force", "--quiet"]).with(0, "");
    assert_eq!(folder.names(), MADE);
    assert_eq!(folder.read("frames.txt").len(), 150 * 5);
    folder.write("file", "");
    dff(&["sample", &folder.text("file/try")]).with(5, "Not a directory");
}

/// What the program prints; none, said so, where it is not installed.
fn told(program: &str, args: &[&str]) -> Option<String> {
    match Command::new(program).args(args).output() {
        Ok(ran) => {
            assert!(ran.status.success(), "{program}: {ran:?}");
            Some(String::from_utf8_lossy(&ran.stdout).into_owned())
        }
        Err(_) => {
            println!("skipped: {program} is not installed");
            None
        }
    }
}

fn read_by_ffprobe(path: &str, frames: u32, codec: &str) {
    let shown = "stream=codec_name,channels,sample_rate,duration";
    let Some(text) = told("ffprobe", &["-v", "error", "-show_entries", shown, "-of", "default=nw=1", path]) else {
        return;
    };
    for line in [format!("codec_name={codec}"), "channels=2".to_string(), "sample_rate=352800".to_string()] {
        assert!(text.lines().any(|told| told == line), "{path}: no {line} in {text}");
    }
    let duration =
        text.lines().find_map(|line| line.strip_prefix("duration=")).and_then(|text| text.parse::<f64>().ok());
    let wanted = f64::from(frames) / 75.0;
    assert!(duration.is_none_or(|duration| (duration - wanted).abs() < 0.001), "{path}: {text}");
}

fn read_by_mediainfo(path: &str) {
    if let Some(text) = told("mediainfo", &["--Output=General;%Format% %AudioCount%", path]) {
        assert_eq!(text.trim(), "DSDIFF 1");
    }
}
