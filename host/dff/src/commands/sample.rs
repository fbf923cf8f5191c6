//! `dff sample DIR`: a short recording of its own, as DSD and as DST, and a manifest that makes files of it.

mod modulator;

use crate::cli::SampleArgs;
use crate::output::{Output, check_free};
use crate::{Fault, Ui};
use modulator::Tone;
use std::path::Path;

/// Two seconds.
const FRAMES: usize = 150;
const FRAME_BYTES: usize = jangqeruz::FRAME_BYTES_PER_CHANNEL;

/// A tone for each channel, in Hz.
const TONES: [f64; 2] = [440.0, 660.0];

const MANIFEST: &str = include_str!("sample/sample.toml");

pub fn run(args: SampleArgs, ui: &Ui) -> Result<(), Fault> {
    let folder = &args.folder;
    let names = ["sound.raw", "frames.dst", "frames.txt", "sample.toml"];
    let there = names.iter().filter_map(|name| check_free(&folder.join(name), ui.force).err()).collect();
    if let Some(fault) = Fault::all(there) {
        return Err(fault);
    }
    let made = std::fs::create_dir_all(folder);
    made.map_err(|error| Fault::Output(format!("{}: {error}", folder.display())))?;
    let sound = sound();
    let (frames, lengths) = plain_frames(&sound);
    let contents = [sound.as_slice(), &frames, lengths.as_bytes(), MANIFEST.as_bytes()];
    for (name, bytes) in names.iter().zip(contents) {
        write(&folder.join(name), bytes, ui)?;
    }
    ui.say(&format!("next: dff build {} -o {}", folder.join("sample.toml").display(), folder.display()))
}

fn write(path: &Path, bytes: &[u8], ui: &Ui) -> Result<(), Fault> {
    let mut output = Output::create(path, ui.force)?;
    output.write_all(bytes)?;
    output.finish()?;
    ui.say(&format!("{}: {} bytes", path.display(), bytes.len()))
}

/// The plain content of all frames: a byte of each channel in turn, the earliest sample in the highest bit.
fn sound() -> Vec<u8> {
    let mut tones = TONES.map(|frequency| Tone::new(frequency, FRAMES * FRAME_BYTES * 8));
    let mut bytes = Vec::with_capacity(FRAMES * FRAME_BYTES * tones.len());
    for _ in 0..FRAMES * FRAME_BYTES {
        for tone in &mut tones {
            bytes.push((0..8).fold(0, |byte, _| byte << 1 | u8::from(tone.next_bit())));
        }
    }
    bytes
}

/// The same as DST frames that are not compressed: a zero byte, then the plain content. And their lengths, one a line.
fn plain_frames(sound: &[u8]) -> (Vec<u8>, String) {
    let mut frames = Vec::with_capacity(sound.len() + FRAMES);
    let mut lengths = String::new();
    for content in sound.chunks(FRAME_BYTES * TONES.len()) {
        frames.push(0);
        frames.extend_from_slice(content);
        lengths.push_str(&format!("{}\n", content.len() + 1));
    }
    (frames, lengths)
}

#[cfg(test)]
mod tests {
    use super::*;

    #[test]
    fn sizes_are_those_of_whole_frames() {
        let sound = sound();
        assert_eq!(sound.len(), 150 * 9_408);
        let (frames, lengths) = plain_frames(&sound);
        assert_eq!(frames.len(), 150 * 9_409);
        assert_eq!(lengths.lines().filter(|line| *line == "9409").count(), 150);
    }
}
