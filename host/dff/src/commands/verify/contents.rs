//! CRCs, and frames that are their own content, against the content that is at hand.

use crate::commands::faults::Faults;
use crate::sources::dff::{Opened, is_plain};
use crate::sources::watched::Watched;
use crate::{Fault, Ui};
use walk::{Crc, Frame, Sound, SoundKind};

/// What was compared, and what is wrong.
#[derive(Default)]
pub struct Found {
    /// How many CRCs were worked out.
    pub crcs: u64,
    /// How many frames were compared with the plain content, byte for byte.
    pub compared: u64,
    pub faults: Faults,
}

pub struct Contents<'a> {
    opened: &'a Opened,
    plain: Option<&'a Watched>,
    frame_bytes: usize,
}

impl<'a> Contents<'a> {
    /// The content of a file without a fault; `plain` has that of all frames, joined.
    pub fn new(opened: &'a Opened, plain: Option<&'a Watched>) -> Result<Contents<'a>, Fault> {
        let (walk, bytes) = (&opened.walk, opened.walk.frame_bytes());
        if let (Some(plain), Some(sound)) = (plain, &walk.sound) {
            let wanted = match sound.kind {
                SoundKind::Dsd => sound.size,
                SoundKind::Dst => bytes.saturating_mul(sound.frames.len() as u64),
            };
            if plain.size() != wanted {
                let (path, size) = (plain.path().display(), plain.size());
                let words = format!("{path}: has {size} bytes; the plain content of {}", opened.file.path().display());
                return Err(Fault::Source(format!("{words} has {wanted}")));
            }
        }
        let frame_bytes = usize::try_from(bytes).map_err(|_| Fault::Output("no memory for a frame".into()))?;
        Ok(Contents { opened, plain, frame_bytes })
    }

    pub fn check(&self, ui: &Ui) -> Result<Found, Fault> {
        let mut found = Found::default();
        let Some(sound) = &self.opened.walk.sound else { return Ok(found) };
        match sound.kind {
            SoundKind::Dsd => self.plain_sound(sound, ui, &mut found)?,
            SoundKind::Dst => self.coded_sound(sound, ui, &mut found)?,
        }
        Ok(found)
    }

    /// Frames of plain sound against the plain content.
    fn plain_sound(&self, sound: &Sound, ui: &Ui, found: &mut Found) -> Result<(), Fault> {
        let Some(plain) = self.plain else { return Ok(()) };
        let progress = ui.progress(&plain.path().display().to_string(), sound.size);
        let (mut one, mut two) = (vec![], vec![]);
        let bytes = self.frame_bytes as u64;
        for number in 0..sound.frame_count(bytes) {
            let Some(frame) = sound.frame(number, bytes) else { break };
            read(&self.opened.file, frame, &mut one)?;
            read(plain, Frame { place: number * bytes, length: frame.length }, &mut two)?;
            found.compared += 1;
            if one != two {
                found.faults.push(|| format!("at {}: frame {number} is not the plain content's", frame.place));
            }
            progress.advance(frame.length);
        }
        Ok(())
    }

    /// CRCs against the content of their frames, and frames that are their own content against the plain content.
    fn coded_sound(&self, sound: &Sound, ui: &Ui, found: &mut Found) -> Result<(), Fault> {
        let mut crcs = sound.crcs.iter().peekable();
        let total = sound.frames.len() as u64 * self.frame_bytes as u64;
        let progress = ui.progress(&self.opened.file.path().display().to_string(), total);
        let (mut own, mut told) = (vec![], vec![]);
        for (number, frame) in (0u32..).zip(&sound.frames) {
            let has_own = self.own_content(*frame, &mut own)?;
            if let Some(plain) = self.plain {
                let (place, length) = (u64::from(number) * self.frame_bytes as u64, self.frame_bytes as u64);
                read(plain, Frame { place, length }, &mut told)?;
                if has_own {
                    found.compared += 1;
                    if own != told {
                        found.faults.push(|| format!("at {}: frame {number} is not the plain content's", frame.place));
                    }
                }
            }
            while let Some(crc) = crcs.next_if(|crc| crc.frame.is_none_or(|of| of <= number)) {
                if crc.frame == Some(number) && has_own {
                    found.crc(number, crc, &own);
                } else if crc.frame == Some(number) && self.plain.is_some() {
                    found.crc(number, crc, &told);
                }
            }
            progress.advance(self.frame_bytes as u64);
        }
        Ok(())
    }

    /// The content of a DST frame that isn't compressed; false if it is.
    fn own_content(&self, frame: Frame, content: &mut Vec<u8>) -> Result<bool, Fault> {
        if !is_plain(0, frame.length, self.frame_bytes) {
            return Ok(false);
        }
        read(&self.opened.file, frame, content)?;
        let plain = content.first().is_some_and(|&first| is_plain(first, frame.length, self.frame_bytes));
        if plain {
            content.drain(..1);
        }
        Ok(plain)
    }
}

fn read(file: &Watched, frame: Frame, into: &mut Vec<u8>) -> Result<(), Fault> {
    let length = usize::try_from(frame.length).unwrap_or(usize::MAX);
    into.clear();
    if into.try_reserve(length).is_err() {
        return Err(Fault::Output(format!("no memory for a frame of {length} bytes")));
    }
    into.resize(length, 0);
    file.read(frame.place, into).map_err(|error| Fault::Source(error.to_string()))
}

impl Found {
    fn crc(&mut self, number: u32, crc: &Crc, content: &[u8]) {
        self.crcs += 1;
        let value = jangqeruz::crc(content);
        if value != crc.value {
            let (place, stored) = (crc.place, crc.value);
            let words =
                || format!("at {place}: the CRC of frame {number} is {stored:08x}, its content has {value:08x}");
            self.faults.push(words);
        }
    }
}
