//! Sound of an existing .dff, found by the unproved walk: `source = { dff = "other.dff" }`.

use super::Sound;
use super::watched::Watched;
use crate::Fault;
use crate::carry::{Numbered, layout_of, no_layout};
use crate::times::counted;
use jangqeruz::{Kind, Source};
use rustix::fs::OFlags;
use std::fs::OpenOptions;
use std::io;
use std::ops::Range;
use std::os::unix::fs::OpenOptionsExt;
use std::path::Path;
use std::sync::{Mutex, OnceLock, PoisonError};
use walk::{Frame, SoundKind, Walk};

/// The one rate that this release writes.
pub const RATE: u32 = 2_822_400;

/// A byte of DSD silence, which fills up a short last frame.
const SILENCE: u8 = 0x69;

/// An open .dff and what the walk found in it.
pub struct Opened {
    pub file: Watched,
    pub walk: Walk,
}

/// Opens and walks a file. What is wrong with its content stands in the walk.
pub fn look(path: &Path) -> Result<Opened, Fault> {
    Opened::new(watch(path)?)
}

/// Opens a regular file by its path, to be read while it is watched.
pub fn watch(path: &Path) -> Result<Watched, Fault> {
    // Of a pipe, not to wait for one who writes to it.
    let flags = OFlags::NONBLOCK.bits() as i32;
    let file = OpenOptions::new().read(true).custom_flags(flags).open(path);
    Watched::new(file.map_err(|error| Fault::Source(format!("{}: {error}", path.display())))?, path)
}

/// The sound of an open file. With `pad`, a short last frame of plain sound is filled up with silence. With `crc`, the
/// plain content of DST frames must be at hand.
pub fn open(file: Watched, plain: Option<Watched>, pad: bool, crc: bool) -> Result<Box<dyn Sound>, Fault> {
    let short = if pad { ShortFrame::Fill } else { ShortFrame::Refuse };
    let source = Opened::new(file)?.sound(plain, short)?;
    if crc && let Some(frame) = source.without_content(0..source.frames())? {
        let path = source.file().path().display();
        let words = format!("{path}: frame {frame} is compressed, so that its CRC can't be worked out of it");
        return Err(Fault::Source(format!("{words}\n  remedy: `plain` names a file with the plain content")));
    }
    Ok(Box::new(source))
}

impl Opened {
    fn new(file: Watched) -> Result<Opened, Fault> {
        let walk = walk::walk(file.file());
        let walk = walk.map_err(|error| Fault::Source(format!("{}: {error}", file.path().display())))?;
        Ok(Opened { file, walk })
    }

    /// The sound of a file without a fault. `plain` has the plain content of all its frames, for CRCs of DST.
    pub fn sound(self, plain: Option<Watched>, short: ShortFrame) -> Result<DffSource, Fault> {
        let name = self.file.path().display();
        if let Some(fault) = self.walk.faults.first() {
            return Err(Fault::File(format!("{name}: {fault}")));
        }
        let (Some(sound), Some(channels), Some(rate)) = (&self.walk.sound, &self.walk.channels, &self.walk.rate) else {
            return Err(Fault::File(format!("{name}: no sound")));
        };
        if rate.value != RATE {
            let words = format!("{} samples a second; files of {RATE} can be made", rate.value);
            return Err(Fault::File(format!("{name}: at {}: {words}", rate.place)));
        }
        let (kind, bytes) = (sound.kind, self.walk.frame_bytes());
        let last = if kind == SoundKind::Dsd { sound.size % bytes } else { 0 };
        let mut frames = sound.frame_count(bytes);
        if last > 0 && short == ShortFrame::LeaveOut {
            frames -= 1;
        }
        let frames = u32::try_from(frames).map_err(|_| Fault::File(format!("{name}: more frames than 2^32 - 1")))?;
        let channels = u32::try_from(channels.value.len()).unwrap_or(u32::MAX);
        let frame_bytes = usize::try_from(bytes).map_err(|_| Fault::File(format!("{name}: too many channels")))?;
        Ok(DffSource {
            opened: self,
            kind,
            channels,
            frames,
            frame_bytes,
            short: (last, short),
            plain,
            gather: Mutex::default(),
            wrong_crc: OnceLock::new(),
        })
    }
}

/// What is done about a last frame of plain sound that is short.
#[derive(Clone, Copy, Debug, PartialEq)]
pub enum ShortFrame {
    /// It is a fault.
    Refuse,
    /// It is filled up with silence.
    Fill,
    /// It doesn't count.
    LeaveOut,
}

/// The frames of a .dff, as a source of a build.
pub struct DffSource {
    opened: Opened,
    kind: SoundKind,
    channels: u32,
    frames: u32,
    frame_bytes: usize,
    /// The bytes of a short last frame, and what is done about it.
    short: (u64, ShortFrame),
    /// Plain content of all frames of a DST file, joined.
    plain: Option<Watched>,
    /// Bytes of several DSTF, from which the frames are taken.
    gather: Mutex<Vec<u8>>,
    /// A frame whose CRC in the file is not its own content's.
    wrong_crc: OnceLock<String>,
}

/// One read takes no more than this, unless a frame is longer.
const MOST_AT_ONCE: u64 = 1 << 23;

impl DffSource {
    pub fn walk(&self) -> &Walk {
        &self.opened.walk
    }

    /// The file itself, for what stands in it beside the sound.
    pub fn file(&self) -> &Watched {
        &self.opened.file
    }

    /// The bytes of the last frame, if it is short.
    pub fn short_frame(&self) -> Option<u64> {
        Some(self.short.0).filter(|&bytes| bytes > 0)
    }

    /// The first of these DST frames whose plain content is not at hand: neither in a file nor in the frame itself.
    pub fn without_content(&self, frames: Range<u32>) -> Result<Option<u32>, Fault> {
        if self.plain.is_some() {
            return Ok(None);
        }
        for (number, frame) in (frames.start..).zip(self.coded_frames(&frames)) {
            let mut first = [0];
            if frame.length > 0 {
                let read = self.file().read(frame.place, &mut first);
                read.map_err(|error| Fault::Source(error.to_string()))?;
            }
            if !is_plain(first[0], frame.length, self.frame_bytes) {
                return Ok(Some(number));
            }
        }
        Ok(None)
    }

    /// What a read has found: a frame that holds its own content, but another's CRC.
    pub fn wrong_crc(&self) -> Option<&str> {
        self.wrong_crc.get().map(String::as_str)
    }

    fn coded_frames(&self, frames: &Range<u32>) -> &[Frame] {
        let all = self.walk().sound.as_ref().map_or(&[][..], |sound| &sound.frames);
        let place = |frame: u32| usize::try_from(frame).unwrap_or(usize::MAX).min(all.len());
        all.get(place(frames.start)..place(frames.end)).unwrap_or(&[])
    }

    fn fetch_plain(&self, frames: Range<u32>, plain: &mut [u8]) -> io::Result<()> {
        let sound = self.walk().sound.as_ref().ok_or(io::ErrorKind::InvalidInput)?;
        let from = (self.frame_bytes as u64).checked_mul(frames.start.into()).ok_or(io::ErrorKind::InvalidInput)?;
        let left = sound.size.checked_sub(from).ok_or(io::ErrorKind::UnexpectedEof)?;
        let there = usize::try_from(left).map_or(plain.len(), |left| left.min(plain.len()));
        if plain.len() - there >= self.frame_bytes {
            return Err(io::ErrorKind::UnexpectedEof.into());
        }
        let (stored, short) = plain.split_at_mut(there);
        short.fill(SILENCE);
        self.file().read(sound.place + 12 + from, stored)
    }

    /// The bytes of DST frames, joined: several by one read.
    fn fetch_coded(&self, mut frames: &[Frame], mut coded: &mut [u8]) -> io::Result<()> {
        let mut gather = self.gather.lock().unwrap_or_else(PoisonError::into_inner);
        while let Some(first) = frames.first() {
            let span = |frame: &Frame| frame.place.saturating_add(frame.length) - first.place;
            let near = 1 + frames.iter().skip(1).take_while(|frame| span(frame) <= MOST_AT_ONCE).count();
            let (group, rest) = frames.split_at(near);
            let bytes = usize::try_from(group.last().map_or(0, span)).map_err(|_| io::ErrorKind::OutOfMemory)?;
            let more = bytes.saturating_sub(gather.len());
            gather.try_reserve(more).map_err(|_| io::ErrorKind::OutOfMemory)?;
            if more > 0 {
                gather.resize(bytes, 0);
            }
            let held = gather.get_mut(..bytes).ok_or(io::ErrorKind::InvalidInput)?;
            self.file().read(first.place, held)?;
            for frame in group {
                let (at, length) = ((frame.place - first.place) as usize, frame.length as usize);
                let (to, later) = coded.split_at_mut_checked(length).ok_or(io::ErrorKind::InvalidInput)?;
                to.copy_from_slice(held.get(at..at + length).ok_or(io::ErrorKind::InvalidInput)?);
                coded = later;
            }
            frames = rest;
        }
        if coded.is_empty() { Ok(()) } else { Err(io::ErrorKind::InvalidInput.into()) }
    }

    /// The plain content of DST frames whose bytes are `coded`, held against the file's CRCs.
    fn fetch_content(&self, frames: Range<u32>, mut coded: &[u8], plain: &mut [u8]) -> io::Result<()> {
        if let Some(file) = &self.plain {
            let from = (self.frame_bytes as u64).checked_mul(frames.start.into());
            file.read(from.ok_or(io::ErrorKind::InvalidInput)?, plain)?;
        }
        let crcs = self.walk().sound.as_ref().map_or(&[][..], |sound| &sound.crcs);
        let parts = plain.chunks_exact_mut(self.frame_bytes);
        for ((number, frame), part) in (frames.start..).zip(self.coded_frames(&frames)).zip(parts) {
            let bytes;
            (bytes, coded) = coded.split_at_checked(frame.length as usize).ok_or(io::ErrorKind::InvalidInput)?;
            let own = bytes.split_first().filter(|(first, _)| is_plain(**first, frame.length, self.frame_bytes));
            match (&self.plain, own) {
                (None, Some((_, own))) => part.copy_from_slice(own),
                (None, None) => return Err(self.wrong(&format!("frame {number} has no plain content"))),
                (Some(plain), Some((_, own))) if *own != *part => return Err(self.wrong(&not_its_own(number, plain))),
                (Some(_), _) => {}
            }
            let Some(stored) = crcs.get(number as usize).filter(|crc| crc.frame == Some(number)) else { continue };
            let found = jangqeruz::crc(part);
            if found != stored.value {
                let (place, value) = (stored.place, stored.value);
                let stored = format!("at {place}: the CRC of frame {number} is {value:08x}");
                let words = match &self.plain {
                    Some(plain) => format!("{stored}, its content in {} has {found:08x}", plain.path().display()),
                    None => format!("{stored}, its content has {found:08x}"),
                };
                if self.plain.is_none() {
                    self.wrong_crc.get_or_init(|| words.clone());
                }
                return Err(self.wrong(&words));
            }
        }
        Ok(())
    }

    /// An error that names the file.
    fn wrong(&self, words: &str) -> io::Error {
        io::Error::new(io::ErrorKind::InvalidData, format!("{}: {words}", self.file().path().display()))
    }
}

/// What is wrong where a frame that isn't compressed has other content than the file beside has for it.
pub fn not_its_own(number: u32, plain: &Watched) -> String {
    let path = plain.path().display();
    format!("frame {number} is not compressed, and its content is not that in {path}")
}

/// Whether a DST frame is one that isn't compressed: its first bit is 0, and all its content follows the first byte.
pub fn is_plain(first: u8, length: u64, frame_bytes: usize) -> bool {
    first & 0x80 == 0 && length == frame_bytes as u64 + 1
}

impl Sound for DffSource {
    fn kind(&self) -> Kind {
        match self.kind {
            SoundKind::Dsd => Kind::Dsd,
            SoundKind::Dst => Kind::Dst,
        }
    }

    fn channels(&self) -> u32 {
        self.channels
    }

    fn frames(&self) -> u32 {
        self.frames
    }

    /// A length that no u32 holds is refused as any that is too large.
    fn lengths(&self, range: Range<u32>) -> Vec<u32> {
        self.coded_frames(&range).iter().map(|frame| u32::try_from(frame.length).unwrap_or(u32::MAX)).collect()
    }

    fn layout(&self) -> Result<Option<Numbered>, Fault> {
        let Some(channels) = &self.walk().channels else { return Ok(None) };
        let found = layout_of(&channels.value);
        let path = self.file().path().display();
        found
            .map(Some)
            .ok_or_else(|| Fault::File(format!("{path}: at {}: {}", channels.place, no_layout(&channels.value))))
    }

    fn whole(&self) -> Result<(), Fault> {
        let (last, short) = self.short;
        if last > 0 && short == ShortFrame::Refuse {
            let (path, frame) = (self.file().path().display(), self.frame_bytes);
            let words = format!("{path}: its last frame has {last} of {frame} bytes");
            return Err(Fault::Source(format!("{words}\n  remedy: `pad = true` fills it up with silence")));
        }
        let Some(plain) = &self.plain else {
            return Ok(());
        };
        let (size, wanted) = (plain.size(), (self.frame_bytes as u64).saturating_mul(self.frames.into()));
        if size != wanted {
            let (path, frames) = (plain.path().display(), counted(self.frames));
            return Err(Fault::Source(format!("{path}: has {size} bytes; {wanted} are wanted for {frames}")));
        }
        Ok(())
    }

    fn still_the_same(&self) -> Result<(), Fault> {
        self.file().still_the_same()?;
        self.plain.as_ref().map_or(Ok(()), Watched::still_the_same)
    }
}

impl Source for DffSource {
    fn fetch(&self, frames: Range<u32>, coded: &mut [u8], plain: &mut [u8]) -> io::Result<()> {
        let fetched = match self.kind {
            SoundKind::Dsd => self.fetch_plain(frames, plain),
            SoundKind::Dst => {
                self.fetch_coded(self.coded_frames(&frames), coded).and_then(|()| match plain.is_empty() {
                    true => Ok(()),
                    false => self.fetch_content(frames, coded, plain),
                })
            }
        };
        // Errors with words of their own name their file.
        fetched.map_err(|error| if error.get_ref().is_some() { error } else { self.wrong(&error.to_string()) })
    }
}
