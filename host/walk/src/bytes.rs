//! Reading at a place, through a window.
use std::fs::File;
use std::io;
use std::os::unix::fs::FileExt;

/// Bytes that can be read at any place: an open file, or bytes in memory.
pub trait Bytes {
    /// How many bytes there are.
    fn size(&self) -> io::Result<u64>;
    /// Fills `buf` with the bytes from `place` on; an error if there are fewer.
    fn read_at(&self, buf: &mut [u8], place: u64) -> io::Result<()>;
}

impl Bytes for File {
    fn size(&self) -> io::Result<u64> {
        Ok(self.metadata()?.len())
    }
    fn read_at(&self, buf: &mut [u8], place: u64) -> io::Result<()> {
        self.read_exact_at(buf, place)
    }
}

impl Bytes for [u8] {
    fn size(&self) -> io::Result<u64> {
        Ok(self.len() as u64)
    }
    fn read_at(&self, buf: &mut [u8], place: u64) -> io::Result<()> {
        let stretch = usize::try_from(place).ok().and_then(|from| Some(from..from.checked_add(buf.len())?));
        buf.copy_from_slice(stretch.and_then(|s| self.get(s)).ok_or(io::ErrorKind::UnexpectedEof)?);
        Ok(())
    }
}

const LARGE: u64 = 1 << 20;
const SMALL: u64 = 1 << 12;
/// A read that begins at most so far behind the last window goes on in large steps.
const NEAR: u64 = 1 << 17;

/// A window of the file, moved on as the walk asks.
pub(crate) struct Window<'a, B: ?Sized> {
    file: &'a B,
    size: u64,
    start: u64,
    held: Vec<u8>,
}

impl<'a, B: Bytes + ?Sized> Window<'a, B> {
    pub fn new(file: &'a B) -> io::Result<Self> {
        Ok(Window { file, size: file.size()?, start: 0, held: Vec::new() })
    }

    pub fn size(&self) -> u64 {
        self.size
    }

    /// The `N` bytes at `place`; an error if the file has fewer.
    pub fn get<const N: usize>(&mut self, place: u64) -> io::Result<[u8; N]> {
        if let Some(bytes) = self.in_window(place) {
            return Ok(bytes);
        }
        self.move_to(place, N as u64)?;
        self.in_window(place).ok_or_else(|| io::ErrorKind::UnexpectedEof.into())
    }

    /// Appends `count` bytes from `place` on. They are read in steps, so that a count beyond the file takes no memory.
    pub fn append(&mut self, place: u64, count: u64, to: &mut Vec<u8>) -> io::Result<()> {
        let end = place.checked_add(count).filter(|&end| end <= self.size).ok_or(io::ErrorKind::UnexpectedEof)?;
        let mut at = place;
        while at < end {
            let step = usize::try_from((end - at).min(LARGE)).map_err(|_| io::ErrorKind::OutOfMemory)?;
            let before = to.len();
            to.try_reserve(step).map_err(|_| io::ErrorKind::OutOfMemory)?;
            to.resize(before + step, 0);
            self.file.read_at(&mut to[before..], at)?;
            at += step as u64;
        }
        Ok(())
    }

    fn in_window<const N: usize>(&self, place: u64) -> Option<[u8; N]> {
        let from = usize::try_from(place.checked_sub(self.start)?).ok()?;
        self.held.get(from..from.checked_add(N)?)?.try_into().ok()
    }

    fn move_to(&mut self, place: u64, least: u64) -> io::Result<()> {
        let left = self.size.checked_sub(place).filter(|&left| left >= least).ok_or(io::ErrorKind::UnexpectedEof)?;
        let held_end = self.start.saturating_add(self.held.len() as u64);
        let near = place >= self.start && place.saturating_sub(held_end) <= NEAR && !self.held.is_empty();
        let step = left.min(if near { LARGE } else { SMALL }.max(least));
        self.held.clear();
        self.held.resize(usize::try_from(step).map_err(|_| io::ErrorKind::OutOfMemory)?, 0);
        self.start = place;
        let read = self.file.read_at(&mut self.held, place);
        if read.is_err() {
            self.held.clear();
        }
        read
    }
}
