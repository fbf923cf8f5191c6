//! Files made through the crate `jangqeruz`, with options drawn from a fixed seed, and a folder to put them in.
#![allow(dead_code)] // each test uses a part of it

#[path = "../common/mod.rs"]
pub mod common;
pub mod draw;
pub mod edit;

use common::{Folder, Ran};
use jangqeruz::{Area, File, Kind, Options, Source};
use std::ffi::OsString;
use std::io;
use std::ops::Range;
use std::path::{Path, PathBuf};

pub use common::Draw;

impl Draw {
    /// A number under `end`.
    pub fn under(&mut self, end: u64) -> u64 {
        self.next() % end
    }

    pub fn range(&mut self, range: Range<u32>) -> u32 {
        range.start + self.under(u64::from(range.end - range.start)) as u32
    }

    pub fn chance(&mut self, percent: u64) -> bool {
        self.under(100) < percent
    }

    pub fn pick<T: Clone>(&mut self, of: &[T]) -> T {
        of[self.under(of.len() as u64) as usize].clone()
    }

    pub fn shuffle<T>(&mut self, list: &mut [T]) {
        for i in (1..list.len()).rev() {
            list.swap(i, self.under(i as u64 + 1) as usize);
        }
    }
}

/// The frames of an area.
#[derive(Clone, Default)]
pub struct Frames {
    pub coded: Vec<Vec<u8>>,
    pub plain: Vec<Vec<u8>>,
}

impl Source for Frames {
    fn fetch(&self, frames: Range<u32>, coded: &mut [u8], plain: &mut [u8]) -> io::Result<()> {
        let range = frames.start as usize..frames.end as usize;
        if !coded.is_empty() {
            coded.copy_from_slice(&self.coded[range.clone()].concat());
        }
        if !plain.is_empty() {
            plain.copy_from_slice(&self.plain[range].concat());
        }
        Ok(())
    }
}

/// A file with all that it was made of.
#[derive(Clone)]
pub struct Made {
    pub area: Area,
    pub options: Options,
    pub frames: Frames,
    pub bytes: Vec<u8>,
}

impl Made {
    /// None if the library refuses it.
    pub fn new(area: Area, options: Options, frames: Frames) -> Option<Made> {
        let range = area.first as usize..area.end as usize;
        let lengths: Vec<u32> = match area.kind {
            Kind::Dsd => vec![],
            Kind::Dst => frames.coded.get(range)?.iter().map(|frame| frame.len() as u32).collect(),
        };
        let file = File::build(&area, &options, &lengths, frames).ok()?;
        let mut bytes = vec![0; file.len() as usize];
        assert_eq!(file.read_at(0, &mut bytes).unwrap(), bytes.len());
        Some(Made { area, options, frames: file.source().clone(), bytes })
    }

    pub fn range(&self) -> Range<usize> {
        self.area.first as usize..self.area.end as usize
    }

    /// The plain content of the file's frames, joined.
    pub fn plain(&self) -> Vec<u8> {
        self.frames.plain[self.range()].concat()
    }
}

/// A folder of a test's own, empty at its start.
pub fn folder(name: &str) -> PathBuf {
    Folder::new(name).0
}

/// `dff COMMAND PATH ARGS`.
pub fn dff_on(command: &str, path: &Path, args: &[&str]) -> Ran {
    let mut all: Vec<OsString> = vec![command.into(), path.into()];
    all.extend(args.iter().map(OsString::from));
    common::dff(&all)
}

/// Files that were just written are waited for when they are opened; this waits once for many.
pub fn settle() {
    std::thread::sleep(std::time::Duration::from_millis(25));
}
