//! What is shown: a tree that is printed as lines or as JSON, with the same content.

use super::tree;
use super::words::count;
use crate::times::Time;
use serde::Serialize;
use std::fmt;
use walk::{FRAMES_PER_SECOND, SoundKind, Walk};

#[derive(Debug, Serialize)]
pub struct Shown {
    pub file: String,
    pub size: u64,
    #[serde(skip_serializing_if = "Option::is_none")]
    pub kind: Option<&'static str>,
    #[serde(skip_serializing_if = "Option::is_none")]
    pub channels: Option<usize>,
    pub frames: u64,
    pub duration: String,
    pub chunks: Vec<Node>,
    #[serde(skip_serializing_if = "Option::is_none")]
    pub index: Option<IndexShown>,
    pub faults: Vec<FaultShown>,
}

/// A chunk.
#[derive(Debug, Serialize)]
pub struct Node {
    pub name: String,
    pub place: u64,
    pub size: u64,
    #[serde(skip_serializing_if = "std::ops::Not::not")]
    pub runs_past_parent: bool,
    /// How many bytes it has behind its fields.
    #[serde(skip_serializing_if = "Option::is_none")]
    pub leftover_bytes: Option<u64>,
    #[serde(skip_serializing_if = "serde_json::Value::is_null")]
    pub value: serde_json::Value,
    /// The value in words, and further lines below the chunks in it.
    #[serde(skip)]
    pub words: String,
    #[serde(skip)]
    pub lines: Vec<String>,
    #[serde(skip_serializing_if = "Vec::is_empty")]
    pub chunks: Vec<Node>,
}

#[derive(Debug, Serialize)]
pub struct IndexShown {
    pub entries: usize,
    pub frames: usize,
    pub offsets: &'static str,
    pub wrong: usize,
    #[serde(skip_serializing_if = "Option::is_none")]
    pub first_wrong: Option<WrongShown>,
}

#[derive(Debug, Serialize)]
pub struct WrongShown {
    pub entry: usize,
    pub place: u64,
    pub offset: u64,
    pub length: u32,
    /// What the entry should name.
    pub frame_place: Option<u64>,
    pub frame_length: Option<u64>,
}

#[derive(Debug, Serialize)]
pub struct FaultShown {
    pub place: u64,
    pub words: String,
}

impl Shown {
    pub fn new(file: &str, walk: &Walk) -> Shown {
        let frames = walk.frame_count();
        Shown {
            file: file.into(),
            size: walk.size,
            kind: walk.sound.as_ref().map(|sound| match sound.kind {
                SoundKind::Dsd => "DSD",
                SoundKind::Dst => "DST",
            }),
            channels: walk.channels.as_ref().map(|channels| channels.value.len()),
            frames,
            duration: duration(frames),
            chunks: walk.form.iter().map(|form| tree::node(walk, form, None)).collect(),
            index: tree::index(walk),
            faults: walk
                .faults
                .iter()
                .map(|fault| FaultShown { place: fault.place, words: fault.words.clone() })
                .collect(),
        }
    }
}

/// So many frames as hh:mm:ss:ff.
fn duration(frames: u64) -> String {
    let per_second = u64::from(FRAMES_PER_SECOND);
    match u32::try_from(frames) {
        Ok(frames) => Time(frames).to_string(),
        Err(_) => format!("{} hours", frames / per_second / 3600),
    }
}

impl fmt::Display for Shown {
    fn fmt(&self, f: &mut fmt::Formatter<'_>) -> fmt::Result {
        write!(f, "{}: {}", self.file, count(self.size, "byte", "bytes"))?;
        if let Some(kind) = self.kind {
            write!(f, ", {kind}")?;
        }
        if let Some(channels) = self.channels {
            write!(f, ", {}", count(channels as u64, "channel", "channels"))?;
        }
        if self.kind.is_some() {
            write!(f, ", {} ({})", count(self.frames, "frame", "frames"), self.duration)?;
        }
        writeln!(f)?;
        self.chunks.iter().try_for_each(|node| node.lines(f, 0))
    }
}

impl Node {
    fn lines(&self, f: &mut fmt::Formatter<'_>, depth: usize) -> fmt::Result {
        let indent = 2 * depth;
        write!(f, "{:indent$}{} at {}, {}", "", self.name, self.place, count(self.size, "byte", "bytes"))?;
        if self.runs_past_parent {
            write!(f, ", runs past its parent")?;
        }
        if !self.words.is_empty() {
            write!(f, ": {}", self.words)?;
        }
        if let Some(bytes) = self.leftover_bytes {
            write!(f, " ({} behind its fields)", count(bytes, "byte", "bytes"))?;
        }
        writeln!(f)?;
        self.chunks.iter().try_for_each(|node| node.lines(f, depth + 1))?;
        self.lines.iter().try_for_each(|line| writeln!(f, "{:indent$}  {line}", ""))
    }
}
