//! Values of a file in words.

use std::fmt::Write;

/// Of a longer text only so many bytes are quoted.
const MOST_QUOTED: usize = 1_000;

/// A text in quotes, its bytes as characters of ISO 8859-1. What a terminal would take as an order is `\xNN`. Of a long
/// one only the start, and how long it is.
pub fn quoted(bytes: &[u8]) -> String {
    let start = bytes.get(..MOST_QUOTED).unwrap_or(bytes);
    let mut text = String::with_capacity(start.len() + 2);
    text.push('"');
    for &byte in start {
        match byte {
            b'"' | b'\\' => {
                text.push('\\');
                text.push(byte.into());
            }
            0x20..=0x7E | 0xA0..=0xFF => text.push(byte.into()),
            // Writing to a string doesn't fail.
            _ => drop(write!(text, "\\x{byte:02x}")),
        }
    }
    text.push('"');
    if start.len() < bytes.len() {
        let _ = write!(text, " (the first {MOST_QUOTED} of {} bytes)", bytes.len());
    }
    text
}

/// A text, its bytes as characters of ISO 8859-1.
pub fn latin(bytes: &[u8]) -> String {
    bytes.iter().map(|&byte| char::from(byte)).collect()
}

/// A count with its word.
pub fn count(number: u64, one: &str, many: &str) -> String {
    format!("{number} {}", if number == 1 { one } else { many })
}

/// The version of the format that is written, and that files are looked at as.
pub const VERSION: u32 = 0x0105_0000;

/// The four bytes of FVER.
pub fn version(version: u32) -> String {
    let [major, minor, second, third] = version.to_be_bytes();
    format!("{major}.{minor}.{second}.{third}")
}

pub fn marker_kind(kind: u16) -> String {
    match kind {
        0 => "track start".into(),
        1 => "track stop".into(),
        2 => "program start".into(),
        4 => "index".into(),
        _ => format!("kind {kind}"),
    }
}

pub fn comment_kind(kind: u16) -> String {
    match kind {
        0 => "general".into(),
        1 => "channel".into(),
        2 => "sound source".into(),
        3 => "file history".into(),
        _ => format!("kind {kind}"),
    }
}

pub fn speakers(code: u16) -> &'static str {
    match code {
        0 => "stereo",
        3 => "five channels",
        4 => "six channels",
        65_535 => "undefined",
        _ => "not known here",
    }
}
