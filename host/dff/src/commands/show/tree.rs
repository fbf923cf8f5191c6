//! The tree of a walk, with the values of its chunks.

use super::comment;
use super::node::{IndexShown, Node, WrongShown};
use super::words::{VERSION, count, latin, marker_kind, quoted, speakers, version};
use crate::dates;
use serde_json::{Value, json};
use walk::{Chunk, Comment, Crc, Field, Leads, Marker, Sound, SoundKind, Text, Time, Walk};

/// What a chunk tells: for JSON, in words, and in further lines.
#[derive(Default)]
struct Told {
    value: Value,
    words: String,
    lines: Vec<String>,
}

impl Told {
    fn new(value: Value, words: String) -> Told {
        Told { value, words, lines: vec![] }
    }
}

/// A chunk under its parent (none for FRM8), with those in it.
pub fn node(walk: &Walk, chunk: &Chunk, parent: Option<&[u8; 4]>) -> Node {
    let Told { value, words, lines } = told(walk, chunk, parent).unwrap_or_default();
    Node {
        name: chunk.name.to_string(),
        place: chunk.place,
        size: chunk.size,
        runs_past_parent: !chunk.fits,
        leftover_bytes: leftover(walk, chunk),
        value,
        words,
        lines,
        chunks: chunk.chunks.iter().map(|inner| node(walk, inner, Some(&chunk.name.0))).collect(),
    }
}

/// How many bytes a chunk has behind its fields.
fn leftover(walk: &Walk, chunk: &Chunk) -> Option<u64> {
    let found = walk.leftovers.binary_search_by_key(&chunk.place, |leftover| leftover.place).ok()?;
    walk.leftovers.get(found).map(|leftover| leftover.size - leftover.fields)
}

/// The value of a chunk; none of one that is not known under its parent, or is passed over since it is repeated.
fn told(walk: &Walk, chunk: &Chunk, parent: Option<&[u8; 4]>) -> Option<Told> {
    match (parent, &chunk.name.0) {
        (None, _) => Some(Told::new(json!({ "form": "DSD " }), "form \"DSD \"".into())),
        (Some(b"FRM8"), b"FVER") => {
            let found = *of(&walk.version, chunk)?;
            let words = match found {
                VERSION => String::new(),
                _ => format!(" (not {}, as which the file is shown)", version(VERSION)),
            };
            let found = version(found);
            Some(Told::new(json!({ "version": found }), format!("version {found}{words}")))
        }
        (Some(b"FRM8"), b"PROP") => {
            let kind = of(&walk.property, chunk)?.to_string();
            let words = format!("type \"{kind}\"");
            Some(Told::new(json!({ "type": kind }), words))
        }
        (Some(b"FRM8"), b"DSD " | b"DST ") => {
            walk.sound.as_ref().filter(|sound| sound.place == chunk.place).map(|sound| sound_told(walk, sound))
        }
        (Some(b"FRM8"), b"DSTI") => {
            walk.index.as_ref().filter(|index| index.place == chunk.place).and_then(|_| index_told(walk))
        }
        (Some(b"FRM8"), b"DIIN") => {
            let markers = walk.markers.len() as u64;
            let read = walk.chunk(b"DIIN").is_some_and(|info| info.place == chunk.place);
            (read && markers > 0).then(|| Told::new(json!({ "markers": markers }), count(markers, "marker", "markers")))
        }
        (Some(b"FRM8"), b"COMT") => of(&walk.comments, chunk).map(|comments| comments_told(comments)),
        (Some(b"PROP"), name) => property(walk, chunk, name),
        (Some(b"DIIN"), name) => info(walk, chunk, name),
        (Some(b"DST "), b"FRTE") => {
            let rate = walk.sound.as_ref()?.frame_rate.filter(|rate| rate.place == chunk.place)?;
            let words = format!("{}, {} a second", count(rate.frames.into(), "frame", "frames"), rate.rate);
            Some(Told::new(json!({ "frames": rate.frames, "rate": rate.rate }), words))
        }
        _ => None,
    }
}

/// The value of a field, if it is this chunk's.
fn of<'w, T>(field: &'w Option<Field<T>>, chunk: &Chunk) -> Option<&'w T> {
    field.as_ref().filter(|field| field.place == chunk.place).map(|field| &field.value)
}

fn property(walk: &Walk, chunk: &Chunk, name: &[u8; 4]) -> Option<Told> {
    Some(match name {
        b"FS  " => {
            let rate = *of(&walk.rate, chunk)?;
            Told::new(json!({ "rate": rate }), format!("{rate} samples a second"))
        }
        b"CHNL" => {
            let names: Vec<String> = of(&walk.channels, chunk)?.iter().map(ToString::to_string).collect();
            let words = format!("{}: {}", count(names.len() as u64, "channel", "channels"), names.join(" "));
            Told::new(json!({ "channels": names }), words)
        }
        b"CMPR" => {
            let compression = of(&walk.compression, chunk)?;
            let kind = compression.kind.to_string();
            let words = format!("\"{kind}\", {}", quoted(&compression.name));
            Told::new(json!({ "type": kind, "name": latin(&compression.name) }), words)
        }
        b"ABSS" => {
            let time = of(&walk.start, chunk)?;
            Told::new(time_json(walk, time), time_words(walk, time))
        }
        b"LSCO" => {
            let code = *of(&walk.speakers, chunk)?;
            Told::new(json!({ "code": code }), format!("{code} ({})", speakers(code)))
        }
        _ => return None,
    })
}

fn info(walk: &Walk, chunk: &Chunk, name: &[u8; 4]) -> Option<Told> {
    match name {
        b"EMID" => of(&walk.id, chunk).map(text_told),
        b"DIAR" => of(&walk.artist, chunk).map(text_told),
        b"DITI" => of(&walk.title, chunk).map(text_told),
        b"MARK" => {
            let found = walk.markers.binary_search_by_key(&chunk.place, |marker| marker.place).ok()?;
            walk.markers.get(found).map(|marker| marker_told(walk, &marker.value))
        }
        _ => None,
    }
}

fn text_told(text: &Text) -> Told {
    Told::new(json!({ "text": latin(&text.bytes) }), quoted(&text.bytes))
}

fn rate(walk: &Walk) -> u32 {
    walk.rate.as_ref().map_or(2_822_400, |rate| rate.value)
}

fn time_words(walk: &Walk, time: &Time) -> String {
    time.words(rate(walk)).to_string()
}

fn time_json(walk: &Walk, time: &Time) -> Value {
    json!({
        "time": time_words(walk, time),
        "frame": time.frame(rate(walk)),
        "hours": time.hours,
        "minutes": time.minutes,
        "seconds": time.seconds,
        "samples": time.samples,
    })
}

fn marker_told(walk: &Walk, marker: &Marker) -> Told {
    let mut words = format!("{} {}", time_words(walk, &marker.time), marker_kind(marker.kind));
    if marker.offset != 0 {
        words += &format!(", offset {} samples", marker.offset);
    }
    if marker.channel != 0 {
        words += &format!(", channel {}", marker.channel);
    }
    if marker.flags != 0 {
        words += &format!(", flags {:#06x}", marker.flags);
    }
    if !marker.text.bytes.is_empty() {
        words += &format!(", {}", quoted(&marker.text.bytes));
    }
    let value = json!({
        "time": time_json(walk, &marker.time),
        "offset": marker.offset,
        "kind": marker.kind,
        "kind_name": marker_kind(marker.kind),
        "channel": marker.channel,
        "flags": marker.flags,
        "text": latin(&marker.text.bytes),
    });
    Told::new(value, words)
}

fn comments_told(comments: &[Comment]) -> Told {
    let value: Vec<Value> = comments.iter().map(comment::json).collect();
    let lines = comments.iter().map(|comment| {
        let (place, date) = (comment.place, dates::words(dates::of(comment)));
        format!("at {place}: {date}, {}", comment::words(comment))
    });
    Told {
        value: json!({ "comments": value }),
        words: count(comments.len() as u64, "comment", "comments"),
        lines: lines.collect(),
    }
}

fn sound_told(walk: &Walk, sound: &Sound) -> Told {
    match sound.kind {
        SoundKind::Dsd => plain_told(walk, sound),
        SoundKind::Dst => coded_told(sound),
    }
}

fn plain_told(walk: &Walk, sound: &Sound) -> Told {
    let bytes = walk.frame_bytes();
    let frames = sound.frame_count(bytes);
    let rest = if bytes == 0 { 0 } else { sound.size % bytes };
    let mut words = format!("{} of {bytes} bytes", count(frames, "frame", "frames"));
    if rest > 0 {
        words += &format!(", the last has {rest} only");
    }
    let last = if rest > 0 { rest } else { bytes };
    Told::new(json!({ "frames": frames, "frame_bytes": bytes, "last_frame_bytes": last }), words)
}

fn coded_told(sound: &Sound) -> Told {
    let frames = sound.frames.len() as u64;
    let numbered = || sound.frames.iter().enumerate().map(|(number, frame)| (frame.length, number, frame.place));
    let shortest = numbered().min_by_key(|&(length, number, _)| (length, number));
    let longest = numbered().max_by_key(|&(length, number, _)| (length, usize::MAX - number));
    let total = sound.frames.iter().fold(0u64, |sum, frame| sum.saturating_add(frame.length));
    let longer = sound.crcs.iter().filter_map(Crc::leftover).count();
    let mut words = count(frames, "frame", "frames");
    let mut lines = vec![];
    if let (Some((short, s, _)), Some((long, l, _))) = (shortest, longest) {
        lines.push(format!("DSTF: {words}, {total} bytes, shortest {short} (frame {s}), longest {long} (frame {l})"));
    }
    match sound.crcs.len() as u64 {
        0 => words += ", no CRCs",
        crcs => {
            words += &format!(", {}", count(crcs, "CRC", "CRCs"));
            let longer = match longer {
                0 => String::new(),
                _ => format!(" ({longer} of them with bytes behind their fields)"),
            };
            lines.push(format!("DSTC: {}{longer}", count(crcs, "CRC", "CRCs")));
        }
    }
    if sound.others > 0 {
        words += &format!(", {}", count(sound.others, "other chunk", "other chunks"));
    }
    let one = |found: Option<(u64, usize, u64)>| {
        found.map(|(length, frame, place)| json!({ "frame": frame, "length": length, "place": place }))
    };
    let value = json!({
        "frames": frames,
        "frame_bytes": total,
        "shortest": one(shortest),
        "longest": one(longest),
        "crcs": sound.crcs.len(),
        "crcs_with_leftover_bytes": longer,
        "other_chunks": sound.others,
    });
    Told { value, words, lines }
}

/// The index against the frames.
pub fn index(walk: &Walk) -> Option<IndexShown> {
    let frames = walk.sound.as_ref().map_or(&[][..], |sound| &sound.frames);
    let report = walk.index.as_ref()?.against(frames);
    Some(IndexShown {
        entries: report.entries,
        frames: report.frames,
        offsets: match report.leads {
            Leads::ToHeader => "chunk-header",
            Leads::ToData => "frame-data",
            Leads::Astray => "neither",
        },
        wrong: report.wrong,
        first_wrong: report.first_wrong.map(|wrong| WrongShown {
            entry: wrong.number,
            place: wrong.place,
            offset: wrong.entry.offset,
            length: wrong.entry.length,
            frame_place: wrong.frame.map(|frame| report.place_of(&frame)),
            frame_length: wrong.frame.map(|frame| frame.length),
        }),
    })
}

fn index_told(walk: &Walk) -> Option<Told> {
    let index = index(walk)?;
    let mut words = count(index.entries as u64, "entry", "entries");
    match &index.first_wrong {
        None if index.entries == index.frames => {
            words += &format!(", each leads to its frame ({})", index.offsets);
        }
        None => {
            let frames = count(index.frames as u64, "frame", "frames");
            words += &format!(", each leads to its frame ({}), of {frames}", index.offsets);
        }
        Some(wrong) => {
            words += &format!(
                ", {} wrong; the first is {}, at {}: offset {}",
                index.wrong, wrong.entry, wrong.place, wrong.offset
            );
            words += &format!(", length {}", wrong.length);
            words += &match (wrong.frame_place, wrong.frame_length) {
                (Some(place), Some(length)) => format!("; it should be {place}, length {length}"),
                _ => ", there is no such frame".into(),
            };
        }
    }
    let value = json!({ "entries": index.entries, "wrong": index.wrong, "offsets": index.offsets });
    Some(Told::new(value, words))
}
