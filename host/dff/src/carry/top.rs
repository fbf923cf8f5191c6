//! The chunks of the file: version, sound, index, the order of all, and chunks that are not known here.

use super::{Carrier, DROP_COMMENTS, DROP_CRCS};
use crate::Fault;
use crate::commands::show::{VERSION, count, version_words};
use crate::sources::chunks::{Data, Unread};
use jangqeruz::{IndexOffset, LocalChunk};
use walk::{Chunk, Leads, SoundKind};

/// The names that the format has at this place and that no caller's chunk may have (refusal 5).
const RESERVED: [&[u8; 4]; 3] = [b"FRM8", b"MANF", b"FVER"];

/// The largest caller's chunk, and the most of them (refusal 1).
const MOST_CHUNK_BYTES: u64 = 16_777_216;
const MOST_CHUNKS: usize = 255;

impl Carrier<'_> {
    /// FVER, the sound chunk's own fields, the CRCs and the index.
    pub(super) fn sound(&mut self) -> Result<(), Fault> {
        let walk = self.source.walk();
        if let Some(version) = &walk.version {
            self.exact("FVER", version.place, version.size, 4);
            if version.value != VERSION {
                let (from, to) = (version_words(version.value), version_words(VERSION));
                self.note(format!("version {from} becomes {to}"));
            }
        }
        let Some(sound) = &walk.sound else { return Ok(()) };
        if let Some(rate) = &sound.frame_rate {
            self.exact("FRTE", rate.place, rate.size, 6);
        }
        let inner = walk.form.iter().flat_map(|form| &form.chunks).find(|chunk| chunk.place == sound.place);
        for chunk in inner.iter().flat_map(|chunk| &chunk.chunks).skip(1) {
            self.fault(chunk.place, format_args!("chunk {} among the frames can't be carried over", chunk.name));
        }
        self.options.dst_crc = false;
        if sound.kind == SoundKind::Dst && !sound.crcs.is_empty() && !self.dropped.crcs {
            self.crcs()?;
        }
        self.index(sound.kind);
        Ok(())
    }

    fn crcs(&mut self) -> Result<(), Fault> {
        let Some(sound) = &self.source.walk().sound else { return Ok(()) };
        if let Some(crc) = sound.crcs.iter().find(|crc| crc.size != 4) {
            self.fault(crc.place, format!("DSTC has {} bytes, of which 4 can be carried over{DROP_CRCS}", crc.size));
        }
        let astray = (0u32..).zip(&sound.crcs).find(|(number, crc)| crc.frame != Some(*number));
        if let Some((number, crc)) = astray {
            let words =
                format!("the CRC number {number} is not that of frame {number}; there must be one a frame{DROP_CRCS}");
            self.fault(crc.place, words);
        } else if sound.crcs.len() != sound.frames.len() {
            let (crcs, frames) = (sound.crcs.len(), count(sound.frames.len() as u64, "frame", "frames"));
            self.fault(sound.place, format!("{crcs} CRCs of {frames}; there must be one a frame{DROP_CRCS}"));
        } else if let Some(frame) = self.source.without_content(self.span.clone())? {
            let words = format!("the CRC of frame {frame} can't be worked out without its plain content");
            self.fault(sound.place, format!("{words}\n  --plain FILE tells it, --drop-crc leaves all CRCs out"));
        }
        self.options.dst_crc = true;
        Ok(())
    }

    fn index(&mut self, kind: SoundKind) {
        let walk = self.source.walk();
        self.options.dst_index = walk.index.is_some();
        let (Some(index), Some(sound)) = (&walk.index, &walk.sound) else { return };
        if kind == SoundKind::Dsd {
            self.fault(index.place, "DSTI in a file of plain sound can't be carried over");
            return;
        }
        self.exact("DSTI", index.place, index.size, 12 * index.entries.len() as u64);
        let report = index.against(&sound.frames);
        if let Some(wrong) = report.first_wrong {
            let words =
                format!("entry {} of the index doesn't lead to its frame, or not as the others do", wrong.number);
            self.fault(wrong.place, words);
        } else if report.entries != report.frames {
            let frames = count(report.frames as u64, "frame", "frames");
            let words = format!("the index has {} entries for {frames}", report.entries);
            self.fault(index.place, words);
        }
        self.options.dst_index_offset = match report.leads {
            Leads::ToData => IndexOffset::FrameData,
            Leads::ToHeader | Leads::Astray => IndexOffset::ChunkHeader,
        };
    }

    /// The order of the chunks, and those that a caller gave.
    pub(super) fn top(&mut self) {
        let Some(form) = &self.source.walk().form else { return };
        if form.chunks.first().is_some_and(|chunk| chunk.name.0 != *b"FVER") {
            self.note("FVER is put first".into());
        }
        let mut order = vec![];
        let mut moved = false;
        for chunk in &form.chunks {
            let part = match &chunk.name.0 {
                b"FVER" => continue,
                b"PROP" => LocalChunk::Prop,
                b"DSD " | b"DST " => LocalChunk::Sound,
                b"DSTI" => LocalChunk::Dsti,
                b"DIIN" => LocalChunk::Diin,
                b"COMT" => LocalChunk::Comt,
                _ => {
                    self.caller(chunk);
                    continue;
                }
            };
            moved |= !self.chunks.is_empty();
            let comments = part == LocalChunk::Comt;
            if order.contains(&part) && comments && self.dropped.comments {
                self.note(format!("COMT at {}, which is a repeated one, is left out", chunk.place));
            } else if order.contains(&part) {
                let hint = if comments { DROP_COMMENTS } else { "" };
                self.fault(chunk.place, format_args!("{} is repeated, which can't be carried over{hint}", chunk.name));
            } else {
                order.push(part);
            }
        }
        if moved {
            self.note("chunks that are not known here are put behind the others".into());
        }
        self.options.local_order = order;
    }

    /// A chunk that is not known here, as one of the caller's.
    fn caller(&mut self, chunk: &Chunk) {
        let name = chunk.name.0;
        let is_text = name.iter().all(|byte| (0x20..=0x7E).contains(byte));
        let spaced = name.windows(2).any(|pair| pair[0] == b' ' && pair[1] != b' ');
        if !is_text || spaced || RESERVED.contains(&&name) {
            self.fault(chunk.place, format_args!("a chunk named {:?} can't be carried over", chunk.name));
        } else if chunk.size > MOST_CHUNK_BYTES {
            self.fault(chunk.place, format_args!("chunk {} has more than {MOST_CHUNK_BYTES} bytes", chunk.name));
        } else if self.chunks.len() >= MOST_CHUNKS {
            self.fault(chunk.place, format_args!("chunk {} is one more than {MOST_CHUNKS}", chunk.name));
        } else {
            let data = Data::Part { file: self.source.file().clone(), place: chunk.data(), size: chunk.size };
            self.chunks.push(Unread { name, data });
        }
    }
}
