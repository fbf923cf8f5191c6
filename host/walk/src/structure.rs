//! The chunks of a file as a tree, and the faults of its structure (49).
use crate::bytes::{Bytes, Window};
use crate::chunk::HEAD;
use crate::limits::more_than;
use crate::{Chunk, Crc, Frame, MOST_CHUNKS, MOST_FRAMES, Name, Rule, Sound, SoundKind, Walk};
use std::io;

pub(crate) fn walk<B: Bytes + ?Sized>(window: &mut Window<'_, B>, found: &mut Walk) -> io::Result<()> {
    let size = window.size();
    if size < HEAD + 4 {
        found.fault(Rule::Structure, 0, format!("a file of {size} bytes doesn't begin with FRM8 of form \"DSD \""));
        return Ok(());
    }
    let [n0, n1, n2, n3, length @ ..] = window.get::<12>(0)?;
    let form = Name(window.get(HEAD)?);
    let mut form_chunk =
        Chunk { name: Name([n0, n1, n2, n3]), place: 0, size: u64::from_be_bytes(length), fits: true, chunks: vec![] };
    if form_chunk.name.0 != *b"FRM8" || form.0 != *b"DSD " || form_chunk.size < 4 {
        found.fault(Rule::Structure, 0, "the file doesn't begin with FRM8 of form \"DSD \"".into());
        return Ok(());
    }
    let end = after(&form_chunk);
    form_chunk.fits = end.is_some_and(|end| end <= size);
    match end {
        Some(end) if end < size => {
            found.fault(Rule::Structure, end, format!("{} bytes after FRM8", size - end));
        }
        Some(end) if end == size => {}
        _ => {
            let words = format!("FRM8 of size {} runs past the file's end at {size}", form_chunk.size);
            found.fault(Rule::Structure, 0, words);
        }
    }
    let inner_end = form_chunk.data_end().min(size);
    let mut walker = Walker { window, found, kept: 0, full: false };
    walker.pad(&form_chunk)?;
    form_chunk.chunks = walker.top(HEAD + 4, inner_end)?;
    found.form = Some(form_chunk);
    Ok(())
}

/// Where the next chunk would begin: behind the data and its pad.
fn after(chunk: &Chunk) -> Option<u64> {
    chunk.place.checked_add(HEAD)?.checked_add(chunk.size)?.checked_add(chunk.size % 2)
}

struct Walker<'w, 'f, B: ?Sized> {
    window: &'w mut Window<'f, B>,
    found: &'w mut Walk,
    kept: usize,
    full: bool,
}

impl<B: Bytes + ?Sized> Walker<'_, '_, B> {
    /// The chunks of FRM8.
    fn top(&mut self, mut at: u64, end: u64) -> io::Result<Vec<Chunk>> {
        let (mut list, mut property, mut info): (Vec<Chunk>, bool, bool) = (vec![], false, false);
        while let Some(mut chunk) = self.next(at, end, "FRM8")? {
            let inner_end = chunk.data_end().min(end);
            match &chunk.name.0 {
                b"PROP" if chunk.size < 4 => {
                    self.found.fault(Rule::Structure, chunk.place, format!("PROP of size {}", chunk.size));
                }
                b"PROP" if !property => {
                    property = true;
                    chunk.chunks = self.list(chunk.data().saturating_add(4), inner_end, "PROP")?;
                }
                b"DIIN" if !info => {
                    info = true;
                    chunk.chunks = self.list(chunk.data(), inner_end, "DIIN")?;
                }
                b"DSD " | b"DST " if self.found.sound.is_none() => {
                    let kind = if chunk.name.0 == *b"DSD " { SoundKind::Dsd } else { SoundKind::Dst };
                    let mut sound = Sound {
                        kind,
                        place: chunk.place,
                        size: chunk.size,
                        fits: chunk.fits,
                        frame_rate: None,
                        frames: vec![],
                        crcs: vec![],
                        others: 0,
                    };
                    if kind == SoundKind::Dst {
                        chunk.chunks = self.frames(chunk.data(), inner_end, &mut sound)?;
                    }
                    self.found.sound = Some(sound);
                }
                _ => {}
            }
            let next = after(&chunk).filter(|_| chunk.fits);
            if !self.keep(&mut list, chunk) {
                break;
            }
            match next {
                Some(next) => at = next,
                None => break,
            }
        }
        Ok(list)
    }

    /// The chunks of PROP or DIIN.
    fn list(&mut self, mut at: u64, end: u64, parent: &str) -> io::Result<Vec<Chunk>> {
        let mut list = vec![];
        while let Some(chunk) = self.next(at, end, parent)? {
            let next = after(&chunk).filter(|_| chunk.fits);
            if !self.keep(&mut list, chunk) {
                break;
            }
            match next {
                Some(next) => at = next,
                None => break,
            }
        }
        Ok(list)
    }

    /// The chunks of DST: frames and CRCs go to the sound, the others are answered.
    fn frames(&mut self, mut at: u64, end: u64, sound: &mut Sound) -> io::Result<Vec<Chunk>> {
        let mut list = vec![];
        while let Some(chunk) = self.next(at, end, "DST ")? {
            let next = after(&chunk).filter(|_| chunk.fits);
            match &chunk.name.0 {
                b"DSTF" | b"DSTC" if !chunk.fits => {}
                b"DSTF" => {
                    if sound.frames.len() >= MOST_FRAMES {
                        self.limit(at, MOST_FRAMES, "DST frames");
                        break;
                    }
                    sound.frames.push(Frame { place: chunk.data(), length: chunk.size });
                }
                b"DSTC" if chunk.size < 4 => {
                    let words = format!("DSTC of size {} is shorter than its 4 bytes", chunk.size);
                    self.found.fault(Rule::Fields, at, words);
                }
                b"DSTC" => {
                    if sound.crcs.len() >= MOST_FRAMES {
                        self.limit(at, MOST_FRAMES, "CRCs");
                        break;
                    }
                    let frame = sound.frames.len().checked_sub(1).and_then(|frame| u32::try_from(frame).ok());
                    let value = u32::from_be_bytes(self.window.get(chunk.data())?);
                    sound.crcs.push(Crc { place: at, size: chunk.size, frame, value });
                }
                name => {
                    if *name != *b"FRTE" {
                        sound.others += 1;
                    }
                    if !self.keep(&mut list, chunk) {
                        break;
                    }
                }
            }
            match next {
                Some(next) => at = next,
                None => break,
            }
        }
        Ok(list)
    }

    /// The chunk at a place, none at the end or where there is no chunk.
    fn next(&mut self, at: u64, end: u64, parent: &str) -> io::Result<Option<Chunk>> {
        if at >= end || self.full {
            return Ok(None);
        }
        let left = end - at;
        if left < HEAD {
            self.found.fault(Rule::Structure, at, format!("a tail of {left} bytes in {parent} that is no chunk"));
            return Ok(None);
        }
        let [n0, n1, n2, n3, length @ ..] = self.window.get::<12>(at)?;
        let (name, size) = (Name([n0, n1, n2, n3]), u64::from_be_bytes(length));
        let mut chunk = Chunk { name, place: at, size, fits: true, chunks: vec![] };
        chunk.fits = after(&chunk).is_some_and(|next| next <= end);
        if chunk.fits {
            self.pad(&chunk)?;
        } else {
            let words = format!("chunk {name} of size {size} runs past {parent}, which ends at {end}");
            self.found.fault(Rule::Structure, at, words);
        }
        Ok(Some(chunk))
    }

    fn pad(&mut self, chunk: &Chunk) -> io::Result<()> {
        if chunk.fits && chunk.size % 2 == 1 {
            let [byte] = self.window.get(chunk.data_end())?;
            self.found.pads.met(chunk.data_end(), byte);
        }
        Ok(())
    }

    /// Puts a chunk into the list, and answers whether the walk goes on.
    fn keep(&mut self, list: &mut Vec<Chunk>, chunk: Chunk) -> bool {
        if self.full {
            list.push(chunk); // the limit was met inside it
            return false;
        }
        if self.kept >= MOST_CHUNKS {
            self.limit(chunk.place, MOST_CHUNKS, "chunks");
            return false;
        }
        self.kept += 1;
        list.push(chunk);
        true
    }

    fn limit(&mut self, place: u64, most: usize, what: &str) {
        self.full = true;
        self.found.fault(Rule::Limits, place, more_than(most, what));
    }
}
