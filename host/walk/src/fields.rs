//! The fields of the chunks, and what is wrong with them (51).
use crate::bytes::{Bytes, Window};
use crate::chunk::HEAD;
use crate::limits::more_than;
use crate::texts::Texts;
use crate::{Chunk, Compression, Field, FrameRate, Index, IndexEntry, MOST_FRAMES, Name, Rule, SoundKind, Time, Walk};
use std::io;

/// The rates that a file may have.
const RATES: [u32; 2] = [2_822_400, 5_644_800];

pub(crate) fn read<B: Bytes + ?Sized>(window: &mut Window<'_, B>, found: &mut Walk) -> io::Result<()> {
    let Some(form) = found.form.take() else { return Ok(()) };
    let read = Fields { window, found, texts: Texts::default() }.form(&form);
    found.form = Some(form);
    read
}

struct Fields<'w, 'f, B: ?Sized> {
    window: &'w mut Window<'f, B>,
    found: &'w mut Walk,
    texts: Texts,
}

impl<B: Bytes + ?Sized> Fields<'_, '_, B> {
    fn form(&mut self, form: &Chunk) -> io::Result<()> {
        if let Some(chunk) = whole(form, b"FVER") {
            let version = self.fixed::<4>(chunk)?.map(u32::from_be_bytes);
            self.found.version = version.map(|version| field(chunk, version));
            self.found.leftover(chunk, 4);
        }
        if let Some(property) = form.first(b"PROP").filter(|property| property.size >= 4) {
            self.property(property)?;
        }
        self.sound(form)?;
        if let Some(chunk) = whole(form, b"DSTI") {
            self.index(chunk)?;
        }
        if let Some(info) = form.first(b"DIIN") {
            self.info(info)?;
        }
        if let Some(chunk) = whole(form, b"COMT") {
            let comments = self.texts.comments(self.window, self.found, chunk)?;
            self.found.comments = comments.map(|comments| field(chunk, comments));
        }
        Ok(())
    }

    fn property(&mut self, property: &Chunk) -> io::Result<()> {
        if property.fits || !property.chunks.is_empty() {
            let kind = Name(self.window.get(property.data())?);
            if kind.0 != *b"SND " {
                self.fault(property, format!("PROP is of type \"{kind}\", not \"SND \""));
            }
            self.found.property = Some(field(property, kind));
        }
        if let Some(chunk) = whole(property, b"FS  ")
            && let Some(rate) = self.fixed::<4>(chunk)?.map(u32::from_be_bytes)
        {
            if !RATES.contains(&rate) {
                self.fault(chunk, format!("the rate is {rate}, not {} or {}", RATES[0], RATES[1]));
            }
            self.found.rate = Some(field(chunk, rate));
            self.found.leftover(chunk, 4);
        }
        if let Some(chunk) = whole(property, b"CHNL") {
            self.channels(chunk)?;
        }
        if let Some(chunk) = whole(property, b"CMPR") {
            self.compression(chunk)?;
        }
        if let Some(chunk) = whole(property, b"ABSS") {
            let time = self.fixed::<8>(chunk)?.map(Time::new);
            self.found.start = time.map(|time| field(chunk, time));
            self.found.leftover(chunk, 8);
        }
        if let Some(chunk) = whole(property, b"LSCO") {
            let code = self.fixed::<2>(chunk)?.map(u16::from_be_bytes);
            self.found.speakers = code.map(|code| field(chunk, code));
            self.found.leftover(chunk, 2);
        }
        Ok(())
    }

    fn channels(&mut self, chunk: &Chunk) -> io::Result<()> {
        let Some(count) = self.fixed::<2>(chunk)?.map(u16::from_be_bytes) else { return Ok(()) };
        if count == 0 {
            self.fault(chunk, "CHNL tells no channels".into());
        }
        if 2 + 4 * u64::from(count) > chunk.size {
            self.fault(chunk, format!("CHNL of size {} has no room for {count} channels", chunk.size));
            return Ok(());
        }
        let mut names = Vec::with_capacity(usize::from(count));
        for number in 0..u64::from(count) {
            names.push(Name(self.window.get(chunk.data() + 2 + 4 * number)?));
        }
        self.found.channels = Some(field(chunk, names));
        self.found.leftover(chunk, 2 + 4 * u64::from(count));
        Ok(())
    }

    fn compression(&mut self, chunk: &Chunk) -> io::Result<()> {
        let Some([k0, k1, k2, k3, count]) = self.fixed::<5>(chunk)? else { return Ok(()) };
        let kind = Name([k0, k1, k2, k3]);
        let sound = self.found.sound.as_ref().map(|sound| match sound.kind {
            SoundKind::Dsd => *b"DSD ",
            SoundKind::Dst => *b"DST ",
        });
        if let Some(sound) = sound
            && kind.0 != sound
        {
            self.fault(chunk, format!("the compression type is \"{kind}\", the sound chunk is \"{}\"", Name(sound)));
        }
        if 5 + u64::from(count) > chunk.size {
            self.fault(chunk, format!("CMPR of size {} has no room for a name of {count} bytes", chunk.size));
            return Ok(());
        }
        let mut name = vec![];
        self.window.append(chunk.data() + 5, u64::from(count), &mut name)?;
        if 5 + u64::from(count) + 1 == chunk.size && chunk.size.is_multiple_of(2) {
            let place = chunk.data() + 5 + u64::from(count);
            let [byte] = self.window.get(place)?;
            self.found.pads.met(place, byte);
        }
        self.found.compression = Some(field(chunk, Compression { kind, name }));
        self.found.leftover_padded(chunk, 5 + u64::from(count));
        Ok(())
    }

    fn sound(&mut self, form: &Chunk) -> io::Result<()> {
        let Some(mut sound) = self.found.sound.take() else { return Ok(()) };
        if sound.kind == SoundKind::Dst {
            let chunk = form.chunks.iter().find(|chunk| chunk.place == sound.place);
            let first = chunk.and_then(|chunk| chunk.chunks.first()).filter(|first| {
                first.name.0 == *b"FRTE" && first.place == sound.place.saturating_add(HEAD) && first.fits
            });
            match first {
                None => self.found.fault(Rule::Fields, sound.place, "DST doesn't begin with FRTE".into()),
                Some(first) => {
                    if let Some([f0, f1, f2, f3, r0, r1]) = self.fixed::<6>(first)? {
                        let frames = u32::from_be_bytes([f0, f1, f2, f3]);
                        let rate = u16::from_be_bytes([r0, r1]);
                        if u32::from(rate) != crate::FRAMES_PER_SECOND {
                            self.fault(first, format!("the frame rate is {rate}, not 75"));
                        }
                        if u64::from(frames) != sound.frames.len() as u64 {
                            let there = sound.frames.len();
                            self.fault(first, format!("FRTE tells {frames} frames, there are {there}"));
                        }
                        let (place, size) = (first.place, first.size);
                        sound.frame_rate = Some(FrameRate { place, size, frames, rate });
                        self.found.leftover(first, 6);
                    }
                }
            }
        }
        self.found.sound = Some(sound);
        Ok(())
    }

    fn index(&mut self, chunk: &Chunk) -> io::Result<()> {
        let mut index = Index { place: chunk.place, size: chunk.size, entries: vec![] };
        for number in 0..chunk.size / 12 {
            if index.entries.len() >= MOST_FRAMES {
                self.found.fault(Rule::Limits, chunk.place, more_than(MOST_FRAMES, "index entries"));
                break;
            }
            let [o0, o1, o2, o3, o4, o5, o6, o7, length @ ..] = self.window.get::<12>(chunk.data() + 12 * number)?;
            let offset = u64::from_be_bytes([o0, o1, o2, o3, o4, o5, o6, o7]);
            index.entries.push(IndexEntry { offset, length: u32::from_be_bytes(length) });
        }
        self.found.index = Some(index);
        self.found.leftover(chunk, chunk.size - chunk.size % 12);
        Ok(())
    }

    fn info(&mut self, info: &Chunk) -> io::Result<()> {
        if let Some(chunk) = whole(info, b"EMID") {
            let text = self.texts.take(self.window, self.found, chunk.place, chunk.data(), chunk.size)?;
            self.found.id = text.map(|text| field(chunk, text));
        }
        for chunk in info.chunks.iter().filter(|chunk| chunk.name.0 == *b"MARK" && chunk.fits) {
            if let Some(marker) = self.texts.marker(self.window, self.found, chunk)? {
                self.found.markers.push(field(chunk, marker));
            }
        }
        if let Some(chunk) = whole(info, b"DIAR") {
            let text = self.texts.counted(self.window, self.found, chunk, 0)?;
            self.found.artist = text.map(|text| field(chunk, text));
        }
        if let Some(chunk) = whole(info, b"DITI") {
            let text = self.texts.counted(self.window, self.found, chunk, 0)?;
            self.found.title = text.map(|text| field(chunk, text));
        }
        Ok(())
    }

    /// The fixed fields of a chunk; a fault and none if it is shorter.
    fn fixed<const N: usize>(&mut self, chunk: &Chunk) -> io::Result<Option<[u8; N]>> {
        if chunk.size < N as u64 {
            self.fault(chunk, format!("{} of size {} is shorter than its {N} bytes", chunk.name, chunk.size));
            return Ok(None);
        }
        self.window.get(chunk.data()).map(Some)
    }

    fn fault(&mut self, chunk: &Chunk, words: String) {
        self.found.fault(Rule::Fields, chunk.place, words);
    }
}

/// The first chunk of a name, if it fits.
fn whole<'c>(parent: &'c Chunk, name: &[u8; 4]) -> Option<&'c Chunk> {
    parent.first(name).filter(|chunk| chunk.fits)
}

fn field<T>(chunk: &Chunk, value: T) -> Field<T> {
    Field { place: chunk.place, size: chunk.size, value }
}
