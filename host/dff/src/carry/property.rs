//! PROP: layout, start, speaker code, compression, and the order of its chunks.

use super::Carrier;
use super::layout::{layout_of, no_layout, speaker_code};
use crate::commands::show::quoted;
use crate::sources::dff::RATE;
use jangqeruz::{Layout, PropertyChunk};
use walk::SoundKind;

impl Carrier<'_> {
    pub(super) fn property(&mut self) {
        let walk = self.source.walk();
        if let Some(rate) = &walk.rate {
            self.exact("FS", rate.place, rate.size, 4);
        }
        let mut layout = Layout::Unspecified;
        if let Some(channels) = &walk.channels {
            self.exact("CHNL", channels.place, channels.size, 2 + 4 * channels.value.len() as u64);
            match layout_of(&channels.value) {
                Some((found, numbers)) => {
                    layout = found;
                    self.options.channel_numbers = numbers;
                }
                None => self.fault(channels.place, no_layout(&channels.value)),
            }
        }
        let has_code = walk.speakers.is_some();
        self.options.loudspeaker_configuration = has_code;
        self.options.unspecified_loudspeaker_configuration = has_code;
        if let Some(speakers) = &walk.speakers {
            self.exact("LSCO", speakers.place, speakers.size, 2);
            let wanted = speaker_code(layout);
            if speakers.value != wanted {
                let words = format!("LSCO is {}; channels of these names are written with {wanted}", speakers.value);
                self.fault(speakers.place, words);
            }
        }
        self.compression();
        self.start();
        self.property_order();
    }

    fn compression(&mut self) {
        let walk = self.source.walk();
        let (Some(compression), Some(sound)) = (&walk.compression, &walk.sound) else { return };
        let name = &compression.value.name;
        let (written, kind) = match sound.kind {
            SoundKind::Dsd => (&b"not compressed"[..], "DSD"),
            SoundKind::Dst => (&b"DST Encoded"[..], "DST"),
        };
        if name != written {
            self.note(format!("compression name {} of {kind} becomes {}", quoted(name), quoted(written)));
        }
        let plain = 5 + name.len() as u64;
        let counted = plain % 2 == 1 && compression.size == plain + 1;
        if counted {
            self.options.d1 = true;
        } else {
            self.exact("CMPR", compression.place, compression.size, plain);
        }
    }

    fn start(&mut self) {
        let Some(start) = &self.source.walk().start else { return };
        self.exact("ABSS", start.place, start.size, 8);
        let Some(frame) = start.value.frame(RATE) else {
            let words =
                format!("the start {} is no frame's time, and only such can be written", start.value.words(RATE));
            self.fault(start.place, words);
            return;
        };
        self.start = frame;
        match u32::try_from(frame + u64::from(self.span.start)) {
            Ok(moved) => self.options.absolute_start = Some(moved),
            Err(_) => {
                let words = format!("the start {} is past 24 hours", start.value.words(RATE));
                self.fault(start.place, words);
            }
        }
    }

    fn property_order(&mut self) {
        let Some(property) = self.source.walk().chunk(b"PROP") else { return };
        let mut order = vec![];
        for chunk in &property.chunks {
            let part = match &chunk.name.0 {
                b"FS  " => PropertyChunk::Fs,
                b"CHNL" => PropertyChunk::Chnl,
                b"CMPR" => PropertyChunk::Cmpr,
                b"ABSS" => PropertyChunk::Abss,
                b"LSCO" => PropertyChunk::Lsco,
                _ => {
                    self.fault(chunk.place, format_args!("chunk {} in PROP can't be carried over", chunk.name));
                    continue;
                }
            };
            if order.contains(&part) {
                self.fault(chunk.place, format_args!("{} is repeated, which can't be carried over", chunk.name));
            } else {
                order.push(part);
            }
        }
        for part in self.options.property_order {
            if !order.contains(&part) {
                order.push(part);
            }
        }
        if let Ok(order) = order.try_into() {
            self.options.property_order = order;
        }
    }
}
