//! Texts: their characters, and whether the pad of an odd one is counted in its chunk's size.

use super::Carrier;
use crate::commands::show::quoted;
use walk::Text;

/// Where a chunk counts the pad of its odd text, and where one doesn't.
#[derive(Default)]
pub(super) struct Pads {
    pub counted: Option<u64>,
    pub left_out: Option<u64>,
}

impl Carrier<'_> {
    /// The chunk of a text after `head` bytes of other fields: its size must be that of both, the pad counted or not.
    /// `hint` is what to do where it isn't.
    pub(super) fn counted(&mut self, name: &str, chunk: (u64, u64), head: u64, text: &Text, hint: &str) {
        let (place, size) = chunk;
        let plain = head + 4 + text.bytes.len() as u64;
        if text.bytes.len().is_multiple_of(2) {
            self.exact_or(name, place, size, plain, hint);
        } else if size == plain + 1 {
            self.pads.counted.get_or_insert(place);
        } else {
            self.exact_or(name, place, size, plain, hint);
            self.pads.left_out.get_or_insert(place);
        }
    }

    /// Looks at the bytes of a text: those of ISO 8859-1 ask for D2, controls can't be written; `hint` is what to do.
    pub(super) fn bytes(&mut self, what: &str, text: &Text, hint: &str) {
        for &byte in &text.bytes {
            match byte {
                0x20..=0x7E => {}
                0xA0..=0xFF => self.options.d2 = true,
                _ => {
                    let words = format!("byte {byte:#04x} in {what} {} can't be carried over", quoted(&text.bytes));
                    self.fault(text.place, format!("{words}{hint}"));
                    return;
                }
            }
        }
    }

    /// A text as characters of the same numbers; an empty one asks for empty texts to be written.
    pub(super) fn text(&mut self, what: &str, text: &Text, hint: &str) -> String {
        self.bytes(what, text, hint);
        if text.bytes.is_empty() {
            self.options.empty_text = true;
        }
        text.bytes.iter().map(|&byte| char::from(byte)).collect()
    }
}
