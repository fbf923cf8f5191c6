//! Texts: counted ones, markers and comments.
use crate::bytes::{Bytes, Window};
use crate::limits::more_than;
use crate::{Chunk, Comment, MOST_TEXT_BYTES, Marker, Rule, Text, Time, Walk};
use std::io;

/// The fixed bytes of MARK before its text, and before the text's count.
const MARK_HEAD: u64 = 18;
/// The fixed bytes of a comment, its text's count included.
const COMMENT_HEAD: u64 = 14;

/// The texts that were taken so far.
#[derive(Default)]
pub(crate) struct Texts {
    taken: u64,
}

impl Texts {
    /// The bytes of a text that lies inside its chunk; none if the walk keeps no more.
    pub fn take<B: Bytes + ?Sized>(
        &mut self,
        window: &mut Window<'_, B>,
        found: &mut Walk,
        chunk: u64,
        place: u64,
        count: u64,
    ) -> io::Result<Option<Text>> {
        self.taken = self.taken.saturating_add(count);
        if self.taken > MOST_TEXT_BYTES {
            let most = format_args!("{} MiB", MOST_TEXT_BYTES >> 20);
            found.fault(Rule::Limits, chunk, more_than(most, "bytes of texts"));
            return Ok(None);
        }
        let mut bytes = vec![];
        window.append(place, count, &mut bytes)?;
        Ok(Some(Text { place, bytes }))
    }

    /// A text with its count, after so many fixed bytes of the chunk.
    pub fn counted<B: Bytes + ?Sized>(
        &mut self,
        window: &mut Window<'_, B>,
        found: &mut Walk,
        chunk: &Chunk,
        head: u64,
    ) -> io::Result<Option<Text>> {
        let fixed = head + 4;
        if chunk.size < fixed {
            let words = format!("{} of size {} is shorter than its {fixed} bytes", chunk.name, chunk.size);
            found.fault(Rule::Fields, chunk.place, words);
            return Ok(None);
        }
        let count = u64::from(u32::from_be_bytes(window.get(chunk.data() + head)?));
        if fixed + count > chunk.size {
            let words = format!("{} of size {} has no room for a text of {count} bytes", chunk.name, chunk.size);
            found.fault(Rule::Fields, chunk.place, words);
            return Ok(None);
        }
        let text = self.take(window, found, chunk.place, chunk.data() + fixed, count)?;
        if count % 2 == 1 && fixed + count + 1 == chunk.size {
            let place = chunk.data() + fixed + count;
            let [byte] = window.get(place)?;
            found.pads.met(place, byte);
        }
        found.leftover_padded(chunk, fixed + count);
        Ok(text)
    }

    /// MARK.
    pub fn marker<B: Bytes + ?Sized>(
        &mut self,
        window: &mut Window<'_, B>,
        found: &mut Walk,
        chunk: &Chunk,
    ) -> io::Result<Option<Marker>> {
        let Some(text) = self.counted(window, found, chunk, MARK_HEAD)? else { return Ok(None) };
        let time = Time::new(window.get(chunk.data())?);
        let [o0, o1, o2, o3, k0, k1, c0, c1, f0, f1] = window.get(chunk.data() + 8)?;
        Ok(Some(Marker {
            time,
            offset: i32::from_be_bytes([o0, o1, o2, o3]),
            kind: u16::from_be_bytes([k0, k1]),
            channel: u16::from_be_bytes([c0, c1]),
            flags: u16::from_be_bytes([f0, f1]),
            text,
        }))
    }

    /// The comments of COMT, up to the first that is at fault.
    pub fn comments<B: Bytes + ?Sized>(
        &mut self,
        window: &mut Window<'_, B>,
        found: &mut Walk,
        chunk: &Chunk,
    ) -> io::Result<Option<Vec<Comment>>> {
        if chunk.size < 2 {
            let words = format!("COMT of size {} is shorter than its 2 bytes", chunk.size);
            found.fault(Rule::Fields, chunk.place, words);
            return Ok(None);
        }
        let count = u16::from_be_bytes(window.get(chunk.data())?);
        let (mut at, end) = (chunk.data() + 2, chunk.data_end());
        let mut comments = vec![];
        for number in 0..count {
            if end - at < COMMENT_HEAD {
                let words = format!("COMT ends in comment {number} of {count}");
                found.fault(Rule::Fields, chunk.place, words);
                break;
            }
            let [y0, y1, month, day, hour, minutes, k0, k1, r0, r1, c0, c1, c2, c3] =
                window.get::<{ COMMENT_HEAD as usize }>(at)?;
            let length = u64::from(u32::from_be_bytes([c0, c1, c2, c3]));
            let next = at + COMMENT_HEAD + length + length % 2;
            if next > end {
                let words = format!("COMT has no room for comment {number} of {count}, of {length} bytes");
                found.fault(Rule::Fields, at, words);
                break;
            }
            let Some(text) = self.take(window, found, at, at + COMMENT_HEAD, length)? else { break };
            if length % 2 == 1 {
                let [byte] = window.get(next - 1)?;
                found.pads.met(next - 1, byte);
            }
            comments.push(Comment {
                place: at,
                year: u16::from_be_bytes([y0, y1]),
                month,
                day,
                hour,
                minutes,
                kind: u16::from_be_bytes([k0, k1]),
                reference: u16::from_be_bytes([r0, r1]),
                text,
            });
            at = next;
        }
        // Of comments at fault it isn't known where they end.
        if comments.len() == usize::from(count) {
            found.leftover(chunk, at - chunk.data());
        }
        Ok(Some(comments))
    }
}
