//! DIIN and COMT: ID, artist, title, comments, and the order of DIIN's chunks.

use super::{Carrier, DROP_COMMENTS};
use jangqeruz::{Comment, CommentKind, InfoChunk};
use walk::{Field, Text};

impl Carrier<'_> {
    pub(super) fn info(&mut self) {
        let walk = self.source.walk();
        self.options.edited_master_info = walk.chunk(b"DIIN").is_some();
        if !self.options.edited_master_info {
            return;
        }
        self.options.empty_info = true; // where all that was in it lies outside the span, too
        self.options.edited_master_id = walk.id.as_ref().map(|id| id.value.bytes.clone());
        let artist = walk.artist.as_ref().map(|text| self.info_text("DIAR", "the artist", text));
        let title = walk.title.as_ref().map(|text| self.info_text("DITI", "the title", text));
        if artist.is_some() || title.is_some() {
            self.options.artist_title = Some(true);
        }
        (self.options.album.artist, self.options.album.title) = (artist, title);
        self.markers();
        self.info_order();
    }

    fn info_text(&mut self, name: &str, what: &str, text: &Field<Text>) -> String {
        self.counted(name, (text.place, text.size), 0, &text.value, "");
        self.text(what, &text.value, "")
    }

    fn info_order(&mut self) {
        let Some(info) = self.source.walk().chunk(b"DIIN") else { return };
        let mut order = vec![];
        let mut apart = false;
        for chunk in &info.chunks {
            let part = match &chunk.name.0 {
                b"EMID" => InfoChunk::Emid,
                b"MARK" => InfoChunk::Mark,
                b"DIAR" => InfoChunk::Diar,
                b"DITI" => InfoChunk::Diti,
                _ => {
                    self.fault(chunk.place, format_args!("chunk {} in DIIN can't be carried over", chunk.name));
                    continue;
                }
            };
            if !order.contains(&part) {
                order.push(part);
            } else if part == InfoChunk::Mark {
                apart |= order.last() != Some(&part);
            } else {
                self.fault(chunk.place, format_args!("{} is repeated, which can't be carried over", chunk.name));
            }
        }
        if apart && !self.dropped.markers {
            self.note("markers with other chunks between them are put together".into());
        }
        for part in self.options.info_order {
            if !order.contains(&part) {
                order.push(part);
            }
        }
        if let Ok(order) = order.try_into() {
            self.options.info_order = order;
        }
    }

    pub(super) fn comments(&mut self) {
        let Some(comments) = &self.source.walk().comments else { return };
        if self.dropped.comments && !comments.value.is_empty() {
            self.note(format!("{} comments are left out", comments.value.len()));
        }
        let size = comments.value.iter().fold(2u64, |size, comment| {
            let text = comment.text.bytes.len() as u64;
            size.saturating_add(14 + text + text % 2)
        });
        if comments.value.is_empty() {
            self.note("COMT without a comment is left out".into());
        }
        if self.dropped.comments {
            return;
        }
        self.exact_or("COMT", comments.place, comments.size, size, DROP_COMMENTS);
        for comment in &comments.value {
            let kind = match comment.kind {
                0 => CommentKind::General,
                1 => CommentKind::Channel,
                2 => CommentKind::SoundSource,
                3 => CommentKind::FileHistory,
                other => {
                    let words = format!("a comment of kind {other} can't be carried over{DROP_COMMENTS}");
                    self.fault(comment.place, words);
                    continue;
                }
            };
            if kind == CommentKind::General && comment.reference != 0 {
                let words = format!("a general comment's reference {} can't be carried over", comment.reference);
                self.fault(comment.place, words + DROP_COMMENTS);
            }
            let text = self.text("a comment", &comment.text, DROP_COMMENTS);
            self.options.comments.push(Comment {
                year: comment.year.into(),
                month: comment.month.into(),
                day: comment.day.into(),
                hour: comment.hour.into(),
                minutes: comment.minutes.into(),
                kind,
                reference: comment.reference.into(),
                text,
            });
        }
    }
}
