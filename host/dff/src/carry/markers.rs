//! The markers of the span.

use super::{Carrier, DROP_MARKERS};
use crate::sources::Sound;
use crate::sources::dff::RATE;
use jangqeruz::{Marker, MarkerKind, Track};
use walk::Field;

/// The bytes of MARK before its text's count.
const MARK_HEAD: u64 = 18;

/// The kind of a marker that stops a track.
const STOP: u16 = 1;

/// The most markers that a build is given, and the most tracks (refusal 1). Tracks make up to twice as many markers.
const MOST_GIVEN: usize = 65_535;

impl Carrier<'_> {
    pub(super) fn markers(&mut self) {
        let markers = &self.source.walk().markers;
        if self.dropped.markers {
            if !markers.is_empty() {
                self.note(format!("{} markers are left out", markers.len()));
            }
            return;
        }
        let (mut list, mut outside) = (vec![], 0u64);
        for marker in markers {
            match self.place(marker) {
                Place::Outside => outside += 1,
                Place::Frame(frame) => list.extend(self.marker(marker, frame)),
                Place::None => {
                    let words = format!("the marker at {} is at no frame's start", marker.value.time.words(RATE));
                    self.no_marker(marker, words);
                }
            }
        }
        if outside > 0 {
            self.note(format!("{outside} of {} markers are outside the span and left out", markers.len()));
        }
        if list.len() > MOST_GIVEN
            && let Some(tracks) = tracks_of(&list).filter(|tracks| tracks.len() <= MOST_GIVEN)
        {
            (self.tracks, self.options.marker_titles) = (tracks, true);
            self.options.custom_markers = None;
            return;
        }
        self.options.custom_markers = Some(list);
    }

    fn marker(&mut self, marker: &Field<walk::Marker>, frame: u32) -> Option<Marker> {
        let found = &marker.value;
        let kind = match found.kind {
            0 => MarkerKind::TrackStart,
            1 => MarkerKind::TrackStop,
            2 => MarkerKind::ProgramStart,
            4 => MarkerKind::Index,
            other => {
                self.no_marker(marker, format!("the marker's kind is {other}"));
                return None;
            }
        };
        if found.offset != 0 {
            self.no_marker(marker, format!("the marker's offset is {} samples", found.offset));
        }
        if found.channel != 0 {
            self.no_marker(marker, format!("the marker's channel is {}", found.channel));
        }
        if kind != MarkerKind::TrackStart && found.flags != 0 {
            self.no_marker(marker, format!("the marker's flags are {:#06x}", found.flags));
        }
        self.counted("MARK", (marker.place, marker.size), MARK_HEAD, &found.text, DROP_MARKERS);
        self.bytes("a marker's text", &found.text, DROP_MARKERS);
        Some(Marker { frame, kind, track_flags: found.flags, text: found.text.bytes.clone() })
    }

    fn no_marker(&mut self, marker: &Field<walk::Marker>, words: String) {
        self.fault(marker.place, format!("{words}, which can't be carried over{DROP_MARKERS}"));
    }

    /// Where a marker lies. At the span's end it is inside if it stops a track, or if the file ends there too: what
    /// else is marked there lies behind the span.
    fn place(&self, marker: &Field<walk::Marker>) -> Place {
        let time = &marker.value.time;
        if !time.is_regular(RATE) {
            return Place::None;
        }
        let whole = walk::Time { samples: time.samples - time.samples % (RATE / walk::FRAMES_PER_SECOND), ..*time };
        let inside = |frame: u64| {
            let frame = u32::try_from(frame.checked_sub(self.start)?).ok()?;
            (self.span.start..=self.span.end).contains(&frame).then(|| frame - self.span.start)
        };
        let ends_it = whole == *time && (marker.value.kind == STOP || self.span.end == self.source.frames());
        match whole.frame(RATE).and_then(inside) {
            None => Place::Outside,
            Some(frame) if frame == self.span.end - self.span.start && !ends_it => Place::Outside,
            Some(frame) if whole == *time => Place::Frame(frame),
            Some(_) => Place::None,
        }
    }
}

/// The tracks that make just these markers in a file of all their frames; none if no tracks do.
fn tracks_of(markers: &[Marker]) -> Option<Vec<Track>> {
    let plain = |marker: &Marker| marker.track_flags == 0 && marker.text.is_empty();
    let (program, markers) = markers.split_first()?;
    if program.kind != MarkerKind::ProgramStart || program.frame != 0 || !plain(program) {
        return None;
    }
    let mut tracks: Vec<Track> = vec![];
    let (mut open, mut last) = (false, 0);
    for marker in markers {
        let frames = marker.frame.checked_sub(last).filter(|frames| *frames > 0);
        match (marker.kind, tracks.last_mut()) {
            (MarkerKind::TrackStop, Some(track)) if open && plain(marker) => {
                (track.duration, open) = (frames?, false);
            }
            (MarkerKind::TrackStart, track) if marker.track_flags == 0 => {
                match track {
                    Some(track) if open => track.duration = frames?,
                    Some(_) => drop(frames?), // where a track starts, the one before makes no stop
                    None => {}
                }
                let title = marker.text.iter().map(|&byte| char::from(byte)).collect();
                tracks.push(Track { start: marker.frame, duration: 0, title });
                open = true;
            }
            _ => return None,
        }
        last = marker.frame;
    }
    (!open).then_some(tracks)
}

enum Place {
    Outside,
    /// At the start of a frame of the span, counted from 0.
    Frame(u32),
    /// Inside the span, but at no frame's start; or no time at all.
    None,
}
