//! What a manifest asks for: sources opened, options in the library's types. No chunk's file is read and nothing is
//! built yet.

use super::{Plan, built, refused};
use crate::Fault;
use crate::carry::Numbered;
use crate::limit::check_given;
use crate::manifest::entries::Entry;
use crate::manifest::names::Named;
use crate::manifest::{Planned, notes, options};
use crate::sizes::Size;
use crate::sources::Sound;
use crate::sources::chunks::{self, Unread};
use crate::sources::open::Opener;
use jangqeruz::{Area, Layout, Options};

pub struct Asked<'m> {
    label: String,
    entry: &'m Entry,
    source: Box<dyn Sound>,
    area: Area,
    /// Without the chunks.
    options: Options,
    chunks: Vec<Unread>,
}

impl<'m> Asked<'m> {
    pub fn open(opener: &Opener, Planned { name, entry }: &'m Planned) -> Result<Asked<'m>, Fault> {
        let label = format!("{}: {name}", opener.manifest.line(entry.name.start()));
        let source = opener.source(entry)?;
        let chunks = entry.chunk.iter().map(|chunk| opener.chunk(chunk)).collect::<Result<Vec<_>, _>>()?;
        let (frames, channels) = (source.frames(), source.channels());
        let range = entry.range.as_ref().map(|range| &range.0);
        let first = range.and_then(|range| range.from).map_or(0, |time| time.0);
        let end = range.and_then(|range| range.to).map_or(frames, |time| time.0);
        let (layout, numbers) = layout(entry, source.as_ref()).map_err(|fault| fault.at(&label))?;
        let area = Area {
            kind: source.kind(),
            channels,
            layout,
            playtime: entry.playtime.map_or(frames, |time| time.0),
            first,
            end,
            tracks: options::tracks(entry),
        };
        let mut options = options::options(entry);
        options.channel_numbers = options.channel_numbers.or(numbers);
        Ok(Asked { label, entry, source, area, options, chunks })
    }

    /// A fault if what is given is above the limit already.
    pub fn check(&self, limit: Size) -> Result<(), Fault> {
        check_given(limit, &self.area, &self.options, &self.chunks).map_err(|error| refused(&self.label, &error, None))
    }

    /// Reads the chunks and builds.
    pub fn plan(self, limit: Size) -> Result<Plan, Fault> {
        let Asked { label, entry, source, area, mut options, chunks } = self;
        options.chunks = chunks::read(chunks).map_err(|fault| fault.at(&label))?;
        let file = built(&label, &area, &options, source, limit)?;
        let notes = notes::notes(entry, &area, &options);
        Ok(Plan { label, file, notes })
    }
}

/// The entry's layout, else the source's, else that of so many channels. Of an unspecified one also the numbers that
/// the source has for its channels.
fn layout(entry: &Entry, source: &dyn Sound) -> Result<Numbered, Fault> {
    let (layout, numbers) = match (entry.layout, source.layout()) {
        (Some(Named(layout)), told) => (layout, told.ok().flatten().and_then(|(_, numbers)| numbers)),
        (None, Ok(Some(told))) => told,
        (None, Ok(None)) => (Layout::of_channels(source.channels()), None),
        (None, Err(Fault::File(words))) => {
            return Err(Fault::File(format!("{words}\n  remedy: give the file's `layout` in the manifest")));
        }
        (None, Err(fault)) => return Err(fault),
    };
    Ok((layout, numbers.filter(|_| layout == Layout::Unspecified)))
}
