//! A window of dates, start counted in and end counted out; either may be open.

use super::listed::{Dated, Listed, broken};
use crate::Fault;
use crate::dates::{Date, words};
use jangqeruz::{Stamp, earlier, falls_in};

pub struct Window {
    start: Option<Stamp>,
    end: Option<Stamp>,
}

impl Window {
    pub fn new(from: Option<Date>, to: Option<Date>) -> Window {
        Window { start: from.map(|Date(stamp)| stamp), end: to.map(|Date(stamp)| stamp) }
    }

    pub fn is_open(&self) -> bool {
        self.start.is_none() && self.end.is_none()
    }

    /// Whether a comment, dated or undated, falls in. The library is asked; of half a window about its one side.
    pub fn has(&self, listed: &Listed) -> Result<bool, Fault> {
        let (note, is_dated) = (listed.stamp, listed.dated == Dated::Yes);
        match (self.start, self.end) {
            (Some(start), Some(end)) => falls_in(start, end, note).map_err(broken),
            (Some(start), None) => Ok(is_dated && !earlier(note, start)),
            (None, Some(end)) => Ok(is_dated && earlier(note, end)),
            (None, None) => Ok(true),
        }
    }

    /// The note on a window that nothing falls in, whatever there is.
    pub fn note(&self) -> Option<String> {
        let (start, end) = (self.start?, self.end?);
        let empty = !earlier(start, end);
        empty.then(|| format!("--to {} is not after --from {}, so nothing falls in", words(end), words(start)))
    }
}
