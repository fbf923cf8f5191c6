//! The faults of a file, as one fault of a command: all are counted, the first are listed.

use crate::Fault;
use std::path::Path;
use walk::Walk;

/// So many lines are printed at most.
const MOST_LINES: usize = 50;

#[derive(Default)]
pub struct Faults {
    lines: Vec<String>,
    more: u64,
}

impl Faults {
    /// What the walk found at fault.
    pub fn of_walk(walk: &Walk) -> Faults {
        let mut faults = Faults::default();
        for fault in &walk.faults {
            faults.push(|| fault.to_string());
        }
        faults.more = faults.more.saturating_add(walk.unlisted);
        faults
    }

    /// One more; its words are asked for if it is listed.
    pub fn push(&mut self, words: impl FnOnce() -> String) {
        if self.lines.len() < MOST_LINES {
            self.lines.push(words());
        } else {
            self.more = self.more.saturating_add(1);
        }
    }

    pub fn is_empty(&self) -> bool {
        self.lines.is_empty()
    }

    pub fn extend(&mut self, others: Faults) {
        others.lines.into_iter().for_each(|line| self.push(|| line));
        self.more = self.more.saturating_add(others.more);
    }

    /// A line for each fault of a file, and how many more there are; none for none.
    pub fn told(self, path: &Path) -> Option<Fault> {
        let more = match self.more {
            0 => None,
            1 => Some("and 1 more fault".into()),
            more => Some(format!("and {more} more faults")),
        };
        let lines = self.lines.into_iter().chain(more);
        Fault::all(lines.map(|line| Fault::File(line).at(&path.display().to_string())).collect())
    }
}
