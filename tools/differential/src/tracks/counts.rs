//! What the cases met.

use std::collections::BTreeMap;
use std::fmt;

use crate::builds::{self, Outcome};
use crate::checks::Case;
use crate::markers;

#[derive(Default)]
pub struct Counts {
    /// Drawn cases and fixed ones, by how many tracks there are, whether it is an edited master, and the number answered.
    answers: BTreeMap<(usize, bool, u32), [u64; 2]>,
    /// Accepted builds, no edited masters, by the source track: drawn and fixed ones.
    sources: BTreeMap<usize, [u64; 2]>,
    tracks: u64,
    pub builds: builds::counts::Counts,
    pub markers: markers::counts::Counts,
}

/// The most tracks of a row of the tables, and its name.
const SIZES: [(usize, &str); 7] = [
    (254, "up to 254"),
    (255, "255"),
    (256, "256"),
    (257, "257"),
    (65_534, "258 to 65,534"),
    (65_535, "65,535"),
    (usize::MAX, "more"),
];

fn size(count: usize) -> usize {
    SIZES.iter().position(|&(most, _)| count <= most).unwrap_or(SIZES.len() - 1)
}

impl Counts {
    pub fn count(&mut self, case: &Case, outcome: &Outcome) {
        let kind = usize::from(case.fixed.is_some());
        let number = match outcome {
            Outcome::Built(_) => 0,
            Outcome::Refused(verdict) => verdict.number,
        };
        let count = case.of.tracks.len();
        self.tracks += count as u64;
        self.answers.entry((size(count), case.edited_master, number)).or_default()[kind] += 1;
        let source = usize::from(case.of.info.source_track);
        if number == 0 && !case.edited_master && source > 0 {
            self.sources.entry(size(source)).or_default()[kind] += 1;
        }
    }
}

impl fmt::Display for Counts {
    fn fmt(&self, f: &mut fmt::Formatter<'_>) -> fmt::Result {
        writeln!(f, "{:50}{:>9}{:>9}", "tracks", "drawn", "fixed")?;
        for ((size, master, number), [drawn, fixed]) in &self.answers {
            let master = if *master { ", edited master" } else { "" };
            let answer = if *number == 0 { "accepted".into() } else { format!("refused {number}") };
            writeln!(f, "  {:48}{drawn:>9}{fixed:>9}", format!("{}{master}: {answer}", SIZES[*size].1))?;
        }
        writeln!(f, "source tracks of accepted builds")?;
        for (size, [drawn, fixed]) in &self.sources {
            writeln!(f, "  {:48}{drawn:>9}{fixed:>9}", SIZES[*size].1)?;
        }
        writeln!(f, "tracks of all cases{:>49}", self.tracks)?;
        write!(f, "{}\n{}", self.markers, self.builds)
    }
}
