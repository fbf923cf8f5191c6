//! What the cases met.

use std::collections::BTreeMap;
use std::fmt;

use super::LEAST;
use crate::builds::{self, Outcome};
use crate::checks::{Case, LONGEST_TEXT};
use crate::chunks;
use crate::markers;

#[derive(Default)]
pub struct Counts {
    /// Drawn cases and fixed ones, by a place, how long its longest text is, and the number answered.
    answers: BTreeMap<(usize, usize, u32), [u64; 2]>,
    /// Chunks that are written with a long text, by their names.
    chunks: BTreeMap<[u8; 4], [u64; 2]>,
    pub builds: builds::counts::Counts,
    pub markers: markers::counts::Counts,
}

const PLACES: [&str; 8] = [
    "album artist",
    "album title",
    "track artist",
    "track title",
    "EMID",
    "title of a track",
    "custom marker",
    "comment",
];

/// The most values of a row of the table, and its name. Shorter texts are not counted.
const SIZES: [(u32, &str); 5] = [
    (LEAST - 1, "65,535"),
    (LEAST, "65,536"),
    (LONGEST_TEXT - 1, "65,537 to 1,048,575"),
    (LONGEST_TEXT, "1,048,576"),
    (u32::MAX, "more"),
];

/// The longest text of each place, 0 for none.
fn longest(case: &Case) -> [u32; 8] {
    let info = &case.of.info;
    let given = |text: [u32; 3]| if text[0] == 0 { 0 } else { text[2] };
    let titles = case.of.tracks.iter().map(|track| track.title.length);
    let texts = case.of.custom.iter().map(|marker| marker.text.length);
    let comments = case.comments.iter().map(|comments| comments.text.len() as u32);
    [
        given(info.album_artist),
        given(info.album_title),
        given(info.track_artist),
        given(info.track_title),
        info.emid[2],
        titles.max().unwrap_or(0),
        texts.max().unwrap_or(0),
        comments.max().unwrap_or(0),
    ]
}

impl Counts {
    pub fn count(&mut self, case: &Case, outcome: &Outcome) -> Result<(), String> {
        let kind = usize::from(case.fixed.is_some());
        let number = match outcome {
            Outcome::Built(_) => 0,
            Outcome::Refused(verdict) => verdict.number,
        };
        for (place, length) in longest(case).into_iter().enumerate().filter(|&(_, length)| length >= LEAST - 1) {
            let size = SIZES.iter().position(|&(most, _)| length <= most).unwrap_or(SIZES.len() - 1);
            self.answers.entry((place, size, number)).or_default()[kind] += 1;
        }
        if let Outcome::Built(file) = outcome {
            let mut found = chunks::before_sound(&file.header)?;
            found.extend(chunks::all(&file.trailer)?);
            if let Some(info) = chunks::only(&found, b"DIIN")? {
                found.extend(chunks::all(info.data)?);
            }
            found.retain(|chunk| &chunk.name != b"DIIN" && chunk.data.len() >= LEAST as usize);
            for chunk in found {
                self.chunks.entry(chunk.name).or_default()[kind] += 1;
            }
        }
        Ok(())
    }
}

impl fmt::Display for Counts {
    fn fmt(&self, f: &mut fmt::Formatter<'_>) -> fmt::Result {
        writeln!(f, "{:50}{:>9}{:>9}", "the longest text of a place", "drawn", "fixed")?;
        for ((place, size, number), [drawn, fixed]) in &self.answers {
            let answer = if *number == 0 { "accepted".into() } else { format!("refused {number}") };
            let name = format!("{}, {}: {answer}", PLACES[*place], SIZES[*size].1);
            writeln!(f, "  {name:48}{drawn:>9}{fixed:>9}")?;
        }
        writeln!(f, "chunks of 65,536 bytes and more")?;
        for (name, [drawn, fixed]) in &self.chunks {
            writeln!(f, "  {:48}{drawn:>9}{fixed:>9}", name.escape_ascii().to_string())?;
        }
        write!(f, "{}\n{}", self.markers, self.builds)
    }
}
