//! Builds with long texts, compared as builds are, and their PROP and DIIN by themselves too.

mod counts;
mod draw;
pub mod fixed;

use self::counts::Counts;
use crate::builds::{compare_with_parts, Builds, Case};
use crate::original::Answer;
use crate::random::Random;
use crate::reads::file::File;
use crate::reads::Window;
use crate::subject::{Disagreement, Fails, Halt, Subject};

pub struct Notes;

/// A text of fewer values is not long.
const LEAST: u32 = 65_536;

/// The case with a few windows, some of which are in its longest chunk.
fn with_windows(case: Case, random: &mut Random) -> Case {
    let mut case = case.with_windows(random);
    if let Some(file) = &case.ours {
        case.asked.reads.extend(draw_inside(random, file));
    }
    case
}

/// Bytes of windows in the longest chunk.
const INSIDE: [u64; 5] = [1, 2, 64, 3_000, 70_000];

fn draw_inside(random: &mut Random, file: &File) -> [Window; 5] {
    let boundaries = file.boundaries_of([]);
    let parts = boundaries.windows(2).map(|ends| (ends[1] - ends[0], ends[0]));
    let sound = file.header_bytes();
    let (bytes, start) = parts.filter(|&(_, start)| start != sound).max().unwrap_or_default();
    INSIDE.map(|length| Window { offset: start + random.place(bytes as usize + 1) as u64, length })
}

impl Subject for Notes {
    const NAME: &'static str = "notes";
    type Case = Case;
    type Counts = Counts;

    fn fixed() -> Vec<Case> {
        fixed::fixed()
    }

    fn draw(random: &mut Random) -> Case {
        draw::draw(random)
    }

    fn for_original(case: &Case) -> String {
        Builds::for_original(case)
    }

    fn for_us(case: &Case) -> String {
        Builds::for_us(case)
    }

    fn compare(case: &Case, answer: &Answer, counts: &mut Counts) -> Result<Vec<Disagreement>, String> {
        let (found, outcome) = compare_with_parts(case, answer, &mut counts.builds, &mut counts.markers)?;
        counts.count(&case.build, &outcome)?;
        Ok(found)
    }

    fn simplify(case: &mut Case, fails: Fails<'_, Case>) -> Result<(), Halt> {
        Builds::simplify(case, fails)
    }
}
