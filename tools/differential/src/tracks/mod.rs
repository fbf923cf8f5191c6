//! Builds with any number of tracks, compared as builds are, and their PROP and DIIN by themselves too.

mod counts;
mod draw;
mod fixed;

use self::counts::Counts;
use crate::builds::{compare_with_parts, Builds, Case};
use crate::original::Answer;
use crate::random::Random;
use crate::subject::{Disagreement, Fails, Halt, Subject};

pub struct Tracks;

impl Subject for Tracks {
    const NAME: &'static str = "tracks";
    type Case = Case;
    type Counts = Counts;

    fn fixed() -> Vec<Case> {
        fixed::fixed()
    }

    fn draw(random: &mut Random) -> Case {
        draw::draw(random)
    }

    fn for_original(case: &Case) -> String {
        Builds::for_original(case)
    }

    fn for_us(case: &Case) -> String {
        Builds::for_us(case)
    }

    fn compare(case: &Case, answer: &Answer, counts: &mut Counts) -> Result<Vec<Disagreement>, String> {
        let (found, outcome) = compare_with_parts(case, answer, &mut counts.builds, &mut counts.markers)?;
        counts.count(&case.build, &outcome);
        Ok(found)
    }

    fn simplify(case: &mut Case, fails: Fails<'_, Case>) -> Result<(), Halt> {
        Builds::simplify(case, fails)
    }
}
