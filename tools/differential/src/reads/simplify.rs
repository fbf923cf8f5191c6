//! Making a failing case simpler.

use super::asked::{simplify_lists, simplify_windows};
use super::Case;
use crate::checks::simplify::simplify as simplify_build;
use crate::subject::{keep, Fails, Halt};

pub fn simplify(case: &mut Case, fails: Fails<'_, Case>) -> Result<(), Halt> {
    simplify_lists(case, fails)?;
    keep(case, fails, |case| case.spoilt = None)?;
    keep(case, fails, |case| anew(case, |case| case.contents.clear()))?;
    keep(case, fails, |case| anew(case, |case| case.seed = 0))?;

    let mut build = case.build.clone();
    let done = simplify_build(&mut build, &mut |build| {
        let simpler = Case { build: build.clone(), ..case.clone() };
        fails(&simpler.built_anew())
    });
    anew(case, |case| case.build = build);
    done?;

    simplify_windows(case, fails)
}

/// Changes the build or its frames.
fn anew(case: &mut Case, change: impl FnOnce(&mut Case)) {
    let mut changed = case.clone();
    change(&mut changed);
    *case = changed.built_anew();
}
