//! Making a failing case simpler.

use std::ops::Range;

use library::checks::{COMT, DIIN, DSTI, PROP, SOUND};
use library::markers::UNSPECIFIED;

use super::{layout_of, Case, USUAL};
use crate::markers::simplify::simplify_any;
use crate::subject::{keep, simplify_list, smaller, Fails, Halt};

pub fn simplify(case: &mut Case, fails: Fails<'_, Case>) -> Result<(), Halt> {
    // A fixed case that fails only as such is as simple as it can be.
    if case.fixed.is_some() && !keep(case, fails, |case| case.fixed = None)? {
        return Ok(());
    }
    keep(case, fails, |case| case.beyond.clear())?;
    keep(case, fails, |case| case.beside = 0)?;
    keep(case, fails, |case| case.of.buffers = 0)?;
    simplify_list(case, |case| case.comments.len(), without(|case| &mut case.comments), fails)?;
    simplify_list(case, |case| case.callers.len(), without(|case| &mut case.callers), fails)?;
    for number in 0..case.comments.len() {
        keep(case, fails, |case| case.comments[number].text.clear())?;
        keep(case, fails, |case| case.comments[number].text = vec![0x41])?;
        let now = case.comments[number].text.len();
        smaller(case, fails, now as u64, 0, |case, now| case.comments[number].text.truncate(now as usize))?;
        let now = case.comments[number].count;
        smaller(case, fails, now.into(), 1, |case, now| case.comments[number].count = now as u32)?;
        for place in 0..5 {
            let now = case.comments[number].date[place];
            smaller(case, fails, now.into(), 0, |case, now| case.comments[number].date[place] = now as u32)?;
        }
        keep(case, fails, |case| (case.comments[number].kind, case.comments[number].reference) = (0, 0))?;
        let now = case.comments[number].reference;
        smaller(case, fails, now.into(), 0, |case, now| case.comments[number].reference = now as u32)?;
    }
    for number in 0..case.callers.len() {
        keep(case, fails, |case| case.callers[number].data.clear())?;
        for place in 0..4 {
            keep(case, fails, |case| case.callers[number].name[place] = b'A')?;
        }
    }
    for switch in SWITCHES {
        keep(case, fails, |case| *switch(case) = false)?;
    }
    keep(case, fails, |case| case.idle = None)?;
    keep(case, fails, |case| (case.local_order, case.local_count) = ([PROP, COMT, DIIN, SOUND, DSTI], 5))?;
    keep(case, fails, |case| (case.local_order, case.local_count) = ([PROP, SOUND, 0, 0, 0], 2))?;
    for place in 0..5 {
        keep(case, fails, |case| case.local_order[place] = case.local_order[place].min(COMT))?;
    }
    keep(case, fails, |case| (case.lengths.more, case.lengths.place, case.lengths.value) = (0, 0, USUAL))?;
    keep(case, fails, |case| case.lengths.place = 0)?;
    keep(case, fails, |case| case.lengths.usual = vec![USUAL])?;
    keep(case, fails, |case| case.lengths.usual.truncate(1))?;
    let now = case.lengths.value;
    smaller(case, fails, now.into(), now.min(1).into(), |case, now| case.lengths.value = now as u32)?;
    for number in 0..case.lengths.usual.len() {
        let now = case.lengths.usual[number];
        smaller(case, fails, now.into(), now.min(1).into(), |case, now| case.lengths.usual[number] = now as u32)?;
    }
    let stereo = |case: &mut Case| {
        case.of.config = 0;
        (case.of.properties.channels, case.of.properties.layout) = (2, layout_of(2, 0));
    };
    keep(case, fails, stereo)?;

    let mut of = case.of.clone();
    let simpler = &mut |of: &_| {
        let case = Case { of: Clone::clone(of), ..case.clone() };
        Ok(case.is_told() && fails(&case)?)
    };
    let done = simplify_any(&mut of, simpler);
    case.of = of;
    done
}

impl Case {
    /// Whether both sides are told the same layout.
    fn is_told(&self) -> bool {
        let properties = &self.of.properties;
        properties.layout.min(UNSPECIFIED) == layout_of(properties.channels, self.of.config)
    }
}

const SWITCHES: [fn(&mut Case) -> &mut bool; 4] =
    [|case| &mut case.edited_master, |case| &mut case.dst_crc, |case| &mut case.dst_index, |case| &mut case.frame_data];

/// The case without these elements of a list.
fn without<T>(list: fn(&mut Case) -> &mut Vec<T>) -> impl Fn(&Case, Range<usize>) -> Option<Case> {
    move |case, gone| {
        let mut simpler = case.clone();
        list(&mut simpler).drain(gone);
        Some(simpler)
    }
}
