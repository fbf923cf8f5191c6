//! Making a failing case simpler.

use std::ops::Range;

use super::file::Kind;
use super::{Case, Window};
use crate::subject::{keep, simplify_list, smaller, Fails, Halt};

pub fn simplify(case: &mut Case, fails: Fails<'_, Case>) -> Result<(), Halt> {
    keep(case, fails, |case| case.reads.clear())?;
    keep(case, fails, |case| case.queries.clear())?;
    simplify_list(case, |case| case.reads.len(), |case, gone| without(case, gone, |case| &mut case.reads), fails)?;
    simplify_list(case, |case| case.queries.len(), |case, gone| without(case, gone, |case| &mut case.queries), fails)?;
    keep(case, fails, |case| case.file.contents.clear())?;
    keep(case, fails, |case| case.file.first = 0)?;
    keep(case, fails, |case| case.file.seed = 0)?;
    keep(case, fails, |case| case.file.channels = 1)?;
    keep(case, fails, |case| case.choices = 0)?;
    keep(case, fails, |case| {
        if let Kind::Dst { index, .. } = &mut case.file.kind {
            *index = None;
        }
    })?;
    keep(case, fails, |case| {
        if let Kind::Dst { crc, .. } = &mut case.file.kind {
            *crc = false;
        }
    })?;
    if let Kind::Dsd { positions } = case.file.kind {
        smaller(case, fails, positions.into(), 1, |case, positions| {
            case.file.kind = Kind::Dsd { positions: positions as u32 };
            drop_lost(case);
        })?;
    }
    simplify_list(case, |case| case.file.lengths().len(), without_frames, fails)?;
    for position in 0..case.file.lengths().len() {
        let now = u64::from(case.file.lengths()[position]);
        smaller(case, fails, now, 1, |case, length| {
            if let Kind::Dst { lengths, .. } = &mut case.file.kind {
                lengths[position] = length as u32;
            }
        })?;
    }
    for number in 0..case.reads.len() {
        let Window { place, length } = case.reads[number];
        smaller(case, fails, length, 0, |case, length| case.reads[number].length = length)?;
        smaller(case, fails, place, 0, |case, place| case.reads[number].place = place)?;
    }
    for number in 0..case.queries.len() {
        let Window { place, length } = case.queries[number];
        smaller(case, fails, length, 0, |case, length| case.queries[number].length = length)?;
        smaller(case, fails, place, 0, |case, place| case.queries[number].place = place)?;
    }
    Ok(())
}

fn without(case: &Case, gone: Range<usize>, list: fn(&mut Case) -> &mut Vec<Window>) -> Option<Case> {
    let mut simpler = case.clone();
    list(&mut simpler).drain(gone);
    Some(simpler)
}

/// The case without these DST frames; `None` if none would be left.
fn without_frames(case: &Case, gone: Range<usize>) -> Option<Case> {
    let mut simpler = case.clone();
    if let Kind::Dst { lengths, .. } = &mut simpler.file.kind {
        lengths.drain(gone);
    }
    drop_lost(&mut simpler);
    Some(simpler).filter(|simpler| simpler.file.positions() > 0)
}

/// Forgets what belongs to positions that are no more.
fn drop_lost(case: &mut Case) {
    let left = case.file.positions() as u32;
    case.file.contents.retain(|(position, _)| *position < left);
    case.crc_of = case.crc_of.min(left.saturating_sub(1));
}
