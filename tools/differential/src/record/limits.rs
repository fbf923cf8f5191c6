//! Queries and reads at document 01's limits of 42 and 43, which the original does not have: their answers are by 01 alone.

use library::reads::{NO_FILE, WRONGLY_LENT};

use super::file::{Asked, Told};
use crate::reads::Window;

const LONGEST_PART: u64 = 1 << 40;
const MOST_POSITIONS: u32 = 1_151_999;

fn refused(asked: &Asked, number: u64) -> Asked {
    Asked { alone: true, answer: Err(number), ..asked.clone() }
}

fn accepted(asked: &Asked) -> Asked {
    Asked { alone: true, ..asked.clone() }
}

/// A read with one byte, one length or one content too many or too few.
pub fn wrongly_lent(right: &Asked) -> Vec<Asked> {
    let mut wrong = Vec::new();
    let fields: [fn(&mut Asked) -> &mut usize; 3] =
        [|asked| &mut asked.frames, |asked| &mut asked.contents, |asked| &mut asked.lent];
    for field in fields {
        let mut asked = refused(right, WRONGLY_LENT);
        let before = *field(&mut asked);
        let mut counts = vec![0, before.saturating_sub(1), before + 1];
        counts.dedup();
        for now in counts.into_iter().filter(|&now| now != before) {
            *field(&mut asked) = now;
            wrong.push(asked.clone());
        }
    }
    // DSD has no lengths that could be lent.
    wrong.retain(|asked| right.lent > 0 || asked.lent == 0);
    wrong
}

/// Files of which something else is told, with the windows that are asked of them.
pub fn told_otherwise(told: &Told, inside: &Asked) -> Vec<(Told, Vec<Asked>)> {
    let mut all = Vec::new();
    let mut add = |change: &dyn Fn(&mut Told), asked: Asked| {
        let mut other = told.clone();
        change(&mut other);
        all.push((other, vec![asked]));
    };
    let no_file = refused(inside, NO_FILE);
    for channels in [0, 7, 255] {
        add(&|told| told.channels = channels, no_file.clone());
    }
    for length in [0, 65_537] {
        if let Some(last) = told.lengths.len().checked_sub(1) {
            add(&|told| told.lengths[last] = length, no_file.clone());
        }
    }
    if !told.dst {
        add(&|told| told.positions = MOST_POSITIONS + 1, no_file.clone());
        add(&|told| told.positions = u32::MAX, no_file.clone());
        add(&|told| told.positions = MOST_POSITIONS, accepted(inside));
    }
    // Only a query can be told such lengths.
    for length in [LONGEST_PART + 1, u64::MAX] {
        add(&|told| (told.header, told.sides) = (length, None), no_file.clone());
        add(&|told| (told.trailer, told.sides) = (length, None), no_file.clone());
    }
    add(&|told| (told.trailer, told.sides) = (LONGEST_PART, None), accepted(inside));
    if let Some(place) = inside.window.offset.checked_sub(told.header) {
        let window = Window { offset: LONGEST_PART + place, ..inside.window };
        add(&|told| (told.header, told.sides) = (LONGEST_PART, None), Asked { window, ..accepted(inside) });
    }
    all
}
