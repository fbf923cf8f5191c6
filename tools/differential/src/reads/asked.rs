//! What is asked of a file, and its comparison with the original's answer. The subject builds has it too.

use std::ops::Range;

use super::file::File;
use super::hold::Held;
use super::{Read, Spoilt, Window};
use crate::original::{self, Answer};
use crate::subject::{keep, simplify_list, smaller, Fails, Halt};

/// Windows of a file.
#[derive(Clone, Default, PartialEq)]
pub struct Asked {
    /// Each is read, and asked for the positions that it needs.
    pub reads: Vec<Window>,
    /// Asked for the positions only.
    pub queries: Vec<Window>,
    /// Decides what is told or lent where it should not matter, and what is refused.
    pub choices: u64,
}

/// The reads of a file as the original answered them: the positions that each needs, and what it filled.
pub struct Answered {
    pub positions: Vec<Range<usize>>,
    pub filled: Vec<Vec<u8>>,
}

impl Asked {
    /// Whether anything is.
    pub fn any(&self) -> bool {
        !self.reads.is_empty() || !self.queries.is_empty()
    }

    /// The windows of one file, moved to where another has the like.
    pub fn moved(mut self, from: &File, to: &File) -> Asked {
        for window in self.reads.iter_mut().chain(&mut self.queries) {
            *window = to.window_like(from, *window);
        }
        self
    }

    /// The windows in the original's case language.
    pub fn lines(&self) -> String {
        let mut lines = String::new();
        for (word, windows) in [("query", &self.queries), ("query", &self.reads), ("read", &self.reads)] {
            for Window { offset, length } in windows {
                lines += &format!("{word} {offset} {length}\n");
            }
        }
        lines
    }

    /// The windows for a reader.
    pub fn told(&self) -> Vec<String> {
        let mut lines = vec![format!("choices {}", self.choices)];
        for (word, windows) in [("query", &self.queries), ("query and read", &self.reads)] {
            lines.extend(windows.iter().map(|window| format!("{word} {}", window.told())));
        }
        lines
    }

    /// The positions of each query, which must be those that were asked.
    pub fn answered_queries(&self, answer: &Answer) -> Result<Vec<Range<usize>>, String> {
        let queries = answer.queries()?;
        let windows = queries.iter().map(|query| Window { offset: query.offset, length: query.length });
        if !windows.eq(self.queries.iter().chain(&self.reads).copied()) {
            return Err("the original answered other queries".into());
        }
        Ok(queries.into_iter().map(|query| query.positions).collect())
    }

    /// The answers to the reads, which must be those that were asked, with the rest of the buffer left alone.
    pub fn answered_reads(&self, answer: &Answer) -> Result<Vec<Read>, String> {
        let reads = answer.reads()?;
        let windows = reads.iter().map(|read| Window { offset: read.offset, length: read.bytes.len() as u64 });
        if !windows.eq(self.reads.iter().copied()) {
            return Err("the original answered other reads".into());
        }
        let written = |bytes: &[u8]| bytes.iter().any(|&byte| byte != LEFT_ALONE);
        let answers = reads.into_iter().map(|original::Read { mut bytes, filled, .. }| {
            let Some(filled) = filled else {
                return Ok(Read::Refused { written: written(&bytes) });
            };
            match bytes.get(filled as usize..) {
                Some(rest) if !written(rest) => {}
                _ => return Err("the original wrote more than it filled".into()),
            }
            bytes.truncate(filled as usize);
            Ok(Read::Filled(bytes))
        });
        answers.collect()
    }
}

/// What the driver has in a buffer before a read.
const LEFT_ALONE: u8 = 0xEE;

/// Holds our queries and reads of all windows against the answer.
pub fn hold(held: &mut Held, answer: &Answer, spoilt: Option<Spoilt>) -> Result<Answered, String> {
    let asked = held.asked;
    let (mut queries, reads) = (asked.answered_queries(answer)?, asked.answered_reads(answer)?);
    let positions = queries.split_off(asked.queries.len());
    for (&window, positions) in asked.queries.iter().zip(&queries) {
        held.query(window, positions);
    }
    let mut filled = Vec::new();
    for ((&window, positions), answer) in asked.reads.iter().zip(&positions).zip(reads) {
        held.query(window, positions);
        let spoilt = spoilt.filter(|spoilt| positions.contains(&(spoilt.position as usize)));
        match (answer, spoilt) {
            (answer, Some(spoilt)) => held.spoilt(window, positions, spoilt, &answer),
            (Read::Filled(bytes), None) => {
                held.read(window, positions, &bytes);
                filled.push(bytes);
            }
            (Read::Refused { .. }, None) => return Err(format!("the original refused: {}", window.told())),
        }
    }
    Ok(Answered { positions, filled })
}

/// A case that asks for windows.
pub trait Asks: Clone + PartialEq {
    fn asked(&self) -> &Asked;
    fn asked_mut(&mut self) -> &mut Asked;
}

/// One of the two lists of windows.
#[derive(Clone, Copy)]
enum List {
    Reads,
    Queries,
}

const LISTS: [List; 2] = [List::Reads, List::Queries];

impl List {
    fn of<C: Asks>(self, case: &C) -> &Vec<Window> {
        match self {
            List::Reads => &case.asked().reads,
            List::Queries => &case.asked().queries,
        }
    }

    fn of_mut<C: Asks>(self, case: &mut C) -> &mut Vec<Window> {
        match self {
            List::Reads => &mut case.asked_mut().reads,
            List::Queries => &mut case.asked_mut().queries,
        }
    }
}

/// Fewer windows.
pub fn simplify_lists<C: Asks>(case: &mut C, fails: Fails<'_, C>) -> Result<(), Halt> {
    for list in LISTS {
        keep(case, fails, |case| list.of_mut(case).clear())?;
    }
    for list in LISTS {
        let without = |case: &C, gone: Range<usize>| {
            let mut simpler = case.clone();
            list.of_mut(&mut simpler).drain(gone);
            Some(simpler)
        };
        simplify_list(case, |case| list.of(case).len(), without, fails)?;
    }
    keep(case, fails, |case| case.asked_mut().choices = 0)?;
    Ok(())
}

/// Shorter windows, nearer to the file's first byte.
pub fn simplify_windows<C: Asks>(case: &mut C, fails: Fails<'_, C>) -> Result<(), Halt> {
    for list in LISTS {
        for number in 0..list.of(case).len() {
            let Window { length, .. } = list.of(case)[number];
            smaller(case, fails, length, 0, |case, length| list.of_mut(case)[number].length = length)?;
            // From the front.
            let Window { offset, length } = list.of(case)[number];
            smaller(case, fails, length, 0, |case, now| {
                list.of_mut(case)[number] = Window { offset: offset.saturating_add(length - now), length: now };
            })?;
            let Window { offset, .. } = list.of(case)[number];
            smaller(case, fails, offset, 0, |case, offset| list.of_mut(case)[number].offset = offset)?;
        }
    }
    Ok(())
}
