//! The answers that cases are held against: the original's, or none where a subject has the original's function in itself.

use std::path::Path;

use crate::original::{Answer, Original};
use crate::subject::Subject;

pub enum Answers {
    Asked(Original),
    None,
}

impl Answers {
    pub fn start<S: Subject>(program: &Path) -> Result<Answers, String> {
        Ok(if S::ASKED { Answers::Asked(Original::start(program)?) } else { Answers::None })
    }

    /// The answer to one case.
    pub fn ask(&mut self, name: &str, lines: &str) -> Result<Answer, String> {
        match self {
            Answers::Asked(original) => original.ask(name, lines),
            Answers::None => Ok(Answer::default()),
        }
    }

    /// Hands each case, given with its lines, with its number and answer to `take`.
    pub fn ask_all<C: Send>(
        &mut self,
        cases: impl Iterator<Item = (C, String)> + Send,
        mut take: impl FnMut(u64, C, Answer) -> Result<(), String>,
    ) -> Result<(), String> {
        match self {
            Answers::Asked(original) => original.ask_all(cases, take),
            Answers::None => (0..).zip(cases).try_for_each(|(number, (case, _))| take(number, case, Answer::default())),
        }
    }
}
