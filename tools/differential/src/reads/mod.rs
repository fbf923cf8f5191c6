//! Reads of whole files, header, sound and trailer joined, and the positions that they need.

pub mod asked;
pub mod counts;
pub mod draw;
pub mod file;
mod fixed;
mod gather;
pub mod hold;
pub mod refused;
mod simplify;

use self::asked::{Asked, Asks};
use self::counts::Counts;
use self::file::File;
use self::hold::Held;
use crate::checks::{Case as Build, Checks};
use crate::original::Answer;
use crate::random::Random;
use crate::sound::file::Content;
use crate::subject::{Disagreement, Fails, Halt, Subject};

pub struct Reads;

/// A build, the bytes of its frames, and what is asked of the file.
#[derive(Clone, PartialEq)]
pub struct Case {
    build: Build,
    seed: u32,
    /// Positions whose content is not the rule's.
    contents: Vec<(u32, Content)>,
    /// What our library makes of the build, or the number of its refusal.
    pub built: Result<File, u64>,
    pub asked: Asked,
    /// A position of which both sides are lent something else.
    pub spoilt: Option<Spoilt>,
    /// Of a case of every run, which windows it has.
    pub fixed: Option<Windows>,
}

/// A position of which so many bytes are lent, of content or else of DST, as it should not be.
#[derive(Clone, Copy, Debug, PartialEq)]
pub struct Spoilt {
    pub position: u32,
    pub content: bool,
    pub bytes: usize,
}

/// What is lent of a spoilt position.
const SPOILT: u8 = 0x55;

/// A place of the file, and how many bytes from there on.
#[derive(Clone, Copy, Debug, PartialEq)]
pub struct Window {
    pub offset: u64,
    pub length: u64,
}

impl Window {
    /// One past the last byte.
    pub fn end(self) -> u64 {
        self.offset.saturating_add(self.length)
    }

    fn told(self) -> String {
        format!("from {}, {} bytes", self.offset, self.length)
    }
}

/// The windows of a fixed case.
#[derive(Clone, Copy, Debug, PartialEq)]
pub enum Windows {
    /// All that there are.
    All,
    /// Those from and to places beside boundaries.
    Boundaries,
    /// Some in a long file.
    Far,
}

impl Case {
    /// A case without windows.
    fn of(build: Build, seed: u32, contents: Vec<(u32, Content)>) -> Case {
        let built = File::of(&build, seed, &contents);
        Case { build, seed, contents, built, asked: Asked::default(), spoilt: None, fixed: None }
    }

    /// The case with its file made again, after its build, seed or contents were changed.
    fn built_anew(self) -> Case {
        let built = File::of(&self.build, self.seed, &self.contents);
        let asked = match (&self.built, &built) {
            (Ok(before), Ok(now)) => self.asked.moved(before, now),
            _ => self.asked,
        };
        Case { built, asked, ..self }
    }
}

impl Asks for Case {
    fn asked(&self) -> &Asked {
        &self.asked
    }

    fn asked_mut(&mut self) -> &mut Asked {
        &mut self.asked
    }
}

impl Subject for Reads {
    const NAME: &'static str = "reads";
    type Case = Case;
    type Counts = Counts;

    fn fixed() -> Vec<Case> {
        fixed::fixed()
    }

    fn draw(random: &mut Random) -> Case {
        draw::draw(random)
    }

    fn for_original(case: &Case) -> String {
        let mut lines = Checks::for_original(&case.build);
        lines += &format!("seed {}\n", case.seed);
        if let Ok(file) = &case.built {
            file.sound.content_lines().for_each(|line| lines += &format!("{line}\n"));
        }
        if let Some(Spoilt { position, content, bytes }) = case.spoilt {
            let word = if content { "content" } else { "dst" };
            let lent = if bytes > 0 { format!("{SPOILT:02x}*{bytes}") } else { ".".into() };
            lines += &format!("{word} {position} {lent}\n");
        }
        lines + &case.asked.lines()
    }

    fn for_us(case: &Case) -> String {
        let mut lines = vec![Checks::for_us(&case.build)];
        lines.extend(case.spoilt.map(|spoilt| format!("{spoilt:?}")));
        lines.extend(case.asked.told());
        lines.join("\n")
    }

    fn compare(case: &Case, answer: &Answer, counts: &mut Counts) -> Result<Vec<Disagreement>, String> {
        let [refusal, _] = answer.refusal()?;
        let file = match &case.built {
            Ok(file) if refusal == 0 => file,
            Err(number) if *number == refusal.into() => {
                counts.refused_build();
                return Ok(Vec::new());
            }
            built => {
                let ours = built.as_ref().err().copied().unwrap_or(0);
                let expected = format!("the original: {refusal} (0: built)");
                return Ok(vec![Disagreement { what: "build".into(), expected, ours: format!("ours: {ours}") }]);
            }
        };
        if let Some(differs) = file.differs(&answer.header()?, answer.sound()?, &answer.trailer()?) {
            return Ok(vec![differs]);
        }
        let mut held = Held::of(&case.asked, file, case.fixed.is_some(), counts);
        let answered = asked::hold(&mut held, answer, case.spoilt)?;
        if case.spoilt.is_none() {
            refused::hold(&mut held, &answered);
            let whole = case.asked.reads.iter().position(|&window| window == file.whole());
            if let Some(whole) = whole {
                gather::hold(&mut held, &answered.filled[whole]);
            }
        }
        held.counts.case(case, file);
        Ok(held.found)
    }

    fn simplify(case: &mut Case, fails: Fails<'_, Case>) -> Result<(), Halt> {
        simplify::simplify(case, fails)
    }
}

/// The original's answer to a read: what it filled, or that it refused, having written or not.
pub enum Read {
    Filled(Vec<u8>),
    Refused { written: bool },
}
