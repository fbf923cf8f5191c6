//! Builds: what stands before and after the sound of a whole file, and how long the sound is, with a few reads of the file;
//! or the refusal.

pub mod counts;
pub mod draw;
mod figures;
pub mod fixed;
pub mod limits;
mod rooms;

use library::checks::Verdict;

use self::counts::Counts;
use self::figures::Figures;
use crate::checks::{self, border, Checks, Inputs, Wanted};
use crate::markers::{self, Markers};
use crate::original::Answer;
use crate::random::Random;
use crate::reads::asked::{self, simplify_lists, simplify_windows, Asked, Asks};
use crate::reads::draw::draw_few;
use crate::reads::hold::Held;
use crate::reads::{self, refused};
use crate::subject::{keep, Disagreement, Fails, Halt, Subject};

pub struct Builds;

/// The inputs of a build, at fault or not, and windows of its file.
#[derive(Clone, PartialEq)]
pub struct Case {
    pub build: checks::Case,
    /// Document 01's figures, of a case that has some.
    figures: Option<Figures>,
    /// Decides the bytes of the frames.
    seed: u32,
    /// What our library makes of the build, if anything is asked of it and it is accepted.
    pub ours: Option<reads::file::File>,
    pub asked: Asked,
}

impl Case {
    /// A case without windows.
    pub fn of(build: checks::Case) -> Case {
        Case { build, figures: None, seed: 0, ours: None, asked: Asked::default() }
    }

    /// The case with a few windows, if our library accepts the build.
    pub fn with_windows(mut self, random: &mut Random) -> Case {
        self.seed = random.between(0, 255);
        self.ours = reads::file::File::of(&self.build, self.seed, &[]).ok();
        if let Some(file) = &self.ours {
            self.asked = draw_few(random, file);
        }
        self
    }

    /// The case with its file made again, after its build or its seed was changed.
    fn built_anew(self) -> Case {
        let ours = match self.asked.any() {
            true => reads::file::File::of(&self.build, self.seed, &[]).ok(),
            false => None,
        };
        let asked = match (&self.ours, &ours) {
            (Some(before), Some(now)) => self.asked.moved(before, now),
            _ => self.asked,
        };
        Case { ours, asked, ..self }
    }

    /// Makes the calls beside the case's own.
    fn hold_besides(&self, inputs: &Inputs, outcome: &Outcome, held: &mut rooms::Held, counts: &mut Counts) {
        let wanted = match outcome {
            Outcome::Built(_) => Verdict::default(),
            Outcome::Refused(verdict) => *verdict,
        };
        let random = &mut Random::of_case(self.build.beside, 3);
        let before = held.found.len();
        for beside in border::calls(&self.build, inputs, Some(wanted)) {
            counts.checks.beside.count(&beside, self.build.fixed.is_some());
            held.hold_beside(&beside, inputs, random);
            // One tells enough.
            if held.found.len() > before {
                break;
            }
        }
    }

    /// Holds the reads of the file that was built on both sides.
    fn hold_windows(
        &self,
        built: &File,
        answer: &Answer,
        counts: &mut reads::counts::Counts,
    ) -> Result<Vec<Disagreement>, String> {
        let Some(file) = &self.ours else {
            return Ok(Vec::new());
        };
        if let Some(differs) = file.differs(&built.header, built.sound, &built.trailer) {
            return Ok(vec![differs]);
        }
        let mut held = Held::of(&self.asked, file, self.build.fixed.is_some(), counts);
        let answered = asked::hold(&mut held, answer, None)?;
        refused::hold_few(&mut held, &answered);
        Ok(held.found)
    }
}

impl Asks for Case {
    fn asked(&self) -> &Asked {
        &self.asked
    }

    fn asked_mut(&mut self) -> &mut Asked {
        &mut self.asked
    }
}

/// What the original built.
pub struct File {
    pub header: Vec<u8>,
    pub sound: u64,
    pub trailer: Vec<u8>,
}

impl File {
    fn of(answer: &Answer) -> Result<File, String> {
        let file = File { header: answer.header()?, sound: answer.sound()?, trailer: answer.trailer()? };
        if file.size() != answer.size()? {
            return Err("the original's file is not as long as its parts".into());
        }
        Ok(file)
    }

    fn size(&self) -> u64 {
        self.header.len() as u64 + self.sound + self.trailer.len() as u64
    }
}

/// What is wanted of us.
pub enum Outcome {
    Built(File),
    Refused(Verdict),
}

/// What is wanted, and the original's verdict.
pub fn wanted(case: &checks::Case, answer: &Answer) -> Result<(Outcome, Verdict), String> {
    let [number, detail] = answer.refusal()?;
    let original = Verdict { number, detail };
    match checks::wanted(case, original) {
        Wanted::Only(verdict) if verdict == Verdict::default() => Ok((Outcome::Built(File::of(answer)?), original)),
        Wanted::Only(verdict) => Ok((Outcome::Refused(verdict), original)),
        Wanted::After(_) => Err("the original was told something else".into()),
    }
}

/// Compares a build, and where it is accepted and no edited master, its PROP and DIIN by themselves too. Answers what was
/// wanted of it as well.
pub fn compare_with_parts(
    case: &Case,
    answer: &Answer,
    counts: &mut Counts,
    of_parts: &mut markers::counts::Counts,
) -> Result<(Vec<Disagreement>, Outcome), String> {
    let mut found = Builds::compare(case, answer, counts)?;
    let (outcome, _) = wanted(&case.build, answer)?;
    // An edited master has other options than it is given.
    if found.is_empty() && matches!(outcome, Outcome::Built(_)) && !case.build.edited_master {
        found = Markers::compare(&case.build.of, answer, of_parts)?;
    }
    Ok((found, outcome))
}

impl Subject for Builds {
    const NAME: &'static str = "builds";
    type Case = Case;
    type Counts = Counts;

    fn fixed() -> Vec<Case> {
        fixed::fixed()
    }

    fn draw(random: &mut Random) -> Case {
        draw::draw(random, true)
    }

    fn for_original(case: &Case) -> String {
        let lines = Checks::for_original(&case.build);
        match case.asked.any() {
            true => format!("{lines}seed {}\n{}", case.seed, case.asked.lines()),
            false => lines,
        }
    }

    fn for_us(case: &Case) -> String {
        let lines = Checks::for_us(&case.build);
        match case.asked.any() {
            true => format!("{lines}\nseed {}, {}", case.seed, case.asked.told().join("\n")),
            false => lines,
        }
    }

    fn compare(case: &Case, answer: &Answer, counts: &mut Counts) -> Result<Vec<Disagreement>, String> {
        let (outcome, original) = wanted(&case.build, answer)?;
        let inputs = case.build.inputs();
        let mut held = rooms::hold(&inputs, &outcome, case.build.of.buffers);
        held.found.extend(case.build.made_for(held.ours, original));
        if let (Some(figures), Outcome::Built(file)) = (&case.figures, &outcome) {
            held.found.extend(figures.differ(file)?);
        }
        counts.count(case, &outcome, &held, original)?;
        case.hold_besides(&inputs, &outcome, &mut held, counts);
        if let (Outcome::Built(file), true) = (&outcome, held.found.is_empty()) {
            held.found.extend(case.hold_windows(file, answer, &mut counts.reads)?);
        }
        Ok(held.found)
    }

    fn simplify(case: &mut Case, fails: Fails<'_, Case>) -> Result<(), Halt> {
        // Figures are of this very case.
        if case.figures.is_some() {
            let without = Case { figures: None, ..case.clone() };
            if !fails(&without)? {
                return Ok(());
            }
            *case = without;
        }
        simplify_lists(case, fails)?;
        keep(case, fails, |case| *case = Case { seed: 0, ..case.clone() }.built_anew())?;
        let mut build = case.build.clone();
        let done = checks::simplify::simplify(&mut build, &mut |build| {
            let simpler = Case { build: build.clone(), ..case.clone() };
            fails(&simpler.built_anew())
        });
        *case = Case { build, ..case.clone() }.built_anew();
        done?;
        simplify_windows(case, fails)
    }
}
