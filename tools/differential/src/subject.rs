//! A subject of comparison, and what is the same for all of them: running, reporting, shrinking, comparing again.

use std::collections::BTreeMap;
use std::fmt::Display;
use std::ops::Range;
use std::path::Path;

use crate::answers::Answers;
use crate::original::Answer;
use crate::progress::Progress;
use crate::random::Random;
use crate::saved::{Number, Saved, Text};

pub trait Subject {
    const NAME: &'static str;
    /// Whether the original's process is asked. If not, the subject has the original's function in itself, and no lines for
    /// the process.
    const ASKED: bool = true;
    type Case: Clone + PartialEq + Send;
    /// What the cases met, printed at the end.
    type Counts: Default + Display;

    /// Cases that are tried in every run, before those that are drawn.
    fn fixed() -> Vec<Self::Case> {
        Vec::new()
    }

    fn draw(random: &mut Random) -> Self::Case;

    /// The case's lines in the original's case language.
    fn for_original(case: &Self::Case) -> String;

    /// The case as our functions are given it, for a reader.
    fn for_us(case: &Self::Case) -> String;

    /// Runs our functions and holds them against the original's answer. An error says why the two could not be compared.
    fn compare(case: &Self::Case, answer: &Answer, counts: &mut Self::Counts) -> Result<Vec<Disagreement>, String>;

    /// Goes once through the simpler forms of a failing case, keeping each that still fails.
    fn simplify(case: &mut Self::Case, fails: Fails<'_, Self::Case>) -> Result<(), Halt>;
}

/// What disagrees, and a line for each side.
pub struct Disagreement {
    pub what: String,
    pub expected: String,
    pub ours: String,
}

/// Asks whether a case fails too.
pub type Fails<'a, C> = &'a mut dyn FnMut(&C) -> Result<bool, Halt>;

/// Why shrinking cannot go on.
pub enum Halt {
    /// Enough was tried.
    Enough,
    Error(String),
}

/// Enough is tried when the cases asked and their answers have this many bytes of text.
const ENOUGH_BYTES: usize = 1 << 28;

// How much of a case is printed.
const SHOWN_LINES: usize = 100;
const SHOWN_CHARACTERS: usize = 2_000;

/// What is to be done with a subject's cases.
pub enum Task<'a> {
    /// Compare the fixed ones and the first `count` of the seed, and save the smallest that fails.
    All { seed: u64, count: u64, failing: Failing<'a> },
    /// Compare a saved one again.
    Again(&'a Saved),
}

/// Where a failing case is saved, and what the subject is called there.
#[derive(Clone, Copy)]
pub struct Failing<'a> {
    pub subject: &'a str,
    pub file: &'a Path,
}

/// Does it, and prints what came out. True if all agreed.
pub fn run<S: Subject>(program: &Path, task: &Task) -> Result<bool, String> {
    match *task {
        Task::All { seed, count, failing } => all::<S>(program, seed, count, failing),
        Task::Again(saved) => again::<S>(program, saved),
    }
}

/// A failing case.
struct Failure<C> {
    number: Number,
    size: usize,
    case: C,
}

fn text<S: Subject>(case: &S::Case) -> Text {
    Text { for_original: S::for_original(case), for_us: S::for_us(case) }
}

fn all<S: Subject>(program: &Path, seed: u64, count: u64, failing: Failing<'_>) -> Result<bool, String> {
    let mut answers = Answers::start::<S>(program)?;
    let mut counts = S::Counts::default();
    let mut by_kind = BTreeMap::<String, u64>::new();
    let (mut same, mut failed) = (0u64, 0u64);
    let mut smallest: Option<Failure<S::Case>> = None;
    let mut progress = Progress::new(S::NAME);

    let fixed = S::fixed();
    let fixed_count = fixed.len() as u64;
    let name = |number: u64| number.checked_sub(fixed_count).map_or(Number::Fixed(number), Number::Drawn);
    let drawn = (0..count).map(|number| S::draw(&mut Random::of_case(seed, number)));
    let cases = fixed.into_iter().chain(drawn).map(|case| {
        let lines = S::for_original(&case);
        (case, lines)
    });
    answers.ask_all(cases, |number, case, answer| {
        progress.tell(|| format!("{} of {} cases, {failed} disagree", same + failed, fixed_count + count));
        let number = name(number);
        let found = S::compare(&case, &answer, &mut counts)
            .map_err(|e| format!("{}, {number} of seed {seed}: {e}", S::NAME))?;
        if found.is_empty() {
            same += 1;
            return Ok(());
        }
        failed += 1;
        let text = text::<S>(&case);
        let size = text.for_original.len() + text.for_us.len();
        if smallest.as_ref().is_none_or(|smallest| size < smallest.size) {
            failing.save(seed, number, &[], &text, &found)?;
            smallest = Some(Failure { number, size, case });
        }
        for disagreement in found {
            *by_kind.entry(disagreement.what).or_default() += 1;
        }
        Ok(())
    })?;

    if same + failed != fixed_count + count {
        return Err(format!("{} of {} cases were compared", same + failed, fixed_count + count));
    }
    drop(progress);
    let fixed = if fixed_count > 0 { format!(" and {fixed_count} fixed ones") } else { String::new() };
    println!("{}: seed {seed}, {count} cases{fixed}, {same} the same\n", S::NAME);
    println!("{counts}");
    let Some(smallest) = smallest else {
        println!("no disagreement");
        return Ok(true);
    };
    println!("{failed} cases disagree; the disagreements, of which a case can have several:");
    for (what, times) in &by_kind {
        println!("  {times:>8}  {what}");
    }
    let Shrunk { number, case, kept, whole, found } = shrink::<S>(&mut answers, smallest)?;
    let text = text::<S>(&case);
    failing.save(seed, number, &kept, &text, &found)?;
    println!("\nthe smallest, from {number} in {} tries, saved in {}", kept.len(), failing.file.display());
    if !whole {
        println!("(given up: it may get smaller)");
    }
    print_case(&text, &found);
    Ok(false)
}

impl Failing<'_> {
    fn save(
        &self,
        seed: u64,
        number: Number,
        kept: &[bool],
        text: &Text,
        found: &[Disagreement],
    ) -> Result<(), String> {
        let (subject, checksum) = (self.subject.into(), text.checksum());
        Saved { subject, seed, number, kept: kept.to_vec(), checksum }.write(self.file, text, found)
    }
}

/// A failing case as small as it got.
struct Shrunk<C> {
    number: Number,
    case: C,
    /// The answers on the way.
    kept: Vec<bool>,
    /// Whether it was not given up.
    whole: bool,
    found: Vec<Disagreement>,
}

/// Makes a failing case as small as it gets.
fn shrink<S: Subject>(answers: &mut Answers, failure: Failure<S::Case>) -> Result<Shrunk<S::Case>, String> {
    let mut progress = Progress::new(S::NAME);
    let Failure { number, mut case, .. } = failure;
    let (mut kept, mut bytes) = (Vec::new(), 0);
    let whole = simplify::<S>(&mut case, &mut |simpler| {
        progress.tell(|| format!("a smaller case, {} tries", kept.len()));
        let lines = S::for_original(simpler);
        let answer = answers.ask("smallest", &lines).map_err(Halt::Error)?;
        bytes += if S::ASKED { lines.len() + answer.bytes() } else { S::for_us(simpler).len() };
        if bytes > ENOUGH_BYTES {
            return Err(Halt::Enough);
        }
        // One that cannot be compared is not kept.
        let found = S::compare(simpler, &answer, &mut S::Counts::default());
        let fails = found.is_ok_and(|found| !found.is_empty());
        kept.push(fails);
        Ok(fails)
    })?;
    let answer = answers.ask("smallest", &S::for_original(&case))?;
    let found = S::compare(&case, &answer, &mut S::Counts::default())?;
    Ok(Shrunk { number, case, kept, whole, found })
}

/// Goes through the simpler forms of a case until nothing changes. False if that was given up. What comes out goes by the
/// answers of `fails` alone.
fn simplify<S: Subject>(case: &mut S::Case, fails: Fails<'_, S::Case>) -> Result<bool, String> {
    loop {
        let before = case.clone();
        match S::simplify(case, fails) {
            Ok(()) if *case == before => return Ok(true),
            Ok(()) => {}
            Err(Halt::Enough) => return Ok(false),
            Err(Halt::Error(message)) => return Err(message),
        }
    }
}

/// Compares a saved case: draws it again, and makes it simpler by the answers that there were.
fn again<S: Subject>(program: &Path, saved: &Saved) -> Result<bool, String> {
    let Saved { seed, number, .. } = *saved;
    let mut case = match number {
        Number::Fixed(place) => {
            let case = S::fixed().into_iter().nth(place as usize);
            case.ok_or_else(|| format!("{} has no {number}", S::NAME))?
        }
        Number::Drawn(number) => S::draw(&mut Random::of_case(seed, number)),
    };
    let mut kept = saved.kept.iter().copied();
    simplify::<S>(&mut case, &mut |_| kept.next().ok_or(Halt::Enough))?;
    let text = text::<S>(&case);
    let same = text.checksum() == saved.checksum;

    let mut answers = Answers::start::<S>(program)?;
    let answer = answers.ask("smallest", &text.for_original)?;
    let found = S::compare(&case, &answer, &mut S::Counts::default())?;
    println!("{}: {number} of seed {seed}, made smaller in {} tries", S::NAME, saved.kept.len());
    if !same {
        println!("This is not the case that was saved: this tool, or what our library builds, has changed since.");
    }
    print_case(&text, &found);
    match (found.len(), same) {
        (0, false) => Err("another case than the one that was saved agrees".into()),
        (0, true) => {
            println!("\nall agree");
            Ok(true)
        }
        (number, _) => {
            println!("\ndisagreements: {number}");
            Ok(false)
        }
    }
}

/// Prints a case and what disagrees.
fn print_case(text: &Text, found: &[Disagreement]) {
    if !text.for_original.is_empty() {
        print_cut("for the original:", &text.case());
    }
    print_cut("for us:", &text.for_us);
    for Disagreement { what, expected, ours } in found {
        print_cut(what, &format!("{expected}\n{ours}"));
    }
}

/// Prints a title and lines below it, cut where they are too long to read.
fn print_cut(title: &str, text: &str) {
    println!("\n{title}");
    let mut lines = text.lines();
    for line in lines.by_ref().take(SHOWN_LINES) {
        match line.char_indices().nth(SHOWN_CHARACTERS) {
            None => println!("    {line}"),
            Some((end, _)) => println!("    {} .. ({} characters)", &line[..end], line.chars().count()),
        }
    }
    match lines.count() {
        0 => {}
        more => println!("    .. ({more} more lines)"),
    }
}

/// Takes out (or makes plain) stretches of a list in the case, long ones first, where the case still fails. `without`
/// gives the case without a stretch, `None` if that is no case or the same.
pub fn simplify_list<C>(
    case: &mut C,
    length: impl Fn(&C) -> usize,
    without: impl Fn(&C, Range<usize>) -> Option<C>,
    fails: Fails<'_, C>,
) -> Result<(), Halt> {
    let mut size = length(case).next_power_of_two();
    while size > 0 {
        let mut at = 0;
        while at < length(case) {
            let end = length(case).min(at + size);
            match without(case, at..end) {
                Some(simpler) if fails(&simpler)? => *case = simpler,
                _ => at = end,
            }
        }
        size /= 2;
    }
    Ok(())
}

/// Keeps a change if it changes anything and the case still fails; answers whether it did.
pub fn keep<C: Clone + PartialEq>(
    case: &mut C,
    fails: Fails<'_, C>,
    change: impl FnOnce(&mut C),
) -> Result<bool, Halt> {
    let mut simpler = case.clone();
    change(&mut simpler);
    let kept = simpler != *case && fails(&simpler)?;
    if kept {
        *case = simpler;
    }
    Ok(kept)
}

/// Makes a number of the case smaller while the case fails, in large steps first.
pub fn smaller<C: Clone + PartialEq>(
    case: &mut C,
    fails: Fails<'_, C>,
    mut now: u64,
    least: u64,
    set: impl Fn(&mut C, u64),
) -> Result<(), Halt> {
    let mut step = now - least;
    while step > 0 {
        if now - least >= step && keep(case, fails, |case| set(case, now - step))? {
            now -= step;
        } else {
            step /= 2;
        }
    }
    Ok(())
}
