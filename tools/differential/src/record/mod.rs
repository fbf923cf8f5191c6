//! Writes builds, queries and reads with the original's answers to a file, for the program `vectors`, which answers them
//! again. Where the original has no such refusal, the answer is document 01's, and is marked so.

mod build;
mod chosen;
mod file;
mod limits;
mod pack;

use std::collections::{BTreeMap, BTreeSet};
use std::fs;
use std::path::Path;

use self::file::{Asked, Told};
use crate::builds::fixed::{of_checks, own};
use crate::builds::limits::{limits, NAME as LIMITS};
use crate::builds::{self, wanted, Builds, Outcome};
use crate::checks::fixed::{Fixed, Part};
use crate::checks::{self, border};
use crate::notes::fixed::longest;
use crate::original::{Answer, Original};
use crate::random::Random;
use crate::reads::file::File;
use crate::reads::{self, Read, Reads, Windows};
use crate::subject::Subject;

/// A record has fewer bytes.
const MOST_BYTES: usize = 65_536;

/// A drawn build that takes more bytes in the file is left out.
const MOST_DRAWN: usize = 500;

/// So many drawn builds are recorded of each refusal.
const OF_EACH: u64 = 12;

/// Of so many drawn builds the windows are recorded too.
const FILES: u64 = 260;

/// Of these names only so many cases are recorded.
const FEW: [(&str, u64); 2] = [("these five, other switches of DST", 60), ("PROP in any order", 60)];

/// So many windows are recorded of a fixed file.
const WINDOWS: usize = 40;

#[derive(Default)]
struct Recorder {
    /// Which drawn builds are recorded: these, or, if none are given, so many that are short and accepted, and a few of
    /// each refusal.
    given: bool,
    count: u64,
    /// Those that are recorded.
    taken: Vec<u64>,
    records: Vec<Vec<u8>>,
    /// Builds, and windows of files, by what they are for.
    builds: BTreeMap<String, u64>,
    windows: BTreeMap<String, u64>,
    /// Fixed builds and files that the program has no room for, and drawn builds that take too many bytes.
    too_large: u64,
    too_long: u64,
    /// The pairs of refusals that are there.
    pairs: BTreeSet<(u32, u32)>,
}

impl Recorder {
    fn push(&mut self, record: Vec<u8>) -> Result<(), String> {
        if record.len() >= MOST_BYTES {
            return Err(format!("a record of {} bytes", record.len()));
        }
        self.records.push(record);
        Ok(())
    }

    /// What a build is recorded as, and how many of the like there can be.
    fn name(&mut self, fixed: Option<Fixed>, number: u32) -> Option<(String, u64)> {
        Some(match fixed.map(|fixed| fixed.part) {
            Some(Part::Named(name)) => {
                let few = FEW.iter().find(|(other, _)| *other == name);
                (name.to_owned(), few.map_or(u64::MAX, |&(_, few)| few))
            }
            Some(Part::Limit) => (LIMITS.to_owned(), u64::MAX),
            // One of each.
            Some(Part::Pair(a, b)) if self.pairs.insert((a, b)) => ("two refusals".to_owned(), u64::MAX),
            Some(Part::Turned(..) | Part::Same(..)) => ("two refusals, by element".to_owned(), u64::MAX),
            Some(Part::AtOnce(_)) => ("many refusals".to_owned(), u64::MAX),
            Some(Part::Pair(..) | Part::Left(..) | Part::Border { .. }) => return None,
            None if number == 0 => ("drawn, accepted".to_owned(), if self.given { u64::MAX } else { self.count }),
            None => (format!("drawn, refused {number:>2}"), if self.given { u64::MAX } else { OF_EACH }),
        })
    }

    /// A fixed build, or the drawn one of this number.
    fn take_build(&mut self, drawn: Option<u64>, case: &builds::Case, answer: &Answer) -> Result<(), String> {
        self.take_border(&case.build)?;
        let (outcome, original) = wanted(&case.build, answer)?;
        let (number, alone) = match &outcome {
            Outcome::Built(_) => (0, false),
            Outcome::Refused(verdict) => (verdict.number, *verdict != original),
        };
        let Some((name, most)) = self.name(case.build.fixed, number) else {
            return Ok(());
        };
        let so_far = self.builds.get(&name).copied().unwrap_or(0);
        if so_far >= most {
            return Ok(());
        }
        match build::record(&case.build.inputs(), &outcome, alone) {
            Some(record) if drawn.is_none() || self.given || record.len() <= MOST_DRAWN => self.push(record)?,
            _ if drawn.is_some() => {
                self.too_long += 1;
                return Ok(());
            }
            _ => {
                self.too_large += 1;
                return Ok(());
            }
        }
        self.taken.extend(drawn);
        *self.builds.entry(name).or_default() += 1;
        match (&case.ours, &outcome) {
            (Some(file), Outcome::Built(_)) if drawn.is_some() && so_far < FILES => {
                self.take_windows("of drawn builds", file, &case.asked, answer, None).map(drop)
            }
            _ => Ok(()),
        }
    }

    /// Of the border's plain case, the calls with one fault. They are by document 01's numbers alone.
    fn take_border(&mut self, case: &checks::Case) -> Result<(), String> {
        let inputs = case.inputs();
        for call in border::with_one_fault(case, &inputs) {
            let record = build::record(&call.inputs(&inputs), &Outcome::Refused(call.wanted), true);
            self.push(record.ok_or("a long call at the border")?)?;
            *self.builds.entry(format!("at the border, {}", call.name())).or_default() += 1;
        }
        Ok(())
    }

    /// Records the windows of a file, and answers what was told of it, with the windows.
    fn take_windows(
        &mut self,
        name: &str,
        file: &File,
        asked: &reads::asked::Asked,
        answer: &Answer,
        spoilt: Option<reads::Spoilt>,
    ) -> Result<(Told, Vec<Asked>), String> {
        let told = Told::of(file);
        let positions = asked.answered_queries(answer)?;
        let (queried, read) = positions.split_at(asked.queries.len());
        let mut windows = Vec::new();
        for ((&window, positions), answer) in asked.reads.iter().zip(read).zip(asked.answered_reads(answer)?) {
            let spoilt = spoilt.filter(|spoilt| positions.contains(&(spoilt.position as usize)));
            windows.push(match (answer, spoilt) {
                (answer, Some(spoilt)) => Asked::spoilt(&told, window, positions, spoilt, &answer),
                (Read::Filled(bytes), None) => Asked::of(&told, window, positions, bytes),
                (Read::Refused { .. }, None) => return Err("the original refused a read".into()),
            });
        }
        self.add_windows(name, &told, &windows)?;
        let queries = asked.queries.iter().zip(queried);
        let queries = queries.map(|(&window, positions)| Asked::of(&told, window, positions, Vec::new()));
        let without = Told { sides: None, ..told.clone() };
        self.add_windows("queries alone", &without, &queries.collect::<Vec<_>>())?;
        Ok((told, windows))
    }

    fn add_windows(&mut self, name: &str, told: &Told, windows: &[Asked]) -> Result<(), String> {
        let Some((record, count)) = file::record(told, windows) else {
            self.too_large += u64::from(!windows.is_empty());
            return Ok(());
        };
        *self.windows.entry(name.to_owned()).or_default() += count;
        self.push(record)
    }

    /// A fixed file, and what is by document 01 alone of it.
    fn take_file(&mut self, case: &reads::Case, answer: &Answer) -> Result<(), String> {
        let Ok(file) = &case.built else {
            return Err("a fixed file is refused".into());
        };
        if !Told::of(file).fits() {
            self.too_large += 1;
            return Ok(());
        }
        let name = match (case.spoilt, case.fixed) {
            (Some(_), _) => "of which a position is spoilt",
            (None, Some(Windows::All)) => "of small files",
            (None, Some(Windows::Boundaries)) => "of DSD files",
            (None, _) => "of long files",
        };
        let (told, windows) = self.take_windows(name, file, &case.asked, answer, case.spoilt)?;
        let sound = told.header..file.sound_end();
        let inside = windows.iter().find(|asked| {
            !asked.positions.is_empty() && sound.contains(&asked.window.offset) && asked.window.end() <= sound.end
        });
        let (Some(inside), None) = (inside, case.spoilt) else {
            return Ok(());
        };
        self.add_windows("wrongly lent", &told, &limits::wrongly_lent(inside))?;
        for (told, windows) in limits::told_otherwise(&told, inside) {
            self.add_windows("at the limits of 42", &told, &windows)?;
        }
        Ok(())
    }

    fn report(&self, bytes: usize) {
        let builds: u64 = self.builds.values().sum();
        let windows: u64 = self.windows.values().sum();
        println!("{} records in {bytes} bytes", self.records.len());
        println!("left out: {} fixed ones that are too large, {} drawn ones", self.too_large, self.too_long);
        for (title, total, by_name) in [("builds", builds, &self.builds), ("windows", windows, &self.windows)] {
            println!("{title:47}{total:>6}");
            for (name, count) in by_name {
                println!("  {name:45}{count:>6}");
            }
        }
    }
}

/// A fixed file of which some windows are asked.
fn with_few_windows(mut case: reads::Case, random: &mut Random) -> reads::Case {
    let all = &case.asked.reads;
    let few = (0..WINDOWS).map(|_| random.pick(all)).collect();
    case.asked.reads = few;
    case
}

/// What is recorded, and where.
pub struct Task<'a> {
    pub seed: u64,
    /// How many accepted builds are chosen.
    pub count: u64,
    /// The drawn builds that are recorded instead: a list that was made before.
    pub cases: Option<&'a Path>,
    pub file: &'a Path,
    /// Where the list of the chosen ones is written.
    pub chosen: &'a Path,
}

/// Records the fixed builds, drawn ones, and windows of files.
pub fn record(program: &Path, task: &Task<'_>) -> Result<(), String> {
    let &Task { seed, count, cases, file, chosen } = task;
    let mut original = Original::start(program)?;
    let given = cases.map(|cases| chosen::read(cases, seed)).transpose()?;
    let mut recorder = Recorder { given: given.is_some(), count, ..Recorder::default() };
    // Enough, as about one in two of the drawn is small and accepted.
    let numbers = given.unwrap_or_else(|| (0..4 * count).collect());
    let fixed = own().into_iter().chain(limits()).chain(of_checks()).chain(longest()).map(|case| (None, case));
    let drawn = numbers.into_iter().map(|number| {
        let case = builds::draw::draw(&mut Random::of_case(seed, number), false);
        (Some(number), case)
    });
    let cases = fixed.chain(drawn).map(|(number, case)| {
        let lines = Builds::for_original(&case);
        ((number, case), lines)
    });
    original.ask_all(cases, |_, (number, case), answer| recorder.take_build(number, &case, &answer))?;
    if !recorder.given {
        chosen::write(chosen, seed, &recorder.taken)?;
    }
    let files = (0..).zip(Reads::fixed()).map(|(number, case)| {
        let case = with_few_windows(case, &mut Random::of_case(seed, number));
        let lines = Reads::for_original(&case);
        (case, lines)
    });
    original.ask_all(files, |_, case, answer| recorder.take_file(&case, &answer))?;

    let mut bytes = Vec::new();
    pack::number(&mut bytes, recorder.records.len() as u64);
    bytes.extend(recorder.records.concat());
    fs::write(file, &bytes).map_err(|e| format!("{}: {e}", file.display()))?;
    recorder.report(bytes.len());
    Ok(())
}
