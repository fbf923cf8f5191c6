//! Holds this repository's compiled functions against the original, over random cases from a seed. README.md says what
//! is compared.

#![forbid(unsafe_code)]

mod answers;
mod buffer;
mod builds;
mod calls;
mod checks;
mod chunks;
mod crc;
mod lines;
mod markers;
mod notes;
mod original;
mod progress;
mod random;
mod reads;
mod record;
mod saved;
mod sound;
mod subject;
mod text;
mod tracks;

use std::env;
use std::path::{Path, PathBuf};
use std::process::ExitCode;

use self::saved::Saved;
use self::subject::{Failing, Task};

const USAGE: &str = "usage: differential [--seed N] [--count N] [--subject NAME [--failing FILE]] [--folder DIR] \
                     [--record FILE [--cases FILE]] [--replay FILE] PROGRAM";

struct Arguments {
    seed: u64,
    /// Each subject's own if it is not given.
    count: Option<u64>,
    /// All if none is named.
    subject: Option<String>,
    /// Nothing is compared then.
    record: Option<PathBuf>,
    /// The list of the drawn builds that are recorded.
    cases: Option<PathBuf>,
    /// A saved case, which alone is compared.
    replay: Option<PathBuf>,
    /// Where the subject's smallest failing case is saved, if not in a file of that folder.
    failing: Option<PathBuf>,
    folder: PathBuf,
    program: PathBuf,
}

/// Compares cases of a subject, and answers whether all agreed.
type Run = fn(&Path, &Task) -> Result<bool, String>;

/// How many cases there are, unless the arguments say.
const COUNT: u64 = 20_000;

/// The subjects, each with that number.
const SUBJECTS: [(&str, Run, u64); 9] = [
    ("text", subject::run::<text::Text>, COUNT),
    ("markers", subject::run::<markers::Markers>, COUNT),
    ("sound", subject::run::<sound::Sound>, COUNT),
    ("crc", subject::run::<crc::Crc>, COUNT),
    ("checks", subject::run::<checks::Checks>, COUNT),
    ("builds", subject::run::<builds::Builds>, COUNT),
    // A case has up to 65,536 tracks.
    ("tracks", subject::run::<tracks::Tracks>, 500),
    // A case has texts of up to 1,048,576 values.
    ("notes", subject::run::<notes::Notes>, 250),
    // A case has a thousand reads and more.
    ("reads", subject::run::<reads::Reads>, 1_000),
];

fn arguments() -> Option<Arguments> {
    let (mut seed, mut count, mut program) = (20_240_611, None, None);
    let (mut subject, mut record, mut cases) = (None, None, None);
    let (mut replay, mut failing, mut folder) = (None, None, PathBuf::new());
    let mut words = env::args().skip(1);
    while let Some(word) = words.next() {
        match word.as_str() {
            "--seed" => seed = words.next()?.parse().ok()?,
            "--count" => count = Some(words.next()?.parse().ok()?),
            "--subject" => {
                let name = words.next()?;
                SUBJECTS.iter().find(|(other, ..)| *other == name)?;
                subject = Some(name);
            }
            "--record" => record = Some(words.next()?.into()),
            "--cases" => cases = Some(words.next()?.into()),
            "--replay" => replay = Some(words.next()?.into()),
            "--failing" => failing = Some(words.next()?.into()),
            "--folder" => folder = words.next()?.into(),
            _ if program.is_none() && !word.starts_with("--") => program = Some(word.into()),
            _ => return None,
        }
    }
    // The file is of one subject, the list is of records.
    if failing.is_some() && subject.is_none() || cases.is_some() && record.is_none() {
        return None;
    }
    let program = program?;
    Some(Arguments { seed, count, subject, record, cases, replay, failing, folder, program })
}

fn main() -> ExitCode {
    let Some(arguments) = arguments() else {
        eprintln!("{USAGE}");
        return ExitCode::from(2);
    };
    match run(&arguments) {
        Ok(agreed) => ExitCode::from(u8::from(!agreed)),
        Err(message) => {
            eprintln!("differential: {message}");
            ExitCode::from(2)
        }
    }
}

/// True if all agreed, or if nothing was to be compared.
fn run(arguments: &Arguments) -> Result<bool, String> {
    let Arguments { seed, count, subject, record, cases, replay, failing, folder, program } = arguments;
    if let Some(file) = replay {
        let saved = Saved::read(file)?;
        let found = SUBJECTS.iter().find(|(name, ..)| *name == saved.subject);
        let (_, run, _) = found.ok_or_else(|| format!("no subject {}", saved.subject))?;
        return run(program, &Task::Again(&saved));
    }
    if let Some(file) = record {
        let (count, cases) = (count.unwrap_or(COUNT), cases.as_deref());
        let chosen = folder.join("chosen.txt");
        record::record(program, &record::Task { seed: *seed, count, cases, file, chosen: &chosen })?;
        return Ok(true);
    }
    let mut agreed = true;
    for (name, run, usual) in SUBJECTS {
        if subject.as_deref().is_none_or(|subject| subject == name) {
            let file = failing.clone().unwrap_or_else(|| folder.join(format!("smallest-{name}.txt")));
            let failing = Failing { subject: name, file: &file };
            agreed &= run(program, &Task::All { seed: *seed, count: count.unwrap_or(usual), failing })?;
        }
    }
    Ok(agreed)
}

/// Bytes as hexadecimal digits, `.` if there are none.
fn hex(bytes: &[u8]) -> String {
    if bytes.is_empty() {
        return ".".into();
    }
    let digits = bytes.iter().flat_map(|byte| [byte >> 4, byte & 0xF]);
    digits.map(|digit| char::from(b"0123456789abcdef"[usize::from(digit)])).collect()
}

/// The same in the original's case language, where a long run of one byte is short.
fn short_hex(bytes: &[u8]) -> String {
    if is_long_run(bytes) {
        return format!("{:02x}*{}", bytes[0], bytes.len());
    }
    hex(bytes)
}

/// Whether it is one element again and again.
fn is_long_run<T: PartialEq>(list: &[T]) -> bool {
    list.len() > 100 && list.iter().all(|element| *element == list[0])
}
