//! The original: a process that reads cases and answers each in turn.

use std::io::{self, BufRead, BufReader, Write};
use std::mem;
use std::ops::Range;
use std::panic;
use std::path::Path;
use std::process::{Child, ChildStdin, ChildStdout, Command, Stdio};
use std::sync::mpsc;
use std::thread;

/// A batch is sent when its text has this many bytes.
const BATCH_BYTES: usize = 1 << 16;

/// The answer to a case: its name, and the lines between `case NAME` and `end`.
#[derive(Default)]
pub struct Answer {
    name: String,
    lines: Vec<String>,
}

impl Answer {
    /// How long the answer is.
    pub fn bytes(&self) -> usize {
        self.lines.iter().map(String::len).sum()
    }

    /// The header of an accepted build.
    pub fn header(&self) -> Result<Vec<u8>, String> {
        let name = &self.name;
        match self.lines.first() {
            Some(line) if line.starts_with("accepted ") => {}
            line => return Err(format!("case {name} was not accepted: {line:?}")),
        }
        self.part("header", counted_hex)
    }

    /// The refusal's number and detail; 0 and 0 of an accepted build.
    pub fn refusal(&self) -> Result<[u32; 2], String> {
        let line = self.lines.first().map_or("", String::as_str);
        let mut words = line.split(' ');
        let mut word = || words.next().unwrap_or_default();
        let refusal = match word() {
            "accepted" => Some([0, 0]),
            "refused" => word().parse().ok().and_then(|number| Some([number, word().parse().ok()?])),
            _ => None,
        };
        refusal.ok_or_else(|| format!("case {} has no answer of this kind: {line:?}", self.name))
    }

    /// The length of the whole file of an accepted build.
    pub fn size(&self) -> Result<u64, String> {
        self.part("accepted", |words| words.parse().ok())
    }

    /// The length of the sound.
    pub fn sound(&self) -> Result<u64, String> {
        self.part("sound", |words| words.parse().ok())
    }

    /// What follows the sound.
    pub fn trailer(&self) -> Result<Vec<u8>, String> {
        self.part("trailer", counted_hex)
    }

    /// The answers to the queries, in order.
    pub fn queries(&self) -> Result<Vec<Query>, String> {
        self.parts("query", |words| {
            let [offset, length, first, end] = words.split(' ').collect::<Vec<_>>().try_into().ok()?;
            let positions = first.parse().ok()?..end.parse().ok()?;
            Some(Query { offset: offset.parse().ok()?, length: length.parse().ok()?, positions })
        })
    }

    /// The answers to the reads, in order.
    pub fn reads(&self) -> Result<Vec<Read>, String> {
        self.parts("read", |words| {
            let (offset, length, digits, filled) = match words.split(' ').collect::<Vec<_>>()[..] {
                [offset, length, digits, "filled", filled] => (offset, length, digits, Some(filled.parse().ok()?)),
                [offset, length, digits, "refused", "43", "0", ..] => (offset, length, digits, None),
                _ => return None,
            };
            let bytes = bytes(length, digits)?;
            Some(Read { offset: offset.parse().ok()?, bytes, filled })
        })
    }

    /// What the line of this key says.
    fn part<T>(&self, key: &str, read: impl Fn(&str) -> Option<T>) -> Result<T, String> {
        let part = self.parts(key, read)?.pop();
        part.ok_or_else(|| format!("the answer to case {} has no {key}", self.name))
    }

    /// What the lines of this key say.
    fn parts<T>(&self, key: &str, read: impl Fn(&str) -> Option<T>) -> Result<Vec<T>, String> {
        let lines = self.lines.iter().filter_map(|line| line.strip_prefix(key)?.strip_prefix(' '));
        let parts = lines.map(read).collect::<Option<Vec<T>>>();
        parts.ok_or_else(|| format!("the answer to case {} has no good {key}", self.name))
    }
}

/// The positions that a stretch of the file needs, 0 to 0 for none.
pub struct Query {
    pub offset: u64,
    pub length: u64,
    pub positions: Range<usize>,
}

/// A read of the file: its whole buffer, of which so many bytes are filled; `None` if it was refused.
pub struct Read {
    pub offset: u64,
    pub bytes: Vec<u8>,
    pub filled: Option<u64>,
}

/// The bytes of `LENGTH HEX`.
fn counted_hex(words: &str) -> Option<Vec<u8>> {
    let (length, digits) = words.split_once(' ')?;
    bytes(length, digits)
}

/// So many bytes, in hexadecimal digits.
fn bytes(length: &str, digits: &str) -> Option<Vec<u8>> {
    let digits = if digits == "." { "" } else { digits };
    let digit = |byte: u8| char::from(byte).to_digit(16).map(|digit| digit as u8);
    let bytes = digits
        .as_bytes()
        .chunks(2)
        .map(|pair| Some(digit(pair[0])? << 4 | digit(*pair.get(1)?)?))
        .collect::<Option<Vec<u8>>>()?;
    (length.parse() == Ok(bytes.len())).then_some(bytes)
}

pub struct Original {
    process: Child,
    input: ChildStdin,
    output: BufReader<ChildStdout>,
}

impl Original {
    pub fn start(program: &Path) -> Result<Original, String> {
        let mut process = Command::new(program)
            .stdin(Stdio::piped())
            .stdout(Stdio::piped())
            .spawn()
            .map_err(|e| format!("{}: {e}", program.display()))?;
        let (Some(input), Some(output)) = (process.stdin.take(), process.stdout.take()) else {
            return Err("the original has no pipes".into());
        };
        Ok(Original { process, input, output: BufReader::new(output) })
    }

    /// The answer to one case. The original reads a case to its end before it answers.
    pub fn ask(&mut self, name: &str, lines: &str) -> Result<Answer, String> {
        let written = self.input.write_all(case_text(name, lines).as_bytes());
        written.map_err(|e| format!("writing to the original: {e}"))?;
        read_answer(&mut self.output, name)
    }

    /// Asks cases, given with their lines, and hands each with its number and answer to `take`. One thread writes and
    /// this one reads. A batch is handed over before it is written: so this thread reads answers as long as any are
    /// due, and neither process waits for the other.
    pub fn ask_all<C: Send>(
        &mut self,
        cases: impl Iterator<Item = (C, String)> + Send,
        mut take: impl FnMut(u64, C, Answer) -> Result<(), String>,
    ) -> Result<(), String> {
        let Original { process, input, output } = self;
        let (sender, receiver) = mpsc::sync_channel(2);
        thread::scope(|scope| {
            let writer = scope.spawn(move || write_batches(cases, input, &sender));
            let mut taken = Ok(());
            for (number, case) in receiver.into_iter().flatten() {
                let answer = read_answer(output, &format!("{number}"));
                taken = answer.and_then(|answer| take(number, case, answer));
                if taken.is_err() {
                    break;
                }
            }
            if taken.is_err() {
                // So that the writer does not wait for a process that waits for this thread.
                let _ = process.kill();
            }
            match writer.join() {
                Ok(written) => taken.and(written.map_err(|e| format!("writing to the original: {e}"))),
                Err(cause) => panic::resume_unwind(cause),
            }
        })
    }
}

impl Drop for Original {
    fn drop(&mut self) {
        let _ = self.process.kill();
        let _ = self.process.wait();
    }
}

fn case_text(name: &str, lines: &str) -> String {
    format!("case {name}\n{lines}end\n")
}

/// Sends the numbered cases on in batches, and writes each batch's text. Ends early if nobody receives.
fn write_batches<C>(
    cases: impl Iterator<Item = (C, String)>,
    input: &mut ChildStdin,
    sender: &mpsc::SyncSender<Vec<(u64, C)>>,
) -> io::Result<()> {
    let mut batch = Vec::new();
    let mut text = String::new();
    let mut cases = (0u64..).zip(cases).peekable();
    while let Some((number, (case, lines))) = cases.next() {
        batch.push((number, case));
        text += &case_text(&format!("{number}"), &lines);
        if text.len() >= BATCH_BYTES || cases.peek().is_none() {
            if sender.send(mem::take(&mut batch)).is_err() {
                return Ok(());
            }
            input.write_all(text.as_bytes())?;
            text.clear();
        }
    }
    Ok(())
}

/// The next answer, which must be to the case of this name.
fn read_answer(output: &mut impl BufRead, name: &str) -> Result<Answer, String> {
    let mut next_line = || {
        let mut line = String::new();
        match output.read_line(&mut line) {
            Ok(0) => Err(format!("the original ended without an answer to case {name}")),
            Ok(_) => Ok(line.trim_end().to_owned()),
            Err(e) => Err(format!("reading the original's answer to case {name}: {e}")),
        }
    };
    let line = next_line()?;
    if line.strip_prefix("case ") != Some(name) {
        return Err(format!("an answer to case {name} was expected, not {line:?}"));
    }
    let mut lines = Vec::new();
    loop {
        let line = next_line()?;
        if line == "end" {
            return Ok(Answer { name: name.into(), lines });
        }
        lines.push(line);
    }
}
