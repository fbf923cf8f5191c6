//! A failing case in a file, so that it can be compared again. The original's program takes the file too: what is not for
//! it are comments there.

use std::fmt;
use std::fs;
use std::path::Path;

use crate::subject::Disagreement;

/// Which case it is, and how it was made smaller.
pub struct Saved {
    pub subject: String,
    pub seed: u64,
    pub number: Number,
    /// Whether a simpler case failed too, each time that this was asked.
    pub kept: Vec<bool>,
    /// Of the case's text.
    pub checksum: u64,
}

#[derive(Clone, Copy)]
pub enum Number {
    Fixed(u64),
    Drawn(u64),
}

impl fmt::Display for Number {
    fn fmt(&self, f: &mut fmt::Formatter<'_>) -> fmt::Result {
        match self {
            Number::Fixed(number) => write!(f, "fixed case {number}"),
            Number::Drawn(number) => write!(f, "case {number}"),
        }
    }
}

/// A case as a reader sees it.
pub struct Text {
    /// In the original's case language, without its first line and its last; nothing if the original is not asked.
    pub for_original: String,
    pub for_us: String,
}

impl Text {
    pub fn checksum(&self) -> u64 {
        let bytes = self.for_original.bytes().chain([0]).chain(self.for_us.bytes());
        // FNV-1a.
        bytes.fold(0xCBF2_9CE4_8422_2325, |sum, byte| (sum ^ u64::from(byte)).wrapping_mul(0x0100_0000_01B3))
    }

    /// The whole case for the original.
    pub fn case(&self) -> String {
        format!("case smallest\n{}end\n", self.for_original)
    }
}

/// What stands for an empty list of answers.
const NONE: &str = "-";

impl Saved {
    pub fn write(&self, file: &Path, text: &Text, found: &[Disagreement]) -> Result<(), String> {
        let Saved { subject, seed, number, kept, checksum } = self;
        let number = match number {
            Number::Fixed(number) => format!("fixed {number}"),
            Number::Drawn(number) => format!("case {number}"),
        };
        let kept: String = kept.iter().map(|&kept| if kept { '1' } else { '0' }).collect();
        let kept = if kept.is_empty() { NONE } else { &kept };
        let name = file.display();
        let (mut alone, mut case) = (String::new(), String::new());
        if !text.for_original.is_empty() {
            alone = format!("# The original alone: target/oracle/target/release/scarletbook < {name}\n");
            case = format!("\n{}", text.case());
        }
        let mut lines = format!(
            "# A case on which this library and the original disagree. To compare it again:\n\
             #   tools/differential/run.sh --replay {name}\n{alone}\
             # subject {subject}\n# seed {seed}\n# {number}\n# kept {kept}\n# checksum {checksum:016x}\n{case}"
        );
        let mut remark = |title: &str, text: &str| {
            lines += &format!("\n# {title}\n");
            text.lines().for_each(|line| lines += &format!("#   {line}\n"));
        };
        remark("for us:", &text.for_us);
        for Disagreement { what, expected, ours } in found {
            remark(what, &format!("{expected}\n{ours}"));
        }
        fs::write(file, lines).map_err(|e| format!("{}: {e}", file.display()))
    }

    pub fn read(file: &Path) -> Result<Saved, String> {
        let text = fs::read_to_string(file).map_err(|e| format!("{}: {e}", file.display()))?;
        Saved::of(&text).ok_or_else(|| format!("{}: this is no saved case", file.display()))
    }

    fn of(text: &str) -> Option<Saved> {
        let (mut subject, mut seed, mut number, mut kept, mut checksum) = (None, None, None, None, None);
        for line in text.lines().map_while(|line| line.strip_prefix("# ")) {
            let Some((key, value)) = line.split_once(' ') else { continue };
            match key {
                "subject" => subject = Some(value.to_owned()),
                "seed" => seed = value.parse().ok(),
                "fixed" => number = value.parse().ok().map(Number::Fixed),
                "case" => number = value.parse().ok().map(Number::Drawn),
                "kept" => kept = answers(value),
                "checksum" => checksum = u64::from_str_radix(value, 16).ok(),
                _ => {}
            }
        }
        Some(Saved { subject: subject?, seed: seed?, number: number?, kept: kept?, checksum: checksum? })
    }
}

fn answers(word: &str) -> Option<Vec<bool>> {
    let word = if word == NONE { "" } else { word };
    let answer = |digit: char| match digit {
        '0' => Some(false),
        '1' => Some(true),
        _ => None,
    };
    word.chars().map(answer).collect()
}
