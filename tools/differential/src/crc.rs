//! The CRC of a content, against the original's own function. That is linked in, so its process is not asked.

use std::collections::BTreeMap;
use std::fmt;
use std::ops::{Range, RangeInclusive};

use crate::original::Answer;
use crate::random::Random;
use crate::subject::{simplify_list, smaller, Disagreement, Fails, Halt, Subject};
use crate::text::runs;

pub struct Crc;

#[derive(Clone, PartialEq)]
pub struct Case {
    content: Vec<u8>,
    /// How many bytes past a multiple of `ALIGNMENTS` the content begins in memory.
    alignment: usize,
}

const ALIGNMENTS: usize = 16;

/// What lies before the content and behind it.
const AROUND: u8 = 0xA5;

/// Each length up to this one is met.
const EACH: usize = 3_000;
const LONGEST: usize = 30_000;

/// A frame's bytes for each channel, and how many channels there can be.
const CHANNEL: usize = 4_704;
const CHANNELS: RangeInclusive<usize> = 1..=6;

/// Lengths of which every bit is set by itself.
const SINGLE_BITS: [usize; 4] = [167, 320, 337, 777];

impl Subject for Crc {
    const NAME: &'static str = "crc";
    const ASKED: bool = false;
    type Case = Case;
    type Counts = Counts;

    fn fixed() -> Vec<Case> {
        let random = &mut Random::of_case(0, 0);
        let mut contents: Vec<Vec<u8>> = (0..=EACH).map(|length| draw_bytes(random, length)).collect();
        for length in CHANNELS.map(|channels| channels * CHANNEL) {
            contents.extend([draw_bytes(random, length), vec![0x00; length], vec![0xFF; length]]);
        }
        for length in SINGLE_BITS {
            contents.extend((0..8 * length).map(|bit| single_bit(length, bit)));
        }
        contents.into_iter().map(|content| Case { content, alignment: random.place(ALIGNMENTS) }).collect()
    }

    fn draw(random: &mut Random) -> Case {
        let between = |random: &mut Random, least, most| least + random.place(most - least + 1);
        let length = match random.between(0, 31) {
            0..=3 => CHANNEL * between(random, *CHANNELS.start(), *CHANNELS.end()),
            4 => between(random, 0, LONGEST),
            _ => between(random, 0, EACH),
        };
        Case { content: draw_content(random, length), alignment: random.place(ALIGNMENTS) }
    }

    fn for_original(_: &Case) -> String {
        String::new()
    }

    fn for_us(case: &Case) -> String {
        let Case { content, alignment } = case;
        let shown = runs(content.iter()).map(|(byte, count)| match count {
            1 => format!("{byte:02x}"),
            _ => format!("{byte:02x}*{count}"),
        });
        let shown: Vec<String> = shown.collect();
        format!("{} bytes, {alignment} past a multiple of {ALIGNMENTS}\n{}", content.len(), shown.join(" "))
    }

    fn compare(case: &Case, _: &Answer, counts: &mut Counts) -> Result<Vec<Disagreement>, String> {
        counts.count(case);
        let (memory, place) = case.laid();
        let (original, ours) = (original_crc::crc(&case.content), library::sound::crc(&memory[place]));
        if original == ours {
            return Ok(Vec::new());
        }
        let (expected, ours) = (format!("the original: {original:08x}"), format!("ours: {ours:08x}"));
        Ok(vec![Disagreement { what: "CRC".into(), expected, ours }])
    }

    fn simplify(case: &mut Case, fails: Fails<'_, Case>) -> Result<(), Halt> {
        let without_bytes = |case: &Case, gone: Range<usize>| {
            let mut simpler = case.clone();
            simpler.content.drain(gone);
            Some(simpler)
        };
        let without_bits = |case: &Case, cleared: Range<usize>| {
            let mut simpler = case.clone();
            cleared.for_each(|bit| simpler.content[bit / 8] &= !mask(bit));
            Some(simpler).filter(|simpler| simpler != case)
        };
        simplify_list(case, |case| case.content.len(), without_bytes, fails)?;
        simplify_list(case, |case| 8 * case.content.len(), without_bits, fails)?;
        smaller(case, fails, case.alignment as u64, 0, |case, alignment| case.alignment = alignment as usize)
    }
}

impl Case {
    /// Memory that has the content at its alignment, and its place there.
    fn laid(&self) -> (Vec<u8>, Range<usize>) {
        let length = self.content.len();
        let mut memory = vec![AROUND; length + 3 * ALIGNMENTS];
        let start = memory.as_ptr().align_offset(ALIGNMENTS) + self.alignment;
        memory[start..start + length].copy_from_slice(&self.content);
        (memory, start..start + length)
    }
}

/// The bit of its byte, the most significant one being the first.
fn mask(bit: usize) -> u8 {
    0x80 >> (bit % 8)
}

fn single_bit(length: usize, bit: usize) -> Vec<u8> {
    let mut content = vec![0; length];
    content[bit / 8] = mask(bit);
    content
}

fn draw_bytes(random: &mut Random, length: usize) -> Vec<u8> {
    let mut bytes = vec![0; length];
    fill(random, &mut bytes);
    bytes
}

fn fill(random: &mut Random, bytes: &mut [u8]) {
    for bytes in bytes.chunks_mut(8) {
        bytes.copy_from_slice(&random.word().to_le_bytes()[..bytes.len()]);
    }
}

/// Half of them are random bytes.
fn draw_content(random: &mut Random, length: usize) -> Vec<u8> {
    let mut content = vec![0; length];
    if length == 0 {
        return content;
    }
    let any = random.word() as u8;
    match random.between(0, 9) {
        0 => content.fill(random.pick(&[0x00, 0xFF, any, any])),
        1 => content[random.place(length)] = any.max(1),
        2 => content = single_bit(length, random.place(8 * length)),
        3 => {
            let step = random.word() as u8;
            let ramp = (0..length).map(|place| any.wrapping_add(step.wrapping_mul(place as u8)));
            content = ramp.collect();
        }
        4 => {
            let start = random.place(length);
            let end = start + 1 + random.place(length - start);
            fill(random, &mut content[start..end]);
        }
        _ => fill(random, &mut content),
    }
    content
}

// Counting

/// The rows of lengths.
const ROWS: [RangeInclusive<usize>; 7] =
    [0..=0, 1..=159, 160..=255, 256..=511, 512..=1_023, 1_024..=EACH, EACH + 1..=LONGEST];

#[derive(Default)]
pub struct Counts {
    lengths: BTreeMap<usize, u64>,
    alignments: [u64; ALIGNMENTS],
}

impl Counts {
    fn count(&mut self, case: &Case) {
        *self.lengths.entry(case.content.len()).or_default() += 1;
        self.alignments[case.alignment] += 1;
    }

    fn of(&self, length: usize) -> u64 {
        self.lengths.get(&length).copied().unwrap_or(0)
    }
}

impl fmt::Display for Counts {
    fn fmt(&self, f: &mut fmt::Formatter<'_>) -> fmt::Result {
        let frames = CHANNELS.map(|channels| (channels, self.of(channels * CHANNEL)));
        writeln!(f, "{:32}{:>9}", "contents of", "cases")?;
        for row in ROWS {
            let (least, most) = (*row.start(), *row.end());
            let mut cases: u64 = self.lengths.range(row).map(|(_, cases)| cases).sum();
            let mut name = if least == most { format!("{least} bytes") } else { format!("{least} to {most} bytes") };
            if most == LONGEST {
                name += ", no frame";
                cases -= frames.clone().map(|(_, cases)| cases).sum::<u64>();
            }
            writeln!(f, "{name:32}{cases:>9}")?;
        }
        for (channels, cases) in frames {
            writeln!(f, "{:32}{cases:>9}", format!("a frame, channels: {channels}"))?;
        }
        let bytes: u64 = self.lengths.iter().map(|(&length, cases)| length as u64 * cases).sum();
        writeln!(f, "bytes in all: {bytes}")?;
        let missing: Vec<usize> = (0..=EACH).filter(|&length| self.of(length) == 0).collect();
        match missing.first() {
            None => {
                let least = (0..=EACH).map(|length| self.of(length)).min().unwrap_or(0);
                writeln!(f, "every length from 0 to {EACH} was met, each in {least} or more cases")?;
            }
            Some(first) => writeln!(f, "lengths up to {EACH} not met: {}, the first {first}", missing.len())?,
        }
        let least = self.alignments.iter().min().unwrap_or(&0);
        writeln!(f, "every start from 0 to {} past a multiple of {ALIGNMENTS}: {least} or more cases", ALIGNMENTS - 1)
    }
}
