//! The record of a build.

use library::builds::{HEADER_SHORT, TRAILER_SHORT};
use library::checks::Verdict;

use super::pack;
use crate::builds::{File, Outcome};
use crate::checks::Inputs;

/// The kind of record.
const BUILD: u64 = 0;

// What the program that answers again has room for: words, bytes of raw, of a header and of a trailer.
const MOST_WORDS: usize = 1_050_000;
const MOST_RAW: usize = 1_050_000;
const LONGEST_HEADER: usize = 66_560;
const LONGEST_TRAILER: usize = 8_192;

/// All words of a build, lists with their counts in front.
fn all_words(inputs: &Inputs) -> Vec<u32> {
    let Inputs { words, pool, tracks, markers, comments, callers, lengths, .. } = inputs;
    let mut all = words.clone();
    for list in [pool, tracks, markers, comments, callers, lengths] {
        all.push(list.len() as u32);
        all.extend(list);
    }
    all
}

/// The record, unless the build is too large. `alone` says that the answer is by document 01, not by the original.
pub fn record(inputs: &Inputs, outcome: &Outcome, alone: bool) -> Option<Vec<u8>> {
    let words = all_words(inputs);
    if words.len() > MOST_WORDS || inputs.raw.len() > MOST_RAW {
        return None;
    }
    let mut out = Vec::new();
    pack::number(&mut out, BUILD);
    pack::words(&mut out, &words);
    pack::bytes(&mut out, &inputs.raw);
    pack::number(&mut out, alone.into());
    match outcome {
        Outcome::Refused(Verdict { number, detail }) => {
            pack::number(&mut out, (*number).into());
            pack::number(&mut out, (*detail).into());
        }
        // What there is no room for is told by its length.
        Outcome::Built(File { header, .. }) if header.len() > LONGEST_HEADER => {
            pack::number(&mut out, HEADER_SHORT);
            pack::number(&mut out, header.len() as u64);
        }
        Outcome::Built(File { trailer, .. }) if trailer.len() > LONGEST_TRAILER => {
            pack::number(&mut out, TRAILER_SHORT);
            pack::number(&mut out, trailer.len() as u64);
        }
        Outcome::Built(File { header, sound, trailer }) => {
            for value in [0, header.len() as u64, *sound, trailer.len() as u64] {
                pack::number(&mut out, value);
            }
            pack::bytes(&mut out, header);
            pack::bytes(&mut out, trailer);
        }
    }
    Some(out)
}
