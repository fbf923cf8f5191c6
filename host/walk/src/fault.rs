//! What is wrong with a file.
use std::fmt;

/// The rule that a file breaks, in the order in which they are looked at.
#[derive(Clone, Copy, Debug, PartialEq, Eq, PartialOrd, Ord)]
pub enum Rule {
    /// 49: the file doesn't begin with FRM8 of form "DSD ", a chunk with its pad runs past its parent, a tail is no
    /// chunk, PROP is under four bytes, or bytes follow FRM8.
    Structure,
    /// 50: FVER, PROP, FS, CHNL, CMPR or the sound chunk is missing or repeated, or PROP comes after the sound.
    Presence,
    /// 51: a field or a count is wrong.
    Fields,
    /// The file has more than this walk keeps.
    Limits,
}

impl Rule {
    /// The rule's number; this walk's own limits have none.
    pub fn number(self) -> Option<u32> {
        match self {
            Rule::Structure => Some(49),
            Rule::Presence => Some(50),
            Rule::Fields => Some(51),
            Rule::Limits => None,
        }
    }
}

/// A fault, with its place in the file.
#[derive(Clone, Debug, PartialEq, Eq)]
pub struct Fault {
    /// The rule that is broken.
    pub rule: Rule,
    /// Where: the chunk or the byte at fault; of a chunk that is missing, the chunk that lacks it.
    pub place: u64,
    /// What is wrong there.
    pub words: String,
}

impl fmt::Display for Fault {
    /// The place and the words; the rule's number is for readers of its document.
    fn fmt(&self, f: &mut fmt::Formatter<'_>) -> fmt::Result {
        write!(f, "at {}: {}", self.place, self.words)
    }
}
