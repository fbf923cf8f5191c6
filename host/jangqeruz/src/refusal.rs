//! What is told of a refusal, and how it is printed.

use std::fmt;

use crate::refusals::Refusal;

impl Refusal {
    /// The words of the rule.
    pub fn words(&self) -> &'static str {
        self.told().words
    }

    /// What to do about it.
    pub fn remedy(&self) -> &'static str {
        self.told().remedy
    }

    /// The rule as it is defined for the proofs: a file of the repository and a name in it, of some more than one.
    pub fn definition(&self) -> &'static str {
        self.told().definition
    }
}

impl fmt::Display for Refusal {
    fn fmt(&self, f: &mut fmt::Formatter<'_>) -> fmt::Result {
        write!(f, "refused ({}): {}", self.number(), self.words())?;
        match self.detail() {
            0 => Ok(()),
            detail => write!(f, " Detail: {detail}."),
        }
    }
}
