//! What can go wrong.

use std::error::Error;
use std::fmt;
use std::io;

use crate::refusals::Refusal;

/// Why there is no file.
#[derive(Clone, Debug, PartialEq, Eq)]
pub enum BuildError {
    /// The library refuses area, options or lengths.
    Refused(Refusal),
    /// So many bytes of memory could not be had.
    Memory {
        /// How many.
        bytes: u64,
    },
    /// All texts together have more than 2^32 - 1 characters, or all bytes of markers, ID and caller chunks are more.
    TooLarge,
    /// Header and trailer are, or may be, longer than [`File::build_within`](crate::File::build_within) lets them.
    AboveLimit {
        /// What is above the limit already.
        measured: Measured,
        /// How many bytes it has, texts with a byte for each character.
        bytes: u64,
        /// How many header and trailer may have together.
        limit: u64,
    },
    /// The library answered what it never should. The static library is not the one that this crate is made for.
    Broken {
        /// The refusal's number.
        number: u64,
        /// Its detail.
        detail: u64,
    },
}

impl BuildError {
    /// Of the answer of a build, or of a verdict.
    pub(crate) fn of(number: u64, detail: u64) -> BuildError {
        match Refusal::new(number, detail) {
            Some(refusal) => BuildError::Refused(refusal),
            None => BuildError::Broken { number, detail },
        }
    }
}

impl fmt::Display for BuildError {
    fn fmt(&self, f: &mut fmt::Formatter<'_>) -> fmt::Result {
        match self {
            BuildError::Refused(refusal) => refusal.fmt(f),
            BuildError::Memory { bytes } => write!(f, "no memory for {bytes} bytes"),
            BuildError::TooLarge => {
                f.write_str("the texts, or the bytes of markers and chunks, are more than 2^32 - 1")
            }
            BuildError::AboveLimit { measured, bytes, limit } => {
                write!(f, "{measured} {bytes} bytes; the limit on header and trailer together is {limit}")
            }
            BuildError::Broken { number, detail } => {
                write!(f, "the library answered {number} with {detail}, which it does not have")
            }
        }
    }
}

impl Error for BuildError {}

/// What is held to a limit on header and trailer, in this order.
#[derive(Clone, Copy, Debug, PartialEq, Eq, Hash)]
pub enum Measured {
    /// The texts and chunks that are given ([`given_bytes`](crate::given_bytes)). The library was asked nothing.
    Given,
    /// The header. The trailer was not measured.
    Header,
    /// Header and trailer.
    HeaderAndTrailer,
}

impl fmt::Display for Measured {
    fn fmt(&self, f: &mut fmt::Formatter<'_>) -> fmt::Result {
        f.write_str(match self {
            Measured::Given => "texts and chunks that are given have up to",
            Measured::Header => "the header has",
            Measured::HeaderAndTrailer => "header and trailer have",
        })
    }
}

/// Why a read gave nothing.
#[derive(Debug)]
pub enum ReadError {
    /// The library refuses the read.
    Refused(Refusal),
    /// The source failed.
    Source(io::Error),
    /// So many bytes of memory, for what the source is asked for, could not be had.
    Memory {
        /// How many.
        bytes: u64,
    },
    /// The library answered what it never should. The static library is not the one that this crate is made for.
    Broken,
}

impl ReadError {
    /// Of the answer of a query or a read.
    pub(crate) fn of(number: u64, detail: u64) -> ReadError {
        Refusal::new(number, detail).map_or(ReadError::Broken, ReadError::Refused)
    }
}

impl fmt::Display for ReadError {
    fn fmt(&self, f: &mut fmt::Formatter<'_>) -> fmt::Result {
        match self {
            ReadError::Refused(refusal) => refusal.fmt(f),
            ReadError::Source(error) => write!(f, "the source failed: {error}"),
            ReadError::Memory { bytes } => write!(f, "no memory for {bytes} bytes"),
            ReadError::Broken => f.write_str("the library answered what it does not have"),
        }
    }
}

impl Error for ReadError {
    fn source(&self) -> Option<&(dyn Error + 'static)> {
        match self {
            ReadError::Source(error) => Some(error),
            _ => None,
        }
    }
}
