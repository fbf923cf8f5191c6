//! Dates of comments, and windows of them. The library decides; nothing is worked out here.

use std::error::Error;
use std::fmt;

use library::dates;

use crate::refusals::{NO_SUCH_DATE, Refusal};

/// A date and a time of day, as a comment has them. With month and day both 0 it is that of an undated comment.
#[derive(Clone, Copy, Debug, Default, PartialEq, Eq, Hash)]
pub struct Stamp {
    /// Up to 65,535.
    pub year: u32,
    /// Up to 12.
    pub month: u32,
    /// Up to 31.
    pub day: u32,
    /// Up to 23.
    pub hour: u32,
    /// Up to 59.
    pub minutes: u32,
}

impl Stamp {
    fn words(&self) -> dates::Stamp {
        let Stamp { year, month, day, hour, minutes } = *self;
        [year, month, day, hour, minutes]
    }
}

/// Why a date, or a question about a window of dates, is refused.
#[derive(Clone, Copy, Debug, PartialEq, Eq, Hash)]
pub enum DateRefusal {
    /// 34: a year above 65,535, a month above 12, a day above 31, an hour above 23 or minutes above 59.
    CommentDate,
    /// 46: no date of the Gregorian calendar from year 1 on; of a comment, not the sign for an undated one either.
    NoSuchDate,
}

impl DateRefusal {
    fn new(number: u64) -> Option<DateRefusal> {
        match number {
            34 => Some(DateRefusal::CommentDate),
            46 => Some(DateRefusal::NoSuchDate),
            _ => None,
        }
    }

    /// Its number, 34 or 46.
    pub fn number(&self) -> u32 {
        match self {
            DateRefusal::CommentDate => 34,
            DateRefusal::NoSuchDate => 46,
        }
    }

    /// The words of the rule.
    pub fn words(&self) -> &'static str {
        match self {
            DateRefusal::CommentDate => Refusal::CommentDate.words(),
            DateRefusal::NoSuchDate => NO_SUCH_DATE.words,
        }
    }

    /// What to do about it.
    pub fn remedy(&self) -> &'static str {
        match self {
            DateRefusal::CommentDate => Refusal::CommentDate.remedy(),
            DateRefusal::NoSuchDate => NO_SUCH_DATE.remedy,
        }
    }

    /// The rule as it is defined for the proofs: a file of the repository and a name in it. It is the same of both.
    pub fn definition(&self) -> &'static str {
        NO_SUCH_DATE.definition
    }
}

impl fmt::Display for DateRefusal {
    fn fmt(&self, f: &mut fmt::Formatter<'_>) -> fmt::Result {
        write!(f, "refused ({}): {}", self.number(), self.words())
    }
}

/// Why there is no answer about a date, or about a window of dates.
#[derive(Clone, Copy, Debug, PartialEq, Eq)]
pub enum DateError {
    /// The library refuses it.
    Refused(DateRefusal),
    /// The library answered what it never should. The static library is not the one that this crate is made for.
    Broken {
        /// The refusal's number.
        number: u64,
        /// Its detail, or whether the comment falls in.
        value: u64,
    },
}

impl DateError {
    /// Of the answer of a function on dates.
    fn of(number: u64, value: u64) -> DateError {
        DateRefusal::new(number).map_or(DateError::Broken { number, value }, DateError::Refused)
    }
}

impl fmt::Display for DateError {
    fn fmt(&self, f: &mut fmt::Formatter<'_>) -> fmt::Result {
        match self {
            DateError::Refused(refusal) => refusal.fmt(f),
            DateError::Broken { number, value } => {
                write!(f, "the library answered {number} with {value}, which it does not have")
            }
        }
    }
}

impl Error for DateError {}

/// What is wrong with a date that a window starts or ends with: a number past its limit (34), or no date of the
/// Gregorian calendar from year 1 on (46). An undated stamp is none.
///
/// ```
/// use jangqeruz::{DateError, DateRefusal, Stamp, date_fault, note_fault};
///
/// let leap_day = Stamp { year: 2024, month: 2, day: 29, ..Stamp::default() };
/// assert_eq!(date_fault(leap_day), Ok(()));
/// assert_eq!(date_fault(Stamp { year: 2023, ..leap_day }), Err(DateError::Refused(DateRefusal::NoSuchDate)));
/// assert_eq!(date_fault(Stamp { hour: 24, ..leap_day }), Err(DateError::Refused(DateRefusal::CommentDate)));
///
/// let undated = Stamp::default();
/// assert_eq!(note_fault(undated), Ok(()));
/// assert_eq!(date_fault(undated), Err(DateError::Refused(DateRefusal::NoSuchDate)));
/// ```
pub fn date_fault(date: Stamp) -> Result<(), DateError> {
    faultless(dates::date_fault(&date.words()))
}

/// What is wrong with the date of a comment: as [`date_fault`], but a comment may be undated. A build asks less: it takes
/// a comment with any date that 34 allows.
pub fn note_fault(note: Stamp) -> Result<(), DateError> {
    faultless(dates::note_fault(&note.words()))
}

fn faultless(number: u64) -> Result<(), DateError> {
    match number {
        0 => Ok(()),
        number => Err(DateError::of(number, 0)),
    }
}

/// Whether `a` is earlier than `b`, by year, then month, day, hour and minutes. Any stamps can be compared.
pub fn earlier(a: Stamp, b: Stamp) -> bool {
    dates::earlier(&a.words(), &b.words())
}

/// Whether a comment falls in a window of dates, its start counted in and its end counted out. An undated comment falls
/// in none, and none falls in a window whose end is not after its start. Start, end and comment are tested in this
/// order, each as by [`date_fault`] and the comment as by [`note_fault`].
///
/// ```
/// use jangqeruz::{Stamp, falls_in};
///
/// # fn main() -> Result<(), jangqeruz::DateError> {
/// let new_year = |year| Stamp { year, month: 1, day: 1, ..Stamp::default() };
/// let (start, end) = (new_year(2024), new_year(2025));
/// let last_minute = Stamp { year: 2024, month: 12, day: 31, hour: 23, minutes: 59 };
/// assert!(falls_in(start, end, start)?);
/// assert!(falls_in(start, end, last_minute)?);
/// assert!(!falls_in(start, end, end)?);
/// assert!(!falls_in(start, end, Stamp::default())?);
/// # Ok(())
/// # }
/// ```
pub fn falls_in(start: Stamp, end: Stamp, note: Stamp) -> Result<bool, DateError> {
    match dates::falls_in(&start.words(), &end.words(), &note.words()) {
        (0, 0) => Ok(false),
        (0, 1) => Ok(true),
        (number, value) => Err(DateError::of(number, value)),
    }
}
