//! A comment of a file with what the library says of its date.

use crate::Fault;
use crate::commands::show::comment;
use crate::dates;
use jangqeruz::{DateError, DateRefusal, Stamp, date_fault, earlier, note_fault};
use serde_json::{Value, json};
use std::cmp::Ordering;
use walk::Comment;

pub struct Listed<'w> {
    comment: &'w Comment,
    pub stamp: Stamp,
    pub dated: Dated,
}

#[derive(Clone, Copy, Debug, PartialEq, Eq)]
pub enum Dated {
    Yes,
    /// What it has for a date is none.
    No(DateRefusal),
    Undated,
}

impl Dated {
    /// Where such comments are listed.
    fn place(self) -> u8 {
        match self {
            Dated::Yes => 0,
            Dated::No(_) => 1,
            Dated::Undated => 2,
        }
    }
}

impl<'w> Listed<'w> {
    pub fn new(comment: &'w Comment) -> Result<Listed<'w>, Fault> {
        let stamp = dates::of(comment);
        let dated = match (note_fault(stamp), date_fault(stamp)) {
            (Ok(()), Ok(())) => Dated::Yes,
            (Ok(()), Err(DateError::Refused(_))) => Dated::Undated,
            (Err(DateError::Refused(refusal)), _) => Dated::No(refusal),
            (Err(error), _) | (_, Err(error)) => return Err(broken(error)),
        };
        Ok(Listed { comment, stamp, dated })
    }

    pub fn line(&self) -> String {
        let numbers = dates::words(self.stamp);
        let date = match self.dated {
            Dated::Yes => numbers,
            Dated::No(refusal) => format!("{numbers} (no date: refusal {})", refusal.number()),
            Dated::Undated if self.stamp == Stamp::default() => "undated".into(),
            Dated::Undated => format!("undated ({numbers})"),
        };
        format!("{date}, {}", comment::words(self.comment))
    }

    /// As `dff show --json` has it, and what the library says of its date.
    pub fn json(&self) -> Value {
        let mut value = comment::json(self.comment);
        value["dated"] = json!(self.dated == Dated::Yes);
        value["fault"] = match self.dated {
            Dated::No(refusal) => json!(refusal.number()),
            Dated::Yes | Dated::Undated => Value::Null,
        };
        value
    }
}

/// The earliest first, then those without a date; in each case equal ones stay in their order.
pub fn by_date(list: &mut [Listed]) {
    list.sort_by(|one, other| match one.dated.place().cmp(&other.dated.place()) {
        Ordering::Equal if one.dated == Dated::Yes => order(one.stamp, other.stamp),
        order => order,
    });
}

fn order(one: Stamp, other: Stamp) -> Ordering {
    match (earlier(one, other), earlier(other, one)) {
        (true, _) => Ordering::Less,
        (_, true) => Ordering::Greater,
        _ => Ordering::Equal,
    }
}

/// An answer that the library does not have.
pub fn broken(error: DateError) -> Fault {
    Fault::Output(error.to_string())
}
