//! Counts by kind of sound, and the table that they are printed in.

use std::fmt::{self, Formatter};

/// A count for DSD, for DST and for DST with CRCs.
pub type Line = [u64; 3];

pub fn sum(lines: &[Line]) -> Line {
    let mut all = Line::default();
    for line in lines {
        all.iter_mut().zip(line).for_each(|(all, number)| *all += number);
    }
    all
}

/// A table whose names are so wide.
pub struct Table<'a, 'b> {
    f: &'a mut Formatter<'b>,
    width: usize,
}

impl<'a, 'b> Table<'a, 'b> {
    /// With its titles written.
    pub fn new(f: &'a mut Formatter<'b>, width: usize) -> Result<Self, fmt::Error> {
        let titles = ["DSD", "DST", "DST with CRCs", "all"].map(|title| format!("{title:>14}"));
        writeln!(f, "{:width$}{}", "", titles.concat())?;
        Ok(Table { f, width })
    }

    pub fn line(&mut self, name: &str, line: &Line) -> fmt::Result {
        let numbers = line.map(|number| format!("{number:>14}"));
        let width = self.width;
        writeln!(self.f, "{name:width$}{}{:>14}", numbers.concat(), line.iter().sum::<u64>())
    }

    pub fn lines(&mut self, lines: &[(&str, &Line)]) -> fmt::Result {
        lines.iter().try_for_each(|(name, line)| self.line(name, line))
    }
}
