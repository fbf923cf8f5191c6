//! The sound of a file.

use crate::pool::Pool;

#[derive(Clone, Copy, PartialEq)]
pub enum Kind {
    Dsd,
    Dst { crc: bool },
}

pub const KINDS: [Kind; 3] = [Kind::Dsd, Kind::Dst { crc: false }, Kind::Dst { crc: true }];

#[derive(Clone, Copy)]
pub struct Sound<'a> {
    pub kind: Kind,
    pub positions: usize,
    pub pool: &'a Pool,
}

impl<'a> Sound<'a> {
    pub fn name(self) -> &'static str {
        match self.kind {
            Kind::Dsd => "DSD",
            Kind::Dst { crc: false } => "DST",
            Kind::Dst { crc: true } => "DST with CRCs",
        }
    }

    pub fn dst(self) -> bool {
        self.kind != Kind::Dsd
    }

    pub fn crc(self) -> bool {
        self.kind == Kind::Dst { crc: true }
    }

    /// The lengths of DST frames.
    pub fn lengths(self) -> &'a [u32] {
        if self.dst() { &self.pool.lengths[..self.positions] } else { &[] }
    }
}
