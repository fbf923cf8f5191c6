//! This repository's functions, from the static library that host/library/archive.sh writes: the declarations
//! (`exports`) and names (`names`), and a safe wrapper for each function. All `unsafe` is here.

pub mod builds;
pub mod checks;
pub mod dates;
#[rustfmt::skip]
mod exports;
pub mod markers;
#[rustfmt::skip]
pub mod names;
pub mod reads;
pub mod sound;
pub mod text;
