//! The original: its files, unchanged, with the stand-ins for those that were not supplied, as run.sh lays them out in
//! `target/oracle`; and layouts of it. The layouts need types that only the original's own crate can make, so that its
//! files are modules of this crate.

#![allow(dead_code, unused_imports, clippy::all)]

#[rustfmt::skip]
#[path = "../../../target/oracle/src/audio.rs"]
mod audio;
#[rustfmt::skip]
#[path = "../../../target/oracle/src/disc.rs"]
mod disc;
#[rustfmt::skip]
#[path = "../../../target/oracle/src/dispatch.rs"]
mod dispatch;
#[rustfmt::skip]
#[path = "../../../target/oracle/src/dst.rs"]
mod dst;
#[rustfmt::skip]
#[path = "../../../target/oracle/src/error.rs"]
mod error;
#[rustfmt::skip]
#[path = "../../../target/oracle/src/image.rs"]
mod image;
mod layouts;
#[rustfmt::skip]
#[path = "../../../target/oracle/src/log.rs"]
mod log;
#[rustfmt::skip]
#[path = "../../../target/oracle/src/output/mod.rs"]
mod output;
#[rustfmt::skip]
#[path = "../../../target/oracle/src/text.rs"]
mod text;
#[rustfmt::skip]
#[path = "../../../target/oracle/src/toc.rs"]
mod toc;

pub use error::{EditedMasterCheck, Error, OutputRefusal, Slot};
pub use layouts::{Inputs, Texts, TitledTrack};
pub use output::{Layout, PositionSource, RegionKind};
