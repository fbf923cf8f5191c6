//! `dff show`: the chunks of a file as a tree, with places, sizes and values. By the unproved walk.

pub mod comment;
mod node;
mod tree;
mod words;

use crate::cli::ShowArgs;
use crate::commands::faults::Faults;
use crate::sources::dff;
use crate::{Fault, Ui};
use node::Shown;
use serde::Serialize;

pub use words::{VERSION, count, quoted, version as version_words};

/// Indented, with a line end behind it.
pub fn json(value: &impl Serialize) -> Result<String, Fault> {
    let text = serde_json::to_string_pretty(value);
    text.map(|text| text + "\n").map_err(|error| Fault::Output(format!("JSON: {error}")))
}

pub fn run(args: ShowArgs, ui: &Ui) -> Result<(), Fault> {
    let opened = dff::look(&args.file)?;
    let shown = Shown::new(&args.file.display().to_string(), &opened.walk);
    let text = if args.json { json(&shown)? } else { shown.to_string() };
    ui.print(&text)?;
    opened.file.still_the_same()?;
    Faults::of_walk(&opened.walk).told(&args.file).map_or(Ok(()), Err)
}
