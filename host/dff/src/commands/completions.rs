//! `dff completions SHELL`.

use crate::cli::{Cli, CompletionsArgs};
use crate::{Fault, Ui};
use clap::CommandFactory;

pub fn run(args: CompletionsArgs, ui: &Ui) -> Result<(), Fault> {
    let mut text = Vec::new();
    clap_complete::generate(args.shell, &mut Cli::command(), "dff", &mut text);
    ui.print(&String::from_utf8_lossy(&text))
}
