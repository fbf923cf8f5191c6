//! One module for each command.

pub mod build;
pub mod check;
pub mod comments;
pub mod completions;
pub mod cut;
pub mod explain;
pub mod faults;
pub mod sample;
pub mod show;
pub mod verify;

use crate::cli::Command;
use crate::{Fault, Ui};

pub fn run(command: Command, ui: &Ui) -> Result<(), Fault> {
    match command {
        Command::Build(args) => build::run(args, ui),
        Command::Cut(args) => cut::run(args, ui),
        Command::Check(args) => check::run(args, ui),
        Command::Show(args) => show::run(args, ui),
        Command::Comments(args) => comments::run(args, ui),
        Command::Verify(args) => verify::run(args, ui),
        Command::Explain(args) => explain::run(args, ui),
        Command::Sample(args) => sample::run(args, ui),
        Command::Completions(args) => completions::run(args, ui),
    }
}
