//! The program `dff`: DSDIFF files from a manifest, spans of them, and what stands in them. Every byte of an output
//! file comes from the proved build and read of the crate `jangqeruz`; this crate finds the sound, lends it, and
//! keeps the files safe.

#![forbid(unsafe_code)]

pub mod carry;
pub mod cli;
pub mod commands;
pub mod copy;
pub mod dates;
pub mod folder;
pub mod limit;
pub mod manifest;
pub mod output;
pub mod plans;
pub mod progress;
pub mod sizes;
pub mod sources;
pub mod status;
pub mod times;
pub mod ui;

use clap::Parser;
use rustix::process::{Resource, Rlimit, getrlimit, setrlimit};
use std::ffi::OsString;
use std::io::Write;

pub use status::Fault;
pub use ui::Ui;

/// Does what the arguments say (the first is the program's name) and answers the exit status.
pub fn run<A: IntoIterator<Item = OsString>>(args: A) -> u8 {
    many_files();
    run_into(args, &mut std::io::stdout(), &mut std::io::stderr())
}

/// As many open files as the system lets this program have: all sources of a manifest are open at once. Where that
/// can't be had, fewer must do.
fn many_files() {
    let limit = getrlimit(Resource::Nofile);
    let _ = setrlimit(Resource::Nofile, Rlimit { current: limit.maximum, ..limit });
}

/// The same, with what it has to say written to `out` and `err`.
pub fn run_into<A: IntoIterator<Item = OsString>>(args: A, out: &mut dyn Write, err: &mut dyn Write) -> u8 {
    let cli = match cli::Cli::try_parse_from(args) {
        Ok(cli) => cli,
        Err(error) => return status::usage(&error, out, err),
    };
    let result = {
        let ui = Ui::new(cli.quiet, cli.force, out).noting(&mut *err);
        commands::run(cli.command, &ui).and_then(|()| ui.flush())
    };
    match result {
        Ok(()) => 0,
        Err(fault) => {
            fault.report(err);
            fault.status()
        }
    }
}
