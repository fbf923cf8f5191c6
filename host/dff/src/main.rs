//! The program `dff`: all of it is in the library beside.

#![forbid(unsafe_code)]

use std::process::ExitCode;

fn main() -> ExitCode {
    ExitCode::from(dff::run(std::env::args_os()))
}
