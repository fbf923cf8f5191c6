//! What all commands are told (`--quiet`, `--force`) and where they print.

use crate::Fault;
use crate::progress::Progress;
use crate::status::printable;
use std::cell::RefCell;
use std::io::{ErrorKind, Write};

pub struct Ui<'a> {
    pub quiet: bool,
    pub force: bool,
    out: RefCell<&'a mut dyn Write>,
    notes: Option<RefCell<&'a mut dyn Write>>,
}

impl<'a> Ui<'a> {
    pub fn new(quiet: bool, force: bool, out: &'a mut dyn Write) -> Ui<'a> {
        Ui { quiet, force, out: RefCell::new(out), notes: None }
    }

    /// The same, with its notes written to `err`; else there are none.
    pub fn noting(self, err: &'a mut dyn Write) -> Ui<'a> {
        Ui { notes: Some(RefCell::new(err)), ..self }
    }

    /// The answer that was asked for, printed with `--quiet` too. A reader that has had enough is no fault.
    pub fn print(&self, text: &str) -> Result<(), Fault> {
        told(self.out.borrow_mut().write_all(text.as_bytes()))
    }

    /// A line about what was done; none with `--quiet`.
    pub fn say(&self, line: &str) -> Result<(), Fault> {
        if self.quiet { Ok(()) } else { self.print(&format!("{}\n", printable(line))) }
    }

    /// A line beside the answer, apart from it; none with `--quiet`. Where that fails there is nobody left to tell.
    pub fn note(&self, line: &str) {
        if let Some(notes) = self.notes.as_ref().filter(|_| !self.quiet) {
            let mut notes = notes.borrow_mut();
            let _ = notes.write_all(format!("dff: note: {}\n", printable(line)).as_bytes());
            let _ = notes.flush();
        }
    }

    pub fn flush(&self) -> Result<(), Fault> {
        told(self.out.borrow_mut().flush())
    }

    /// A bar for `bytes` bytes, drawn on a terminal only and not with `--quiet`.
    pub fn progress(&self, name: &str, bytes: u64) -> Progress {
        Progress::new(name, bytes, self.quiet)
    }
}

fn told(result: std::io::Result<()>) -> Result<(), Fault> {
    match result {
        Err(error) if error.kind() != ErrorKind::BrokenPipe => Err(Fault::Output(format!("standard output: {error}"))),
        _ => Ok(()),
    }
}
