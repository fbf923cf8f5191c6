//! How a command ends: done, or a fault with its exit status and what to do about it.

use std::io::Write;

/// What went wrong. The text has no `dff:` before it; a line that begins with two spaces belongs to the one before.
#[derive(Clone, Debug, PartialEq)]
pub enum Fault {
    /// 1: a .dff file that was looked at is at fault.
    File(String),
    /// 2: the command line or the manifest is.
    Manifest(String),
    /// 3: a numbered refusal of the library.
    Refused(String),
    /// 4: a source is missing, short or has changed.
    Source(String),
    /// 5: an output file cannot be written, or is there already.
    Output(String),
}

impl Fault {
    pub fn status(&self) -> u8 {
        match self {
            Fault::File(_) => 1,
            Fault::Manifest(_) => 2,
            Fault::Refused(_) => 3,
            Fault::Source(_) => 4,
            Fault::Output(_) => 5,
        }
    }

    pub fn message(&self) -> &str {
        match self {
            Fault::File(text)
            | Fault::Manifest(text)
            | Fault::Refused(text)
            | Fault::Source(text)
            | Fault::Output(text) => text,
        }
    }

    fn message_mut(&mut self) -> &mut String {
        match self {
            Fault::File(text)
            | Fault::Manifest(text)
            | Fault::Refused(text)
            | Fault::Source(text)
            | Fault::Output(text) => text,
        }
    }

    /// The same fault, its text after `start` and a colon.
    pub fn at(mut self, start: &str) -> Fault {
        let text = self.message_mut();
        *text = format!("{start}: {text}");
        self
    }

    /// Several faults as one: all texts in order, the status of the first. None for none.
    pub fn all(faults: Vec<Fault>) -> Option<Fault> {
        let mut faults = faults.into_iter();
        let mut first = faults.next()?;
        for fault in faults {
            let text = first.message_mut();
            text.push('\n');
            text.push_str(fault.message());
        }
        Some(first)
    }

    /// Writes the text, `dff:` before each line that begins one. Where that fails there is nobody left to tell.
    pub fn report(&self, err: &mut dyn Write) {
        let mut text = String::new();
        for line in self.message().lines() {
            if !line.starts_with("  ") {
                text.push_str("dff: ");
            }
            text.push_str(&printable(line));
            text.push('\n');
        }
        let _ = err.write_all(text.as_bytes());
        let _ = err.flush();
    }
}

/// The line without what a terminal would take as an order: names come from manifests.
pub fn printable(line: &str) -> String {
    let shown = |character: char| match character.is_control() {
        true => character.escape_default().to_string(),
        false => character.to_string(),
    };
    line.chars().map(shown).collect()
}

/// What clap has to say: help and version on `out` with status 0, a mistake on `err` with status 2.
pub fn usage(error: &clap::Error, out: &mut dyn Write, err: &mut dyn Write) -> u8 {
    let text = error.render().to_string();
    if error.use_stderr() {
        let text = match text.strip_prefix("error: ") {
            Some(rest) => format!("dff: {rest}"),
            None => text,
        };
        let _ = err.write_all(text.as_bytes());
        let _ = err.flush();
        2
    } else {
        // A reader that has had enough (`dff --help | head -1`) is no fault.
        match out.write_all(text.as_bytes()).and_then(|()| out.flush()) {
            Err(error) if error.kind() != std::io::ErrorKind::BrokenPipe => 5,
            _ => 0,
        }
    }
}
