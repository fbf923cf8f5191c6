//! The files of a manifest, ready to be written: sources opened, options in the library's types, headers and trailers
//! built.

mod asked;
mod causes;

use crate::Fault;
use crate::folder::{Folder, told};
use crate::limit::raise;
use crate::manifest::Manifest;
use crate::sizes::Size;
use crate::sources::Sound;
use crate::sources::open::Opener;
use crate::sources::watched::Watched;
use crate::times::counted;
use asked::Asked;
use jangqeruz::{Area, BuildError, File, Options, Refusal};
use std::path::Path;

pub struct Plan {
    /// The manifest's line and the file's name, for messages.
    pub label: String,
    /// Header and trailer, and where the sound comes from.
    pub file: File<Box<dyn Sound>>,
    /// What the manifest asks for and the file won't have.
    notes: Vec<String>,
}

/// All files of a manifest.
pub struct Plans {
    /// A plan for each, in order, or what is wrong with it. If what is given for one is above the limit none is built,
    /// and these are the faults that are known by then.
    pub files: Vec<Result<Plan, Fault>>,
    /// What was opened for them.
    pub opened: Vec<Watched>,
}

/// Header and trailer of a file may have `limit` bytes together. What is given for all files is added up before any is
/// built.
pub fn plans(manifest: &Manifest, sources: Option<&Path>, limit: Size) -> Result<Plans, Fault> {
    let path = sources.unwrap_or(manifest.folder());
    let folder = Folder::open(path).map_err(|errno| Fault::Source(format!("{}: {}", path.display(), told(errno))))?;
    let opener = Opener::new(manifest, &folder);
    let asked: Vec<_> = manifest.files.iter().map(|planned| Asked::open(&opener, planned)).collect();
    let files = if asked.iter().flatten().any(|asked| asked.check(limit).is_err()) {
        asked.into_iter().filter_map(|asked| asked.and_then(|asked| asked.check(limit)).err()).map(Err).collect()
    } else {
        asked.into_iter().map(|asked| asked.and_then(|asked| asked.plan(limit))).collect()
    };
    Ok(Plans { files, opened: opener.opened() })
}

/// Header and trailer, if the library does not refuse them; then whether the source has what the range wants.
fn built(
    label: &str,
    area: &Area,
    options: &Options,
    source: Box<dyn Sound>,
    Size(limit): Size,
) -> Result<File<Box<dyn Sound>>, Fault> {
    let frames = source.frames();
    let short = short(area, frames).map(|fault| fault.at(label));
    let lengths = source.lengths(area.first..area.end);
    match (File::build_within(limit, area, options, &lengths, source), short) {
        // The lengths of frames that are not there are missing too.
        (Err(BuildError::Refused(Refusal::LengthsCount)), Some(fault)) => Err(fault),
        (Err(error), _) => Err(refused(label, &error, causes::cause(&error, area, options, frames))),
        (Ok(_), Some(fault)) => Err(fault),
        (Ok(file), None) => file.source().whole().map_err(|fault| fault.at(label)).map(|()| file),
    }
}

/// The fault if the range goes past the source's end.
fn short(area: &Area, frames: u32) -> Option<Fault> {
    let text = format!("the source has {}, the range ends at {}", counted(frames), area.end);
    (area.first <= area.end && area.end > frames).then_some(Fault::Source(text))
}

impl Plan {
    /// The notes, as lines to print.
    pub fn notes(&self) -> impl Iterator<Item = String> {
        self.notes.iter().map(|note| format!("{}: note: {note}", self.label))
    }
}

/// What is against a file of a manifest, with the line on its cause.
fn refused(label: &str, error: &BuildError, cause: Option<String>) -> Fault {
    match error {
        BuildError::Refused(refusal) => {
            let cause = cause.map_or(String::new(), |cause| format!("\n  {cause}"));
            Fault::Refused(format!("{label}: {refusal}\n  remedy: {}{cause}", refusal.remedy()))
        }
        BuildError::AboveLimit { measured, bytes, .. } => {
            let remedy = "remedy: shorten or leave out comments, titles, marker texts or chunks";
            Fault::Manifest(format!("{label}: {error}\n  {remedy}{}", raise(*measured, *bytes)))
        }
        error => Fault::Output(format!("{label}: {error}")),
    }
}
