//! `dff build MANIFEST`: all verdicts first, then file by file.

use crate::cli::BuildArgs;
use crate::copy;
use crate::folder::{Folder, told};
use crate::manifest::{Manifest, Planned};
use crate::output::{Output, check_free, check_named, check_not_read};
use crate::plans::{Plan, Plans, plans};
use crate::sources::watched::Watched;
use crate::{Fault, Ui};
use rustix::io::Errno;
use std::path::Path;

pub fn run(args: BuildArgs, ui: &Ui) -> Result<(), Fault> {
    check_named(&args.output, "folder")?;
    let manifest = Manifest::read(&args.manifest)?;
    check_outputs(&manifest, &args, ui.force)?;
    let Plans { files, opened } = plans(&manifest, args.sources.as_deref(), args.limit.max_header)?;
    let plans = all_planned(files)?;
    let folder = output_folder(&args.output)?;
    let read: Vec<_> = opened.iter().map(Watched::identity).collect();
    for Planned { name, .. } in &manifest.files {
        check_not_read(&folder.full(name), &read)?;
    }
    for note in plans.iter().flat_map(Plan::notes) {
        ui.say(&note)?;
    }
    for (Planned { name, .. }, Plan { file, .. }) in manifest.files.iter().zip(plans) {
        let shown = folder.full(name).display().to_string();
        let output = Output::create_beneath(&folder, name, ui.force)?;
        copy::write(&file, output, &shown, ui)?;
        ui.say(&format!("{shown}: {} bytes", file.len()))?;
    }
    Ok(())
}

/// A fault if an output is there already, or would leave the folder. Nothing is made yet.
fn check_outputs(manifest: &Manifest, args: &BuildArgs, force: bool) -> Result<(), Fault> {
    let path = &args.output;
    let folder = match Folder::open(path) {
        Err(Errno::NOENT) => return Ok(()),
        folder => folder.map_err(|errno| Fault::Output(format!("{}: {}", path.display(), told(errno))))?,
    };
    let read = manifest.named(args.sources.as_deref().unwrap_or(manifest.folder()));
    let mut faults = Vec::new();
    for Planned { name, entry } in &manifest.files {
        let path = folder.full(name);
        let inside = folder.folder_of(name, false).map_err(|closed| closed.output(&path));
        let free = inside.and_then(|found| match found {
            Some(_) => check_not_read(&path, &read).and_then(|()| check_free(&path, force)),
            None => Ok(()),
        });
        faults.extend(free.err().map(|fault| fault.at(&manifest.line(entry.name.start()))));
    }
    Fault::all(faults).map_or(Ok(()), Err)
}

/// The plans of all files, or all that is wrong with any.
fn all_planned(files: Vec<Result<Plan, Fault>>) -> Result<Vec<Plan>, Fault> {
    let (mut plans, mut faults) = (Vec::new(), Vec::new());
    for file in files {
        match file {
            Ok(plan) => plans.push(plan),
            Err(fault) => faults.push(fault),
        }
    }
    Fault::all(faults).map_or(Ok(plans), Err)
}

fn output_folder(path: &Path) -> Result<Folder, Fault> {
    let failed = |error: &dyn std::fmt::Display| Fault::Output(format!("{}: {error}", path.display()));
    std::fs::create_dir_all(path).map_err(|error| failed(&error))?;
    Folder::open(path).map_err(|errno| failed(&told(errno)))
}
