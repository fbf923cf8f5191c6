//! `dff check MANIFEST`: the verdict on each file.

use crate::cli::CheckArgs;
use crate::manifest::Manifest;
use crate::plans::plans;
use crate::{Fault, Ui};

pub fn run(args: CheckArgs, ui: &Ui) -> Result<(), Fault> {
    let manifest = Manifest::read(&args.manifest)?;
    let mut faults = Vec::new();
    for plan in plans(&manifest, args.sources.as_deref(), args.limit.max_header)?.files {
        match plan {
            Ok(plan) => {
                ui.say(&format!("{}: accepted", plan.label))?;
                plan.notes().try_for_each(|note| ui.say(&note))?;
            }
            Err(fault) => faults.push(fault),
        }
    }
    Fault::all(faults).map_or(Ok(()), Err)
}
