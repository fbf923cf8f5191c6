//! `dff explain [NUMBER]`: the refusals, from the table that the documents share.

use crate::cli::ExplainArgs;
use crate::{Fault, Ui};
use jangqeruz::{DateRefusal, Refusal};

pub fn run(args: ExplainArgs, ui: &Ui) -> Result<(), Fault> {
    match args.number {
        None => {
            let lines: String =
                Refusal::all().iter().map(|refusal| format!("{:2}  {}\n", refusal.number(), refusal.words())).collect();
            ui.print(&lines)
        }
        Some(46) => {
            let refusal = DateRefusal::NoSuchDate;
            ui.print(&format!(
                "refusal 46: {}\n  remedy: {}\n  definition: {}\n  only of dates and windows that are asked about, as by \
                 `dff comments`; a build takes such a comment\n",
                refusal.words(),
                refusal.remedy(),
                refusal.definition()
            ))
        }
        Some(number) => match Refusal::new(u64::from(number), 0) {
            Some(refusal) => ui.print(&format!(
                "refusal {number}: {}\n  remedy: {}\n  definition: {}\n",
                refusal.words(),
                refusal.remedy(),
                refusal.definition()
            )),
            None => Err(Fault::Manifest(format!("there is no refusal {number}; `dff explain` lists them"))),
        },
    }
}
