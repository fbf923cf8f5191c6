//! `dff comments`: the comments of a file by date, all or those of a window. By the unproved walk and the proved library,
//! which judges and orders the dates.

mod listed;
mod window;

use crate::cli::CommentsArgs;
use crate::commands::faults::Faults;
use crate::commands::show::{count, json};
use crate::sources::dff;
use crate::{Fault, Ui};
use listed::{Dated, Listed, by_date};
use walk::Walk;
use window::Window;

pub fn run(args: CommentsArgs, ui: &Ui) -> Result<(), Fault> {
    let opened = dff::look(&args.file)?;
    let window = Window::new(args.from, args.to);
    let mut notes = passed_over(&opened.walk);
    let mut list = listed(&opened.walk)?;
    if list.is_empty() && opened.walk.faults.is_empty() {
        notes.push("no comments".into());
    }
    if !window.is_open() && !list.is_empty() {
        list = in_window(list, &window, &mut notes)?;
    }
    by_date(&mut list);
    let text = if args.json {
        json(&list.iter().map(Listed::json).collect::<Vec<_>>())?
    } else {
        list.iter().map(|listed| listed.line() + "\n").collect()
    };
    ui.print(&text)?;
    opened.file.still_the_same()?;
    for note in notes {
        ui.note(&format!("{}: {note}", args.file.display()));
    }
    Faults::of_walk(&opened.walk).told(&args.file).map_or(Ok(()), Err)
}

/// All comments that the walk found.
fn listed(walk: &Walk) -> Result<Vec<Listed<'_>>, Fault> {
    walk.comments.iter().flat_map(|comments| &comments.value).map(Listed::new).collect()
}

/// The notes on comments that the walk does not read: those of a repeated COMT.
fn passed_over(walk: &Walk) -> Vec<String> {
    let chunks = walk.form.iter().flat_map(|form| &form.chunks);
    let repeated = chunks.filter(|chunk| chunk.name.0 == *b"COMT").skip(1);
    repeated.map(|chunk| format!("COMT at {} is a repeated one, and is passed over", chunk.place)).collect()
}

/// Those that fall in a window. One whose date is none can't be told of a window.
fn in_window<'w>(list: Vec<Listed<'w>>, window: &Window, notes: &mut Vec<String>) -> Result<Vec<Listed<'w>>, Fault> {
    let (with, without): (Vec<_>, Vec<_>) = list.into_iter().partition(|listed| !matches!(listed.dated, Dated::No(_)));
    let mut inside = vec![];
    for listed in with {
        if window.has(&listed)? {
            inside.push(listed);
        }
    }
    if let Some(note) = window.note() {
        notes.push(note);
    } else if inside.is_empty() {
        notes.push("no comment falls in the window".into());
    }
    if !without.is_empty() {
        let comments = count(without.len() as u64, "comment is", "comments are");
        notes.push(format!("{comments} left out, having no date of the calendar; without a window they are listed"));
    }
    Ok(inside)
}
