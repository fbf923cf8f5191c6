//! `dff cut`: a span of a file as a file of its own, by the proved build and read. The input is read by the
//! unproved walk.

use crate::carry::{Carried, DROP_COMMENTS, DROP_CRCS, DROP_MARKERS, Dropped, carry};
use crate::cli::CutArgs;
use crate::commands::faults::Faults;
use crate::limit::{check_given, raise};
use crate::output::{Output, check_free, check_named, check_not_read};
use crate::sources::Sound;
use crate::sources::chunks::{self, Unread};
use crate::sources::dff::{self, DffSource, ShortFrame};
use crate::sources::span::Span;
use crate::sources::watched::{Identity, Watched};
use crate::times::{Time, counted};
use crate::{Fault, Ui, copy};
use jangqeruz::{Area, BuildError, File, Layout, Options, Refusal, given_bytes};
use std::ops::Range;
use walk::Rule;

/// What to say of a file with more than is kept of one.
const READ_WHOLE: &str = "\n  --drop-comments and --drop-markers don't help: all is read before any is left out";

pub fn run(args: CutArgs, ui: &Ui) -> Result<(), Fault> {
    check_named(&args.output, "file")?;
    let given = args.plain.iter().chain([&args.input]);
    let given: Vec<_> = given.filter_map(|path| path.metadata().ok()).map(|found| Identity::of(&found)).collect();
    check_not_read(&args.output, &given)?;
    check_free(&args.output, ui.force)?;
    let opened = dff::look(&args.input)?;
    if let Some(fault) = Faults::of_walk(&opened.walk).told(&args.input) {
        let is_too_much = opened.walk.faults.iter().any(|fault| fault.rule == Rule::Limits);
        return Err(if is_too_much { Fault::File(format!("{}{READ_WHOLE}", fault.message())) } else { fault });
    }
    let plain = args.plain.as_deref().map(dff::watch).transpose()?;
    let read: Vec<_> = plain.iter().chain([&opened.file]).map(Watched::identity).collect();
    check_not_read(&args.output, &read)?;
    let source = opened.sound(plain, ShortFrame::LeaveOut)?;
    let span = span(&args, &source)?;
    source.whole()?;
    let dropped = Dropped { crcs: args.drop_crc, markers: args.drop_markers, comments: args.drop_comments };
    let Carried { mut options, chunks, tracks, notes } = carry(&source, span.clone(), dropped)?;
    let source = Span::new(source, span);
    let (kind, channels, frames) = (source.kind(), source.channels(), source.frames());
    let layout = source.layout()?.map_or(Layout::Unspecified, |(layout, _)| layout);
    let area = Area { tracks, ..Area::new(kind, channels, layout, frames) };
    let lengths = source.lengths(0..frames);
    let label = args.input.display().to_string();
    let limit = args.limit.max_header;
    let left_out = what_shortens(&area, &options, &chunks);
    check_given(limit, &area, &options, &chunks)
        .map_err(|error| not_again(&label, error, &left_out, &area, &options, &lengths))?;
    options.chunks = chunks::read(chunks)?;
    let file = File::build_within(limit.0, &area, &options, &lengths, source)
        .map_err(|error| not_again(&label, error, &left_out, &area, &options, &lengths))?;
    for note in notes {
        ui.say(&format!("{label}: {note}"))?;
    }
    let shown = args.output.display().to_string();
    let output = Output::create(&args.output, ui.force)?;
    copy::write(&file, output, &shown, ui).map_err(|fault| match file.source().source().wrong_crc() {
        Some(words) => Fault::File(format!("{label}: {words}{DROP_CRCS}")),
        None => fault,
    })?;
    ui.say(&format!("{shown}: {}, {} bytes", counted(frames), file.len()))
}

/// What is against the file, and what can be done about it here: the remedies of refusals are for those who give the
/// values. `left_out` is what makes header and trailer shorter.
fn not_again(label: &str, error: BuildError, left_out: &str, area: &Area, options: &Options, lengths: &[u32]) -> Fault {
    match error {
        BuildError::Refused(refusal) => {
            let hint = what_helps(refusal, area, options, lengths);
            Fault::Refused(format!("{label}: cannot be written again: {refusal}{hint}"))
        }
        BuildError::AboveLimit { measured, bytes, .. } => {
            Fault::Manifest(format!("{label}: {error}{left_out}{}", raise(measured, bytes)))
        }
        error => Fault::Output(format!("{label}: {error}")),
    }
}

/// What to leave out, of what there is, so that header and trailer are shorter. Chunks that are not known here can't be
/// left out; they are told if they are most of what is given.
fn what_shortens(area: &Area, options: &Options, chunks: &[Unread]) -> String {
    let unknown = chunks.iter().map(Unread::size).fold(0, u64::saturating_add);
    let mut lines = String::new();
    if unknown > given_bytes(area, options) {
        lines += &format!("\n  chunks that are not known here have {unknown} bytes; they are always carried over");
    }
    if !options.comments.is_empty() {
        lines += DROP_COMMENTS;
    }
    // Where none are given tracks make them.
    if options.custom_markers != Some(vec![]) {
        lines += DROP_MARKERS;
    }
    lines
}

/// What to leave out so that the library does not refuse this.
fn what_helps(refusal: Refusal, area: &Area, options: &Options, lengths: &[u32]) -> String {
    let helps = |comments: bool, markers: bool| {
        let mut left = options.clone();
        if comments {
            left.comments.clear();
        }
        if markers {
            left.custom_markers = Some(vec![]);
        }
        match jangqeruz::verdict(area, &left, lengths) {
            Err(BuildError::Refused(other)) => other.number() != refusal.number(),
            verdict => verdict.is_ok(),
        }
    };
    if helps(true, false) {
        DROP_COMMENTS.into()
    } else if helps(false, true) {
        let count = options.custom_markers.as_ref().map_or(0, Vec::len);
        let shorter = match refusal {
            Refusal::Limits => format!("\n  {count} markers are in the span; --from and --to give a shorter one"),
            _ => String::new(),
        };
        format!("{shorter}{DROP_MARKERS}")
    } else if helps(true, true) {
        format!("{DROP_COMMENTS}{DROP_MARKERS}")
    } else if refusal.number() == Refusal::Playtime.number() {
        "\n  --from and --to give a shorter span".into()
    } else {
        format!("\n  dff explain {} tells more of it", refusal.number())
    }
}

/// The frames that are asked for.
fn span(args: &CutArgs, source: &DffSource) -> Result<Range<u32>, Fault> {
    let frames = source.frames();
    let name = args.input.display();
    if let (None, Some(bytes)) = (args.to, source.short_frame()) {
        let words = format!("{name}: the last frame has only {bytes} bytes, and only whole frames can be cut");
        return Err(Fault::File(format!("{words}\n  --to {frames} leaves it out")));
    }
    let Time(from) = args.from.unwrap_or(Time(0));
    let Time(to) = args.to.unwrap_or(Time(frames));
    if from >= to || to > frames {
        let (from_words, to_words, end) = (Time(from), Time(to), Time(frames));
        let words = format!("no span from {from} ({from_words}) to {to} ({to_words})");
        return Err(Fault::Manifest(format!("{words}: {name} has {}, it ends at {end}", counted(frames))));
    }
    Ok(from..to)
}
