//! The command line.

use crate::dates::Date;
use crate::sizes::Size;
use crate::times::Time;
use clap::{Args, Parser, Subcommand, ValueHint};
use clap_complete::Shell;
use std::path::PathBuf;

/// Makes DSDIFF (.dff) files of DSD and DST sound, byte for byte by a proved writer
#[derive(Debug, Parser)]
#[command(name = "dff", version, propagate_version = true, max_term_width = 100, after_help = STATUSES)]
#[command(long_about = ABOUT)]
pub struct Cli {
    /// Print errors only
    #[arg(long, short, global = true)]
    pub quiet: bool,
    /// Replace output files that are there already
    #[arg(long, short, global = true)]
    pub force: bool,
    #[command(subcommand)]
    pub command: Command,
}

const ABOUT: &str = "Makes DSDIFF (.dff) files of DSD and DST sound. Every byte of a file that `dff` writes comes from \
a writer that is proved against definitions of the format; what `dff` reads of other files (show, comments, \
verify, cut) is not proved.";

const STATUSES: &str = "\
Exit status: 0 done, 1 file at fault, 2 usage or manifest, 3 refused, 4 source missing, short or changed, 5 output.
Times are frames (750) or hh:mm:ss:ff (00:00:10:00); a second has 75 frames.

Start here:
  dff sample try && dff build try/sample.toml -o try && dff show try/tone.dff";

#[derive(Debug, Subcommand)]
pub enum Command {
    /// Write the files of a manifest
    #[command(long_about = BUILD, after_help = BUILD_EXAMPLES)]
    Build(BuildArgs),
    /// Write a span of a .dff file as a file of its own
    #[command(long_about = CUT, after_help = CUT_EXAMPLES)]
    Cut(CutArgs),
    /// Say which files of a manifest can be written
    #[command(long_about = CHECK, after_help = CHECK_EXAMPLES)]
    Check(CheckArgs),
    /// Show the chunks of a .dff file
    #[command(long_about = SHOW, after_help = SHOW_EXAMPLES)]
    Show(ShowArgs),
    /// List the comments of a .dff file by date, all or those of a window
    #[command(long_about = COMMENTS, after_help = COMMENTS_EXAMPLES)]
    Comments(CommentsArgs),
    /// Test a .dff file: sizes, pads, index, CRCs
    #[command(long_about = VERIFY, after_help = VERIFY_EXAMPLES)]
    Verify(VerifyArgs),
    /// Explain a refusal, or list them all
    #[command(long_about = EXPLAIN, after_help = EXPLAIN_EXAMPLES)]
    Explain(ExplainArgs),
    /// Make a short recording and a manifest to try `dff` with
    #[command(long_about = SAMPLE, after_help = SAMPLE_EXAMPLES)]
    Sample(SampleArgs),
    /// Print completions for a shell
    #[command(long_about = COMPLETIONS, after_help = COMPLETIONS_EXAMPLES)]
    Completions(CompletionsArgs),
}

const BUILD: &str = "Writes the files of a manifest (dff-manifest(5) has its keys).

First every file's verdict is asked for and every source is opened: if anything is refused or missing, all of it \
is reported and nothing is written. Each file then gets its name only when it is complete and on the disk, so \
that a run that fails or is killed leaves no half file. A source that changes while it is read is an error (4).";

const BUILD_EXAMPLES: &str = "Examples:
  dff build album.toml                      into the current folder, sources beside the manifest
  dff build album.toml -o out --sources in  into out/, sources from in/
  dff build album.toml --force              replaces files that are there";

/// Of all commands that build files.
#[derive(Args, Debug)]
pub struct LimitArgs {
    /// Most bytes that header and trailer of a file may have together, as 65536 or 512MiB
    #[arg(long, value_name = "SIZE", default_value = "1GiB", allow_negative_numbers = true)]
    pub max_header: Size,
}

#[derive(Args, Debug)]
pub struct BuildArgs {
    /// The manifest, a TOML file
    #[arg(value_hint = ValueHint::FilePath)]
    pub manifest: PathBuf,
    /// Folder of the files that are written; made if it is missing
    #[arg(long, short, value_name = "DIR", default_value = ".", value_hint = ValueHint::DirPath)]
    pub output: PathBuf,
    /// Folder of the sources [default: the manifest's]
    #[arg(long, value_name = "DIR", value_hint = ValueHint::DirPath)]
    pub sources: Option<PathBuf>,
    #[command(flatten)]
    pub limit: LimitArgs,
}

const CUT: &str = "Writes a span of a .dff file, DSD or DST, as a file of its own. No frame is altered. Start \
time, markers, texts, comments and chunks that are not known here are carried over; what can't be written again \
is an error (1), and so is what the library refuses (3). Frames count from 0 at the file's first, also if it has a \
start time.

The input is read by a strict walk that is not proved; the output is made by the proved writer. The frames' CRCs \
of a DST file are worked out anew, for which the plain content is wanted (--plain); or they are left out \
(--drop-crc).";

const CUT_EXAMPLES: &str = "Examples:
  dff cut album.dff --from 00:03:10:00 --to 00:07:25:37 -o second.dff
  dff cut album.dff --from 750 -o rest.dff
  dff cut dst.dff --to 750 -o short.dff --plain sound.raw";

#[derive(Args, Debug)]
pub struct CutArgs {
    /// The .dff file to cut from
    #[arg(value_name = "IN.dff", value_hint = ValueHint::FilePath)]
    pub input: PathBuf,
    /// First frame of the span [default: the file's first]
    #[arg(long, value_name = "T")]
    pub from: Option<Time>,
    /// One past its last frame [default: the file's end]
    #[arg(long, value_name = "T")]
    pub to: Option<Time>,
    /// The file to write
    #[arg(long, short, value_name = "OUT", value_hint = ValueHint::FilePath)]
    pub output: PathBuf,
    /// Plain content of all frames of the input, joined: for the CRCs of DST frames
    #[arg(long, value_name = "FILE", value_hint = ValueHint::FilePath, conflicts_with = "drop_crc")]
    pub plain: Option<PathBuf>,
    /// Leave out the CRCs of DST frames
    #[arg(long)]
    pub drop_crc: bool,
    /// Leave out the markers
    #[arg(long)]
    pub drop_markers: bool,
    /// Leave out the comments
    #[arg(long)]
    pub drop_comments: bool,
    #[command(flatten)]
    pub limit: LimitArgs,
}

const CHECK: &str = "Says of each file of a manifest whether it can be written, a line each, and writes nothing. \
The sources are opened, since their sizes are part of it; their sound is not read.";

const CHECK_EXAMPLES: &str = "Examples:
  dff check album.toml
  dff check album.toml --sources in && dff build album.toml --sources in -o out";

#[derive(Args, Debug)]
pub struct CheckArgs {
    /// The manifest, a TOML file
    #[arg(value_hint = ValueHint::FilePath)]
    pub manifest: PathBuf,
    /// Folder of the sources [default: the manifest's]
    #[arg(long, value_name = "DIR", value_hint = ValueHint::DirPath)]
    pub sources: Option<PathBuf>,
    #[command(flatten)]
    pub limit: LimitArgs,
}

const SHOW: &str = "Shows the chunks of a .dff file as a tree, with their places, sizes and values, and the \
index against the frames. The file is read by a strict walk that is not proved.";

const SHOW_EXAMPLES: &str = "Examples:
  dff show one.dff
  dff show one.dff --json | jq .";

#[derive(Args, Debug)]
pub struct ShowArgs {
    /// The .dff file
    #[arg(value_hint = ValueHint::FilePath)]
    pub file: PathBuf,
    /// Print JSON
    #[arg(long)]
    pub json: bool,
}

const COMMENTS: &str = "Lists the comments of a .dff file by date, a line each: the earliest first, of one date in the \
file's order. Behind these stand comments whose date the calendar does not have, with the number of what is wrong with \
it (34 past a limit, 46 no such date), then undated ones, whose month and day are both 0.

With --from, --to or both only comments with a date in that window are listed, from the minute of --from on and before \
that of --to. A date alone is its first minute, 00:00: `--to 2025-01-01` takes all of 2024 and nothing of 2025. Undated \
comments are in no window.

The file is read by a strict walk that is not proved; its dates are judged by the proved library.";

const COMMENTS_EXAMPLES: &str = "Examples:
  dff comments one.dff
  dff comments one.dff --from 2024-01-01 --to 2025-01-01   all of 2024
  dff comments one.dff --from 2024-02-29T18:30             that minute and all after it
  dff comments one.dff --json | jq .";

#[derive(Args, Debug)]
pub struct CommentsArgs {
    /// The .dff file
    #[arg(value_hint = ValueHint::FilePath)]
    pub file: PathBuf,
    /// First minute of the window, as 2024-02-29 or 2024-02-29T18:30 [default: no start]
    #[arg(long, value_name = "DATE", allow_negative_numbers = true)]
    pub from: Option<Date>,
    /// Its end, no longer in it: 2025-01-01 takes all of 2024 [default: no end]
    #[arg(long, value_name = "DATE", allow_negative_numbers = true)]
    pub to: Option<Date>,
    /// Print JSON
    #[arg(long)]
    pub json: bool,
}

const VERIFY: &str = "Tests a .dff file: chunks and their sizes, pads, the index's entries, and the frames' CRCs \
where the plain content is at hand. The file is read by a strict walk that is not proved.";

const VERIFY_EXAMPLES: &str = "Examples:
  dff verify one.dff
  dff verify dst.dff --plain sound.raw      with the CRCs of its DST frames";

#[derive(Args, Debug)]
pub struct VerifyArgs {
    /// The .dff file
    #[arg(value_hint = ValueHint::FilePath)]
    pub file: PathBuf,
    /// Plain content of all frames, joined: the CRCs of DST frames are held against it
    #[arg(long, value_name = "FILE", value_hint = ValueHint::FilePath)]
    pub plain: Option<PathBuf>,
}

const EXPLAIN: &str = "Explains a refusal: its number, the contract's words, what to do about it, and the \
definition that says when it is given. Without a number, a line for each of a build or a read.";

const EXPLAIN_EXAMPLES: &str = "Examples:
  dff explain
  dff explain 29";

#[derive(Args, Debug)]
pub struct ExplainArgs {
    /// The refusal's number, 1 to 43; or 46, which is of dates alone
    #[arg(value_parser = refusal)]
    pub number: Option<u32>,
}

fn refusal(text: &str) -> Result<u32, String> {
    match text.parse::<u32>() {
        Ok(number @ (1..=43 | 46)) => Ok(number),
        _ => Err(format!("{text} is not in 1..=43, and not 46")),
    }
}

const SAMPLE: &str = "Makes a short recording of its own in DIR: two seconds of a tone for each of two channels, \
as DSD by a sigma-delta modulator (sound.raw) and as DST frames that are not compressed (frames.dst, their \
lengths in frames.txt), and a manifest (sample.toml) that makes three files of them.";

const SAMPLE_EXAMPLES: &str = "Example:
  dff sample try && dff build try/sample.toml -o try && dff verify try/tone.dff";

#[derive(Args, Debug)]
pub struct SampleArgs {
    /// Folder for the files; made if it is missing
    #[arg(value_name = "DIR", value_hint = ValueHint::DirPath)]
    pub folder: PathBuf,
}

const COMPLETIONS: &str = "Prints the completions of `dff` for a shell.";

const COMPLETIONS_EXAMPLES: &str = "Examples:
  dff completions bash > /etc/bash_completion.d/dff
  dff completions zsh > ~/.zfunc/_dff
  dff completions fish > ~/.config/fish/completions/dff.fish";

#[derive(Args, Debug)]
pub struct CompletionsArgs {
    /// The shell
    pub shell: Shell,
}
