//! `dff verify`: the walk, sizes, pads, the index against the frames, and CRCs where the content is at hand. By the
//! unproved walk and the proved CRC.

mod contents;

use crate::cli::VerifyArgs;
use crate::commands::faults::Faults;
use crate::commands::show::{VERSION, count, version_words};
use crate::sources::dff;
use crate::{Fault, Ui};
use contents::Contents;
use walk::{Crc, Index, Leads, Sound, SoundKind, Walk};

pub fn run(args: VerifyArgs, ui: &Ui) -> Result<(), Fault> {
    let opened = dff::look(&args.file)?;
    let plain = args.plain.as_deref().map(dff::watch).transpose()?;
    let name = args.file.display();
    let mut report = Report { lines: vec![], faults: Faults::of_walk(&opened.walk) };
    report.chunks(&opened.walk);
    report.version(&opened.walk);
    report.pads(&opened.walk);
    if let Some(sound) = &opened.walk.sound {
        report.frames(&opened.walk, sound);
        report.index(opened.walk.index.as_ref(), sound);
    }
    report.leftovers(&opened.walk);
    if let Some(sound) = &opened.walk.sound {
        // Of a file at fault the frames are not those that the content is of.
        if opened.walk.faults.is_empty() {
            let contents = Contents::new(&opened, plain.as_ref())?;
            report.contents(sound, contents.check(ui)?);
        }
    }
    opened.file.still_the_same()?;
    if let Some(plain) = &plain {
        plain.still_the_same()?;
    }
    for line in &report.lines {
        ui.say(line)?;
    }
    match report.faults.told(&args.file) {
        None => ui.say(&format!("{name}: right")),
        Some(fault) => Err(fault),
    }
}

/// What was checked, and what is wrong.
struct Report {
    lines: Vec<String>,
    faults: Faults,
}

impl Report {
    fn chunks(&mut self, walk: &Walk) {
        let count = walk.form.as_ref().map_or(0, |form| {
            1 + form.chunks.len() + form.chunks.iter().map(|chunk| chunk.chunks.len()).sum::<usize>()
        });
        let frames = walk.sound.as_ref().map_or(0, |sound| sound.frames.len() + sound.crcs.len());
        self.lines.push(format!("{} chunks walked, {} bytes", count + frames, walk.size));
    }

    /// Another version is no fault: what this walk looks at may be the same.
    fn version(&mut self, walk: &Walk) {
        if let Some(version) = walk.version.as_ref().filter(|version| version.value != VERSION) {
            let (found, known) = (version_words(version.value), version_words(VERSION));
            self.lines.push(format!("note: at {}: version {found}, looked at as {known}", version.place));
        }
    }

    /// Bytes behind the fields of chunks whose sizes the format fixes.
    fn leftovers(&mut self, walk: &Walk) {
        let crcs = walk.sound.iter().flat_map(|sound| &sound.crcs).filter_map(Crc::leftover);
        for leftover in walk.leftovers.iter().copied().chain(crcs) {
            self.faults.push(|| format!("at {}: {leftover}", leftover.place));
        }
    }

    fn pads(&mut self, walk: &Walk) {
        let pads = &walk.pads;
        self.lines.push(format!("{} pads looked at, {} of them not zero", pads.count, pads.wrong));
        if let Some(place) = pads.first_wrong {
            self.faults.push(|| format!("at {place}: {} pads are not zero; this is the first", pads.wrong));
        }
    }

    fn frames(&mut self, walk: &Walk, sound: &Sound) {
        let frames = walk.frame_count();
        match sound.kind {
            SoundKind::Dsd => {
                let bytes = walk.frame_bytes();
                let rest = sound.size.checked_rem(bytes).unwrap_or(0);
                let short = if rest > 0 { format!(", the last has {rest}") } else { String::new() };
                self.lines.push(format!("{} of {bytes} bytes{short}", count(frames, "DSD frame", "DSD frames")));
            }
            SoundKind::Dst => {
                let told = sound.frame_rate.map_or("none".into(), |rate| rate.frames.to_string());
                self.lines.push(format!("{}, FRTE tells {told}", count(frames, "DST frame", "DST frames")));
            }
        }
    }

    fn index(&mut self, index: Option<&Index>, sound: &Sound) {
        let Some(index) = index else {
            self.lines.push("no index".into());
            return;
        };
        let report = index.against(&sound.frames);
        let leads = match report.leads {
            Leads::ToHeader => "to chunk headers",
            Leads::ToData => "to frame data",
            Leads::Astray => "astray",
        };
        self.lines.push(format!("{} index entries looked at, {} wrong, leading {leads}", report.entries, report.wrong));
        if let Some(wrong) = report.first_wrong {
            let (entry, number) = (wrong.entry, wrong.number);
            let frame = wrong.frame.map_or("no frame".into(), |frame| {
                format!("frame {number} is at {}, {} bytes", report.place_of(&frame), frame.length)
            });
            let words = format!("index entry {number} tells {}, {} bytes; {frame}", entry.offset, entry.length);
            self.faults.push(|| format!("at {}: {words} ({} entries are wrong)", wrong.place, report.wrong));
        }
        if report.entries != report.frames {
            let words =
                format!("{} index entries for {}", report.entries, count(report.frames as u64, "frame", "frames"));
            self.faults.push(|| format!("at {}: {words}", index.place));
        }
    }

    fn contents(&mut self, sound: &Sound, found: contents::Found) {
        if sound.kind == SoundKind::Dst {
            let crcs = sound.crcs.len();
            if crcs > 0 {
                let missing = match crcs as u64 - found.crcs {
                    0 => String::new(),
                    some => format!(", {some} not (their content is not at hand; --plain FILE tells it)"),
                };
                self.lines.push(format!("{} of {crcs} CRCs worked out and compared{missing}", found.crcs));
                let astray = (0u32..).zip(&sound.crcs).find(|(number, crc)| crc.frame != Some(*number));
                if let Some((number, crc)) = astray {
                    self.faults.push(|| format!("at {}: CRC {number} doesn't stand behind frame {number}", crc.place));
                } else if crcs != sound.frames.len() {
                    let words = format!("{crcs} CRCs for {}", count(sound.frames.len() as u64, "frame", "frames"));
                    self.faults.push(|| format!("at {}: {words}", sound.place));
                }
            } else {
                self.lines.push("no CRCs".into());
            }
        }
        if found.compared > 0 {
            self.lines.push(format!("{} compared with the plain content", count(found.compared, "frame", "frames")));
        }
        self.faults.extend(found.faults);
    }
}
