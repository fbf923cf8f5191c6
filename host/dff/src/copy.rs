//! The whole of a built file into an output: one thread reads, the other writes.

use crate::output::Output;
use crate::progress::Progress;
use crate::sources::Sound;
use crate::{Fault, Ui};
use jangqeruz::{File, ReadError, Scratch};
use std::sync::mpsc::{Receiver, SyncSender, sync_channel};
use std::thread::Builder;

/// How many bytes one read asks for, and how many such pieces are under way. Measured by bench.sh.
const PIECE: usize = 1 << 19;
const PIECES: usize = 4;

/// Copies, holds the source against what it was, and gives the output its name. `shown` is the output in messages.
pub fn write<S: Sound>(file: &File<S>, mut output: Output, shown: &str, ui: &Ui) -> Result<(), Fault> {
    output.reserve(file.len())?;
    copy(file, &mut output, &ui.progress(shown, file.len()), Builder::new()).map_err(|failed| named(failed, shown))?;
    file.source().still_the_same()?;
    output.finish()
}

/// What a read failed of. A source's fault names the source already.
enum Failed {
    Read(Fault),
    Write(Fault),
}

/// The fault with the output's name, where it has no name yet.
fn named(failed: Failed, shown: &str) -> Fault {
    match failed {
        Failed::Read(fault @ Fault::Source(_)) | Failed::Write(fault) => fault,
        Failed::Read(fault) => fault.at(shown),
    }
}

type Piece = Result<Vec<u8>, Fault>;

/// Copies by two threads; by one, where no other can be had.
fn copy<S: Sound>(file: &File<S>, output: &mut Output, progress: &Progress, thread: Builder) -> Result<(), Failed> {
    let (filled, arrived) = sync_channel::<Piece>(PIECES);
    let (used, free) = sync_channel::<Vec<u8>>(PIECES);
    std::thread::scope(|scope| match thread.spawn_scoped(scope, move || read(file, &free, &filled)) {
        Ok(_) => take(arrived, used, output, progress),
        Err(_) => alone(file, output, progress),
    })
}

fn alone<S: Sound>(file: &File<S>, output: &mut Output, progress: &Progress) -> Result<(), Failed> {
    let (mut scratch, mut buffer, mut offset) = (Scratch::default(), Vec::new(), 0u64);
    while offset < file.len() {
        fill(file, offset, &mut buffer, &mut scratch).map_err(Failed::Read)?;
        output.write_all(&buffer).map_err(Failed::Write)?;
        offset += buffer.len() as u64;
        progress.advance(buffer.len() as u64);
    }
    Ok(())
}

/// Writes what arrives, and hands the buffers back. Both ends are gone when it is done, so that the reader does not wait
/// for a buffer that nobody hands back.
fn take(
    arrived: Receiver<Piece>,
    used: SyncSender<Vec<u8>>,
    output: &mut Output,
    progress: &Progress,
) -> Result<(), Failed> {
    for piece in arrived {
        let piece = piece.map_err(Failed::Read)?;
        output.write_all(&piece).map_err(Failed::Write)?;
        progress.advance(piece.len() as u64);
        // The reader may have had its last.
        let _ = used.send(piece);
    }
    Ok(())
}

/// Reads the file from its start to its end, piece by piece.
fn read<S: Sound>(file: &File<S>, free: &Receiver<Vec<u8>>, filled: &SyncSender<Piece>) {
    let mut scratch = Scratch::default();
    let (mut offset, mut taken) = (0u64, 0usize);
    while offset < file.len() {
        // New buffers first, then those that come back.
        let buffer = if taken < PIECES { Some(Vec::new()) } else { free.recv().ok() };
        taken += 1;
        let Some(mut buffer) = buffer else {
            return;
        };
        let piece = fill(file, offset, &mut buffer, &mut scratch).map(|()| buffer);
        offset += piece.as_ref().map_or(0, |piece| piece.len() as u64);
        let failed = piece.is_err();
        if filled.send(piece).is_err() || failed {
            return;
        }
    }
}

fn fill<S: Sound>(file: &File<S>, offset: u64, buffer: &mut Vec<u8>, scratch: &mut Scratch) -> Result<(), Fault> {
    let wanted = usize::try_from(file.len() - offset).unwrap_or(PIECE).min(PIECE);
    if buffer.try_reserve(wanted.saturating_sub(buffer.len())).is_err() {
        return Err(Fault::Output(format!("no memory for {wanted} bytes")));
    }
    buffer.resize(wanted, 0);
    match file.read_at_with(offset, buffer, scratch) {
        Ok(count) if count == wanted => Ok(()),
        Ok(count) => Err(Fault::Output(format!("a read gave {count} bytes where there are {wanted}"))),
        Err(ReadError::Source(error)) => Err(Fault::Source(error.to_string())),
        Err(ReadError::Refused(refusal)) => Err(Fault::Refused(refusal.to_string())),
        Err(error) => Err(Fault::Output(error.to_string())),
    }
}

#[cfg(test)]
mod tests {
    use super::{Builder, Failed, copy};
    use crate::output::Output;
    use crate::sources::Sound;
    use crate::{Fault, Ui};
    use jangqeruz::{Area, File, Kind, Layout, Options, Source};
    use std::ops::Range;

    /// Frames that have their number in each byte.
    struct Numbered;

    impl Source for Numbered {
        fn fetch(&self, frames: Range<u32>, _coded: &mut [u8], plain: &mut [u8]) -> std::io::Result<()> {
            for (number, frame) in frames.zip(plain.chunks_mut(4_704)) {
                frame.fill(number as u8);
            }
            Ok(())
        }
    }

    impl Sound for Numbered {
        fn kind(&self) -> Kind {
            Kind::Dsd
        }

        fn channels(&self) -> u32 {
            1
        }

        fn frames(&self) -> u32 {
            300
        }

        fn lengths(&self, _range: Range<u32>) -> Vec<u32> {
            vec![]
        }

        fn still_the_same(&self) -> Result<(), Fault> {
            Ok(())
        }
    }

    /// A folder of its own.
    fn folder(name: &str) -> std::path::PathBuf {
        let folder = std::env::temp_dir().join(format!("dff-{name}-{}", std::process::id()));
        std::fs::create_dir(&folder).unwrap();
        folder
    }

    #[test]
    fn a_write_that_fails_ends_it() {
        let folder = folder("unwritable");
        let area = Area::new(Kind::Dsd, 1, Layout::Unspecified, 3_000); // more pieces than are under way
        let file = File::build(&area, &Options::default(), &[], Numbered).unwrap();
        let mut out = Vec::new();
        let ui = Ui::new(true, false, &mut out);
        for thread in [Builder::new(), Builder::new().stack_size(1 << 60)] {
            let mut output = Output::create(&folder.join("none"), false).unwrap().unwritable();
            let copied = copy(&file, &mut output, &ui.progress("none", file.len()), thread);
            assert!(matches!(copied, Err(Failed::Write(Fault::Output(_)))));
        }
        std::fs::remove_dir(&folder).unwrap();
    }

    #[test]
    fn without_a_thread_it_is_the_same() {
        let folder = folder("copy");
        let area = Area::new(Kind::Dsd, 1, Layout::Unspecified, 300);
        let file = File::build(&area, &Options::default(), &[], Numbered).unwrap();
        let mut out = Vec::new();
        let ui = Ui::new(true, false, &mut out);
        // No system has the memory for the second one's stack.
        for (name, thread) in [("two", Builder::new()), ("one", Builder::new().stack_size(1 << 60))] {
            let mut output = Output::create(&folder.join(name), false).unwrap();
            assert!(copy(&file, &mut output, &ui.progress(name, file.len()), thread).is_ok());
            output.finish().unwrap();
        }
        let [two, one] = ["two", "one"].map(|name| std::fs::read(folder.join(name)).unwrap());
        assert!(one.len() as u64 == file.len() && one == two);
        std::fs::remove_dir_all(&folder).unwrap();
    }
}
