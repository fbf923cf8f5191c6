//! A list of reads that covers a file: each adds what it filled to what is gathered.

use library::reads::{self as ours, Format, NO_FILE, WRONGLY_LENT};

use super::hold::{Called, Held};
use super::refused::spoil;
use super::Window;
use crate::hex;

/// The bytes gathered so far.
struct Gathered(Vec<Option<u8>>);

impl Gathered {
    /// Adds what an accepted read filled.
    fn add(&mut self, window: Window, called: &Called) {
        let filled = called.value.min(window.length) as usize;
        if called.number != 0 || filled == 0 {
            return;
        }
        let start = window.offset as usize;
        if self.0.len() < start + filled {
            self.0.resize(start + filled, None);
        }
        for (byte, &read) in self.0[start..].iter_mut().zip(&called.buffer.bytes[..filled]) {
            *byte = Some(read);
        }
    }

    fn told(&self) -> String {
        let bytes = self.0.iter().map(|byte| byte.map_or("..".into(), |byte| hex(&[byte])));
        bytes.collect()
    }
}

/// The file cut into pieces, each made longer in front and behind, in any order.
fn windows(held: &mut Held, size: usize) -> Vec<Window> {
    let random = &mut held.random;
    let mut cuts: Vec<usize> = (0..random.between(0, 40)).map(|_| random.place(size)).collect();
    cuts.extend([0, size]);
    cuts.sort_unstable();
    let pieces = cuts.windows(2).map(|cut| {
        let most = random.pick(&[0, 1, 2, 30]);
        let start = cut[0].saturating_sub(random.between(0, most) as usize);
        let end = cut[1] + random.between(0, most) as usize;
        Window { offset: start as u64, length: (end - start) as u64 }
    });
    let mut pieces: Vec<Window> = pieces.collect();
    random.shuffle(&mut pieces);
    pieces
}

/// Gathers the file by such a list, with refused reads in between, and holds it against the original's. What a read is
/// lent goes by our own query.
pub fn hold(held: &mut Held, original: &[u8]) {
    let (file, sound) = (held.file, &held.file.sound);
    let mut gathered = Gathered(Vec::new());
    let (mut reads, mut refused) = (0, 0);
    for window in windows(held, original.len()) {
        let format = held.format();
        let asked = ours::query(format, file.header_bytes(), file.trailer_bytes(), window.offset, window.length);
        let (0, [first, end]) = asked else {
            return held.differs("query of a list", window.told(), format!("ours: {asked:?}"));
        };
        if first > end || end > sound.positions() as u64 {
            return held.differs("query of a list", window.told(), format!("ours: {asked:?}"));
        }
        let positions = first as usize..end as usize;
        if held.random.one_in(2) {
            let mut lent = held.lent(&positions);
            spoil(&mut lent, sound, &mut held.random);
            let (format, number) = match held.random.one_in(3) {
                true => (Format { channels: 0, ..format }, NO_FILE),
                false => (format, WRONGLY_LENT),
            };
            held.hold_refused("refused read of a list", format, window, &lent, number);
            gathered.add(window, &held.call(format, window, &lent));
            refused += 1;
        }
        let lent = held.lent(&positions);
        gathered.add(window, &held.call(format, window, &lent));
        reads += 1;
    }
    if !gathered.0.iter().copied().eq(original.iter().copied().map(Some)) {
        held.differs("a list of reads", format!("wanted: {}", hex(original)), format!("ours: {}", gathered.told()));
    }
    held.counts.list(file, reads, refused, original.len() as u64);
}
