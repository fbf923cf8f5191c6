//! The simplest DST frame that is really coded: one filter that predicts nothing, one probability, a half, for every bit. It is
//! a few bytes longer than the content; decoders have to get the content from it.

/// A half, of 256.
const HALF: u32 = 128;

/// The frame of a content of so many channels.
pub fn frame(content: &[u8], channels: u8) -> Vec<u8> {
    let mut bits = Bits::default();
    // Coded; one segmentation for all, to the end of each channel; one mapping, the same filter for all channels.
    bits.put(0b1, 1);
    bits.put(0b111, 3);
    bits.put(0b11, 2);
    // No half probability at the start of any channel.
    bits.put(0, channels.into());
    // A filter of one coefficient, not coded, which is 0; two probabilities, not coded, both a half.
    bits.put(0, 7 + 1 + 9);
    bits.put(1, 6);
    bits.put(0, 1);
    bits.put(HALF - 1, 7);
    bits.put(HALF - 1, 7);
    bits.put(0, 1);
    let mut coder = Coder { bits, low: 0, width: 4_095 };
    // The DST X bit, whose probability follows from the first coefficient.
    coder.put(true, 1);
    // Bits in time order, of each time all channels.
    for bytes in content.chunks(channels.into()) {
        for bit in (0..8).rev() {
            bytes.iter().for_each(|byte| coder.put(byte >> bit & 1 == 1, HALF));
        }
    }
    coder.end().bytes()
}

#[derive(Default)]
struct Bits(Vec<bool>);

impl Bits {
    /// The low `count` bits of a number, the highest first.
    fn put(&mut self, number: u32, count: u32) {
        self.0.extend((0..count).rev().map(|bit| number >> bit & 1 == 1));
    }

    /// Adds one to the number that the bits are.
    fn carry(&mut self) {
        for bit in self.0.iter_mut().rev() {
            *bit = !*bit;
            if *bit {
                break;
            }
        }
    }

    fn bytes(&self) -> Vec<u8> {
        let byte = |bits: &[bool]| bits.iter().enumerate().map(|(place, &bit)| u8::from(bit) << (7 - place)).sum();
        self.0.chunks(8).map(byte).collect()
    }
}

/// DST's arithmetic coder, with registers of 12 bits.
struct Coder {
    bits: Bits,
    low: u32,
    width: u32,
}

impl Coder {
    fn put(&mut self, bit: bool, probability: u32) {
        let zero = (self.width >> 8 | self.width >> 7 & 1) * probability;
        let one = self.width - zero;
        if bit {
            self.width = one;
        } else {
            self.low += one;
            self.width = zero;
        }
        while self.width < 2_048 {
            self.shift();
            self.width <<= 1;
        }
    }

    fn shift(&mut self) {
        if self.low >= 4_096 {
            self.bits.carry();
            self.low -= 4_096;
        }
        self.bits.put(self.low >> 11, 1);
        self.low = self.low << 1 & 4_095;
    }

    fn end(mut self) -> Bits {
        (0..12).for_each(|_| self.shift());
        self.bits
    }
}
