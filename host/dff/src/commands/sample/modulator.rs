//! A tone as DSD: a sigma-delta modulator of second order.

use std::f64::consts::TAU;

/// Samples of a channel in a second.
const RATE: f64 = 2_822_400.0;

/// Half of what the format takes as full scale, far inside what the modulator can follow.
const LOUDNESS: f64 = 0.25;

/// Samples in which the tone comes in and goes out: 20 ms.
const FADE: usize = 56_448;

pub struct Tone {
    /// The tone's phase as a point on a circle, and the turn from sample to sample.
    point: (f64, f64),
    turn: (f64, f64),
    sample: usize,
    samples: usize,
    /// The modulator's two integrators, and its last bit as 1 or -1.
    first: f64,
    second: f64,
    last: f64,
}

impl Tone {
    pub fn new(frequency: f64, samples: usize) -> Tone {
        let (sine, cosine) = (frequency * TAU / RATE).sin_cos();
        Tone { point: (1.0, 0.0), turn: (cosine, sine), sample: 0, samples, first: 0.0, second: 0.0, last: 1.0 }
    }

    pub fn next_bit(&mut self) -> bool {
        let input = self.next_input();
        self.first += 0.5 * (input - self.last);
        self.second += 0.5 * (self.first - self.last);
        let bit = self.second >= 0.0;
        self.last = if bit { 1.0 } else { -1.0 };
        bit
    }

    fn next_input(&mut self) -> f64 {
        let (x, y) = self.point;
        let (cosine, sine) = self.turn;
        self.point = (x * cosine - y * sine, x * sine + y * cosine);
        let edge = self.sample.min(self.samples.saturating_sub(self.sample)).min(FADE);
        self.sample += 1;
        LOUDNESS * y * edge as f64 / FADE as f64
    }
}

#[cfg(test)]
mod tests {
    use super::{LOUDNESS, RATE, Tone};
    use std::f64::consts::TAU;

    /// The amplitude of a frequency in the bits.
    fn amplitude(bits: &[bool], frequency: f64) -> f64 {
        let (mut real, mut imaginary) = (0.0, 0.0);
        for (place, bit) in bits.iter().enumerate() {
            let value = if *bit { 1.0 } else { -1.0 };
            let (sine, cosine) = (place as f64 * frequency * TAU / RATE).sin_cos();
            real += value * cosine;
            imaginary += value * sine;
        }
        2.0 * f64::hypot(real, imaginary) / bits.len() as f64
    }

    #[test]
    fn the_tone_is_in_the_bits_and_the_modulator_is_stable() {
        let samples = 10 * 37_632;
        let mut tone = Tone::new(440.0, 4 * samples);
        let mut bits = Vec::new();
        for _ in 0..2 * samples {
            bits.push(tone.next_bit());
            assert!(tone.first.abs() < 4.0 && tone.second.abs() < 4.0);
        }
        // From the first whole period behind the fade on, for a whole number of periods.
        let there = &bits[samples..];
        let (tone, other) = (amplitude(there, 440.0), amplitude(there, 1_000.0));
        assert!((tone - LOUDNESS).abs() < 0.01, "{tone}");
        assert!(other < 0.001, "{other}");
    }
}
