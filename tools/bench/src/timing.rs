//! Times: the best of several repetitions, after one that is not counted.

use std::time::{Duration, Instant};

pub const REPETITIONS: usize = 15;

/// How long a piece of work takes.
pub fn timed(work: impl FnOnce()) -> Duration {
    let start = Instant::now();
    work();
    start.elapsed()
}

/// For each of N columns the least time of all repetitions.
pub fn best<const N: usize>(mut repetition: impl FnMut() -> [Duration; N]) -> [Duration; N] {
    repetition();
    let mut best = [Duration::MAX; N];
    for _ in 0..REPETITIONS {
        for (best, time) in best.iter_mut().zip(repetition()) {
            *best = time.min(*best);
        }
    }
    best
}

/// Nanoseconds of one of so many.
pub fn each(time: Duration, count: usize) -> f64 {
    time.as_nanos() as f64 / count as f64
}

/// How long so many calls take.
pub fn repeated(calls: usize, mut call: impl FnMut()) -> Duration {
    timed(|| (0..calls).for_each(|_| call()))
}

/// Nanoseconds of one of so many calls, for each column.
pub fn best_call<const N: usize>(calls: usize, repetition: impl FnMut() -> [Duration; N]) -> [f64; N] {
    best(repetition).map(|time| each(time, calls))
}
