//! The least time of many repetitions, and how times are shown.

use std::hint::black_box;
use std::time::{Duration, Instant};

/// The least time that something took. Whatever else runs on the machine can only add to a time.
#[derive(Clone, Copy, Debug)]
pub struct Least(Duration);

impl Least {
    pub fn new() -> Least {
        Least(Duration::MAX)
    }

    /// Times one repetition and hands on its result.
    pub fn time<R>(&mut self, repetition: impl FnOnce() -> R) -> R {
        let begun = Instant::now();
        // A result that nobody looks at must be worked out all the same.
        let result = black_box(repetition());
        self.0 = self.0.min(begun.elapsed());
        result
    }

    pub fn milliseconds(self) -> f64 {
        1_000.0 * self.0.as_secs_f64()
    }

    pub fn microseconds(self) -> f64 {
        1_000_000.0 * self.0.as_secs_f64()
    }
}

/// Whether a target was met, in words.
pub fn met(holds: bool) -> &'static str {
    if holds {
        "met"
    } else {
        "missed"
    }
}
