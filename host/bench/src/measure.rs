//! The time of a piece of work, divided by how much was done.

use std::time::{Duration, Instant};

/// The least time met for each piece; a shared machine only ever adds to it.
#[derive(Clone, Copy, Debug, Default)]
pub struct Measure {
    least: Option<f64>,
}

impl Measure {
    /// Repeats a work, which answers how many pieces it did, for a while.
    pub fn of(mut work: impl FnMut() -> u32) -> Measure {
        let mut measure = Measure::default();
        let begun = Instant::now();
        while begun.elapsed() < Duration::from_millis(30) {
            let start = Instant::now();
            let pieces = work();
            let ns = start.elapsed().as_nanos() as f64 / f64::from(pieces.max(1));
            measure.better(Measure { least: Some(ns) });
        }
        measure
    }

    /// Keeps the smaller of two.
    pub fn better(&mut self, other: Measure) {
        self.least = self.least.into_iter().chain(other.least).reduce(f64::min);
    }

    /// The time without that of a part.
    pub fn less(self, part: Measure) -> Measure {
        Measure { least: Some(self.ns() - part.ns()) }
    }

    /// The time of one of so many parts.
    pub fn each_of(self, parts: u32) -> Measure {
        Measure { least: Some(self.ns() / f64::from(parts)) }
    }

    /// The nanoseconds of a piece.
    pub fn ns(&self) -> f64 {
        self.least.unwrap_or(f64::NAN)
    }
}
