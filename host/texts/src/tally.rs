//! What the texts met: the answers, counted.

use samblokur_sys::text::TextReport;
use std::fmt;

/// The numbers that reading can answer; 0 is accepted.
const NUMBERS: [u32; 9] = [0, 3, 9, 10, 11, 40, 41, 42, 43];

/// Counts of what was met.
#[derive(Clone, Debug, Default)]
pub struct Tally {
    /// Texts read.
    pub texts: u64,
    /// Texts whose answer was known.
    pub known: u64,
    met: [u64; 9],
    /// Answers that no text may get.
    pub others: u64,
}

impl Tally {
    /// Counts an answer.
    pub fn answer(&mut self, report: &TextReport) {
        self.texts += 1;
        match NUMBERS.iter().position(|&number| number == report.number) {
            Some(place) => self.met[place] += 1,
            None => self.others += 1,
        }
    }

    /// How often the rarest answer was met.
    pub fn rarest(&self) -> u64 {
        self.met.into_iter().min().unwrap_or(0)
    }
}

impl fmt::Display for Tally {
    fn fmt(&self, f: &mut fmt::Formatter<'_>) -> fmt::Result {
        write!(f, "texts {}, of them {} with a known answer; answers", self.texts, self.known)?;
        for (number, met) in NUMBERS.iter().zip(self.met) {
            write!(f, " {number}: {met}")?;
        }
        writeln!(f)
    }
}
