//! What the calls met: the refusal numbers, endings and codes, counted.

use samblokur_sys::{Report, State};
use std::fmt;

/// The refusal numbers of the paper.
const NUMBERS: [u32; 21] = [1, 2, 3, 4, 5, 6, 7, 8, 9, 10, 11, 12, 20, 21, 22, 23, 24, 25, 30, 31, 32];

/// Counts of what was met.
#[derive(Clone, Debug, Default)]
pub struct Tally {
    /// Calls made.
    pub calls: u64,
    /// Micro steps done.
    pub steps: u64,
    accepted: u64,
    refused: [u64; 21],
    quiet: u64,
    spent: u64,
    statuses: [u64; 7],
    outcomes: [u64; 4],
    failures: [u64; 6],
}

impl Tally {
    /// Counts an answer.
    pub fn answer(&mut self, report: &Report) {
        self.calls += 1;
        self.steps += u64::from(report.steps);
        self.accepted += u64::from(report.number == 0);
        for (met, number) in self.refused.iter_mut().zip(NUMBERS) {
            *met += u64::from(report.number == number);
        }
    }

    /// Counts an accepted run or turn and the codes in the state that it left.
    pub fn run(&mut self, nodes: usize, state: &State, report: &Report) {
        self.quiet += u64::from(report.ending == 1);
        self.spent += u64::from(report.ending == 2);
        for i in 0..nodes.min(256) {
            count(&mut self.statuses, state.status[i]);
            count(&mut self.outcomes, state.outcome[i]);
            count(&mut self.failures, state.failure[i]);
        }
    }

    /// How often the rarest of all was met.
    pub fn rarest(&self) -> u64 {
        let codes = self.statuses.iter().chain(&self.outcomes).chain(&self.failures);
        let all = self.refused.iter().chain(codes).chain([&self.quiet, &self.spent]);
        all.min().copied().unwrap_or(0)
    }
}

fn count(codes: &mut [u64], code: u8) {
    if let Some(met) = codes.get_mut(usize::from(code)) {
        *met += 1;
    }
}

impl fmt::Display for Tally {
    fn fmt(&self, f: &mut fmt::Formatter<'_>) -> fmt::Result {
        writeln!(f, "calls {}, micro steps {}", self.calls, self.steps)?;
        writeln!(
            f,
            "accepted {}; runs and turns to Quiet {}, Spent {}",
            self.accepted, self.quiet, self.spent
        )?;
        write!(f, "refused ")?;
        for (number, met) in NUMBERS.iter().zip(self.refused) {
            write!(f, " {number}: {met}")?;
        }
        writeln!(
            f,
            "\nstatuses {:?}\noutcomes {:?}\nfailures {:?}",
            self.statuses, self.outcomes, self.failures
        )
    }
}
