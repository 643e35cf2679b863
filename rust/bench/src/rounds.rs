//! Alternating rounds on a clock.

use std::time::{Duration, Instant};

/// The times of the rounds of one side.
#[derive(Debug, Clone, Default)]
pub struct Times {
    rounds: Vec<Duration>,
}

impl Times {
    /// Runs the work once on the clock.
    pub fn take(&mut self, work: impl FnOnce()) {
        let clock = Instant::now();
        work();
        self.rounds.push(clock.elapsed());
    }

    /// Whether no round was run.
    pub fn is_empty(&self) -> bool {
        self.rounds.is_empty()
    }

    /// The nanoseconds of the fastest round, for one of `parts` equal parts of its work.
    pub fn best(&self, parts: usize) -> f64 {
        let best = self.rounds.iter().min().expect("a round");
        best.as_nanos() as f64 / parts as f64
    }

    /// The same for the middle one of all rounds.
    pub fn median(&self, parts: usize) -> f64 {
        let mut sorted = self.rounds.clone();
        sorted.sort();
        sorted[sorted.len() / 2].as_nanos() as f64 / parts as f64
    }
}
