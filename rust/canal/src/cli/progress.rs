//! How far a long run is, for whoever watches a terminal.

use super::failure::tell;
use canal::duration::rough;
use canal::run::Made;
use std::io::{self, IsTerminal};
use std::time::{Duration, Instant};

/// A run that takes less shows nothing.
const PATIENCE: Duration = Duration::from_secs(1);
const PAUSE: Duration = Duration::from_millis(200);
/// The clock is looked at once in so many steps.
const STEPS: u64 = 64;

pub struct Progress {
    /// ms of canal time
    whole: u64,
    watched: bool,
    next: Instant,
    shown: bool,
}

impl Progress {
    pub fn new(whole: u64, quiet: bool) -> Progress {
        Progress {
            whole,
            watched: !quiet && io::stderr().is_terminal(),
            next: Instant::now() + PATIENCE,
            shown: false,
        }
    }

    pub fn show(&mut self, made: &Made) {
        if !self.watched || !made.steps.is_multiple_of(STEPS) || Instant::now() < self.next {
            return;
        }
        let percent = 100.0 * made.time as f64 / self.whole as f64;
        let (time, whole, steps) = (rough(made.time), rough(self.whole), made.steps);
        tell(&format!(
            "\r\x1b[K{time} of {whole} ({percent:.0} %), {steps} steps"
        ));
        self.next = Instant::now() + PAUSE;
        self.shown = true;
    }

    /// Leaves the line as it was.
    pub fn clear(&self) {
        if self.shown {
            tell("\r\x1b[K");
        }
    }
}
