//! How many runs are done, told on a terminal while they take long.

use std::io::{self, IsTerminal, Write};
use std::time::{Duration, Instant};

/// Nothing is told before, nor more often.
const PAUSE: Duration = Duration::from_millis(300);

/// What is told of the runs of a command.
pub struct Progress {
    done: u32,
    all: u32,
    told: Instant,
    shown: bool,
    terminal: bool,
}

impl Progress {
    /// No run is done of so many.
    pub fn new(all: u32) -> Progress {
        Progress {
            done: 0,
            all,
            told: Instant::now(),
            shown: false,
            terminal: io::stderr().is_terminal(),
        }
    }

    /// So many more are done.
    pub fn advance(&mut self, runs: u32) {
        self.done += runs;
        if !self.terminal || self.told.elapsed() < PAUSE || self.done >= self.all {
            return;
        }
        self.told = Instant::now();
        self.shown = true;
        // What cannot be told is no fault of the answer.
        let _ = write!(io::stderr(), "\r{} of {} runs", self.done, self.all);
    }

    /// Takes away what was told, once all is done.
    pub fn clear(&mut self) {
        if self.shown && self.done >= self.all {
            let _ = write!(io::stderr(), "\r\x1b[K");
            self.shown = false;
        }
    }
}
