//! A line on standard error every few seconds, so that a long run is seen to go on.

use std::time::{Duration, Instant};

const EVERY: Duration = Duration::from_secs(5);

pub struct Progress {
    what: &'static str,
    of: u64,
    last: Instant,
}

impl Progress {
    /// So many things are to be done.
    pub fn new(what: &'static str, of: u64) -> Self {
        Progress {
            what,
            of,
            last: Instant::now(),
        }
    }

    /// So many of them are done.
    pub fn done(&mut self, done: u64) {
        if self.last.elapsed() >= EVERY {
            self.last = Instant::now();
            eprintln!("{done} of {} {}", self.of, self.what);
        }
    }
}
