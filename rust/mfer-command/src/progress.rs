//! Progress of long work, on a terminal only.

use std::io::{self, IsTerminal, Write};
use std::time::{Duration, Instant};

/// Says on standard error how far a piece of work is, if that is a terminal and the work is long.
/// The line is cleared when the work is done.
pub struct Progress {
    what: &'static str,
    /// When to say something next; never where there is no terminal.
    next: Option<Instant>,
    shown: bool,
}

impl Progress {
    const PATIENCE: Duration = Duration::from_millis(700);
    const EVERY: Duration = Duration::from_millis(200);

    pub fn new(what: &'static str) -> Progress {
        let next = io::stderr()
            .is_terminal()
            .then(|| Instant::now() + Progress::PATIENCE);
        Progress {
            what,
            next,
            shown: false,
        }
    }

    /// For work that writes to standard output: silent where that goes to a terminal too.
    pub fn beside_output(what: &'static str) -> Progress {
        let mut progress = Progress::new(what);
        if io::stdout().is_terminal() {
            progress.next = None;
        }
        progress
    }

    /// `done` of `total` is done; a total of 0 is one that is not known.
    pub fn step(&mut self, done: u64, total: u64) {
        let Some(next) = self.next else { return };
        let now = Instant::now();
        if now < next {
            return;
        }
        self.next = Some(now + Progress::EVERY);
        self.shown = true;
        let how_far = match total {
            0 => format!("{done}"),
            _ => format!("{} %", done.min(total) as u128 * 100 / total as u128),
        };
        let _ = write!(io::stderr(), "\r\x1b[Kmfer: {} {how_far}", self.what);
    }
}

impl Drop for Progress {
    fn drop(&mut self) {
        if self.shown {
            let _ = write!(io::stderr(), "\r\x1b[K");
        }
    }
}
