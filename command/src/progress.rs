//! A line that says how far a long run is, on a terminal.
use std::io::{self, IsTerminal, Write};
use std::time::{Duration, Instant};

const BETWEEN: Duration = Duration::from_millis(100);

pub struct Progress {
    of: usize,
    is_on: bool,
    /// Whether reports come out on the terminal too.
    is_shared: bool,
    is_shown: bool,
    next: Instant,
}

impl Progress {
    /// For so many files; nothing is shown for one, nor where standard error is no terminal.
    pub fn new(of: usize) -> Progress {
        let is_on = of > 1 && io::stderr().is_terminal();
        Progress { of, is_on, is_shared: io::stdout().is_terminal(), is_shown: false, next: Instant::now() + BETWEEN }
    }

    /// File `number` comes next, from 0.
    pub fn at(&mut self, number: usize, name: &str) {
        if self.is_on && Instant::now() >= self.next {
            let name: String = name.chars().filter(|c| !c.is_control()).take(60).collect();
            let _ = write!(io::stderr(), "\r\x1b[K{} of {}: {name}", number + 1, self.of);
            self.is_shown = true;
            self.next = Instant::now() + BETWEEN;
        }
    }

    /// Makes room for a report on standard output.
    pub fn clear_for_report(&mut self) {
        if self.is_shared {
            self.clear();
        }
    }

    /// Takes the line away, before anything else is said on standard error.
    pub fn clear(&mut self) {
        if self.is_shown {
            let _ = write!(io::stderr(), "\r\x1b[K");
            self.is_shown = false;
        }
    }
}

impl Drop for Progress {
    fn drop(&mut self) {
        self.clear();
    }
}
