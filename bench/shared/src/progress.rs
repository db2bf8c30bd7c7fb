//! How far long work is: a line on standard error that is written over, if that is a terminal. What
//! is printed to standard output does not change.

use std::io::{self, IsTerminal, Write};
use std::time::{Duration, Instant};

/// Work that is done sooner says nothing.
const PATIENCE: Duration = Duration::from_millis(500);
/// From line to line.
const PAUSE: Duration = Duration::from_millis(200);

/// How far a piece of work is.
pub struct Progress<W: Write> {
    output: W,
    /// Nobody looks at what is no terminal.
    seen: bool,
    what: &'static str,
    next: Instant,
    /// Letters that stand on the line.
    written: usize,
}

impl Progress<io::Stderr> {
    /// Work with a name, on standard error.
    pub fn new(what: &'static str) -> Self {
        let output = io::stderr();
        let seen = output.is_terminal();
        Progress::to(output, seen, what)
    }
}

impl<W: Write> Progress<W> {
    fn to(output: W, seen: bool, what: &'static str) -> Self {
        Progress { output, seen, what, next: Instant::now() + PATIENCE, written: 0 }
    }

    /// Says how far it is, if it is time to. What is to be said is made only then.
    pub fn at(&mut self, said: impl FnOnce() -> String) {
        if !self.seen || Instant::now() < self.next {
            return;
        }
        self.next = Instant::now() + PAUSE;
        let line = format!("{}: {}", self.what, said());
        // A line that cannot be written is no reason to stop the work.
        let _ = write!(self.output, "\r{line:0$}", self.written);
        let _ = self.output.flush();
        self.written = line.chars().count();
    }

    /// So many of all, with the part in percent. That all are done is said at once: what follows may
    /// take its time.
    pub fn of(&mut self, done: usize, all: usize, unit: &str) {
        if done == all && self.written > 0 {
            self.next = Instant::now();
        }
        self.at(|| format!("{done} of {all} {unit} ({} %)", 100 * done / all.max(1)));
    }
}

/// The line is taken away: what the work says at its end stands alone.
impl<W: Write> Drop for Progress<W> {
    fn drop(&mut self) {
        if self.written > 0 {
            let _ = write!(self.output, "\r{:1$}\r", "", self.written);
            let _ = self.output.flush();
        }
    }
}

#[cfg(test)]
mod tests {
    use super::*;

    fn written(seen: bool, soon: bool) -> String {
        let mut octets = Vec::new();
        let mut progress = Progress::to(&mut octets, seen, "page");
        if !soon {
            progress.next = Instant::now();
        }
        progress.of(1200, 3000, "frames");
        // The next line waits its time.
        progress.of(1201, 3000, "frames");
        progress.of(3, 3, "frames");
        drop(progress);
        String::from_utf8(octets).unwrap()
    }

    #[test]
    fn lines_are_written_over_and_taken_away() {
        let long = "page: 1200 of 3000 frames (40 %)";
        let short = format!("{:32}", "page: 3 of 3 frames (100 %)");
        let blank = " ".repeat("page: 3 of 3 frames (100 %)".len());
        assert_eq!(written(true, false), format!("\r{long}\r{short}\r{blank}\r"));
    }

    #[test]
    fn nothing_is_said_where_nobody_looks_or_soon() {
        assert_eq!(written(false, false), "");
        assert_eq!(written(true, true), "");
    }
}
