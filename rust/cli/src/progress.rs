//! How far long work has come, on standard error where that is a terminal.

use std::io::{IsTerminal, Write};
use std::time::{Duration, Instant};

/// Nothing is shown before this time, and then again after each such time.
const PAUSE: Duration = Duration::from_millis(300);
/// The bar's width.
const WIDTH: usize = 30;

/// A bar that is drawn over and over in one line.
#[derive(Debug)]
pub struct Progress {
    what: &'static str,
    all: usize,
    start: Instant,
    drawn: Option<Instant>,
    terminal: bool,
}

impl Progress {
    /// Work of so many parts.
    pub fn new(what: &'static str, all: usize) -> Progress {
        Progress { what, all, start: Instant::now(), drawn: None, terminal: std::io::stderr().is_terminal() }
    }

    /// Work that nothing is shown of, being a part of other work.
    pub fn silent() -> Progress {
        Progress { terminal: false, ..Progress::new("", 0) }
    }

    /// So many parts are done.
    pub fn done(&mut self, done: usize) {
        let last = self.drawn.unwrap_or(self.start);
        if self.terminal && (last.elapsed() >= PAUSE || (self.drawn.is_some() && done == self.all)) {
            self.drawn = Some(Instant::now());
            // What cannot be shown is no error.
            let _ = write!(std::io::stderr(), "\r{}", bar(self.what, done, self.all, self.start.elapsed()));
        }
    }
}

/// The line is taken away at the end.
impl Drop for Progress {
    fn drop(&mut self) {
        if self.drawn.is_some() {
            let _ = write!(std::io::stderr(), "\r\x1b[K");
        }
    }
}

/// The bar's text.
pub fn bar(what: &str, done: usize, all: usize, elapsed: Duration) -> String {
    let filled = (done * WIDTH).checked_div(all).unwrap_or(WIDTH);
    let left = match done {
        0 => String::new(),
        _ => format!(", {} s left", (elapsed.as_secs_f64() * (all - done) as f64 / done as f64).ceil()),
    };
    format!("[{}{}] {done} of {all} {what}{left}   ", "#".repeat(filled), ".".repeat(WIDTH - filled))
}
