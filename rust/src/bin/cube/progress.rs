//! How far a long command is: a line on standard error, if that is a terminal and the command has taken a second.
use std::io::{self, IsTerminal, Write};
use std::time::{Duration, Instant};

pub struct Progress {
    /// When the line is due to be written; never, if there is nobody to read it.
    due: Option<Instant>,
    shown: bool,
}

impl Progress {
    pub fn new() -> Progress {
        Progress { due: io::stderr().is_terminal().then(|| Instant::now() + Duration::from_secs(1)), shown: false }
    }

    /// Tells of so many records, at times.
    pub fn records(&mut self, count: usize) {
        if count.is_multiple_of(256) && self.due.is_some_and(|due| due <= Instant::now()) {
            self.write(&format!("{count} records read"));
            self.due = Some(Instant::now() + Duration::from_millis(200));
        }
    }

    /// Writes over the line. What goes wrong with it is no failure.
    fn write(&mut self, text: &str) {
        let _ = write!(io::stderr(), "\r\x1b[K{text}").and_then(|()| io::stderr().flush());
        self.shown = true;
    }
}

/// Takes the line away.
impl Drop for Progress {
    fn drop(&mut self) {
        if self.shown {
            self.write("");
        }
    }
}
