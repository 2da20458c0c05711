//! A line on standard error that says how far things are, for runs of more than a second at a terminal.

use std::io::{self, IsTerminal, Write};
use std::time::{Duration, Instant};

pub struct Progress {
    terminal: bool,
    due: Instant,
    drawn: bool,
}

const PATIENCE: Duration = Duration::from_secs(1);
const PAUSE: Duration = Duration::from_millis(200);

impl Progress {
    pub fn new() -> Progress {
        Progress { terminal: io::stderr().is_terminal() && terminal_knows_escapes(), due: Instant::now() + PATIENCE, drawn: false }
    }

    /// Shows the words, if it is time for it.
    pub fn tick(&mut self, words: impl FnOnce() -> String) {
        let now = Instant::now();
        if self.terminal && now >= self.due {
            let _ = write!(io::stderr(), "\r\x1b[Ksailmortar: {}", words());
            self.due = now + PAUSE;
            self.drawn = true;
        }
    }

    /// Shows the words at once, of what takes long and cannot tell how far it is.
    pub fn announce(&mut self, words: impl FnOnce() -> String) {
        self.due = Instant::now();
        self.tick(words);
    }

    /// Takes the line away.
    pub fn wipe(&mut self) {
        if self.drawn {
            let _ = write!(io::stderr(), "\r\x1b[K");
            self.drawn = false;
        }
    }
}

/// A dumb terminal would show the letters of an escape.
fn terminal_knows_escapes() -> bool {
    std::env::var_os("TERM").is_some_and(|name| !name.is_empty() && name != "dumb")
}

impl Drop for Progress {
    fn drop(&mut self) {
        self.wipe();
    }
}
