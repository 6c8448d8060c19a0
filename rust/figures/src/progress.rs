//! A line on the terminal that says how far the work is. Where standard error is no terminal it is not shown.

use std::io::{IsTerminal, Write, stderr};

pub struct Progress {
    shown: bool,
    total: usize,
}

impl Progress {
    pub fn new(total: usize) -> Self {
        Self { shown: stderr().is_terminal(), total }
    }

    pub fn show(&self, done: usize) {
        if self.shown {
            let _ = write!(
                stderr(),
                "\r{done} of {} states ({} %)",
                self.total,
                100 * done / self.total
            );
        }
    }

    /// Takes the line away, before anything else is printed.
    pub fn clear(&self) {
        if self.shown {
            let _ = write!(stderr(), "\r\x1b[K");
        }
    }
}
