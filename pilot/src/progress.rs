//! A bar on standard error while a long list is read, if that is a terminal.

use std::io::{self, IsTerminal, Write};
use std::time::{Duration, Instant};

/// A list is long if it takes this long.
const PATIENCE: Duration = Duration::from_millis(500);
/// Between two drawings.
const PAUSE: Duration = Duration::from_millis(100);
const WIDTH: u64 = 30;

pub struct Progress {
    on: bool,
    size: Option<u64>,
    next: Instant,
    drawn: bool,
}

impl Progress {
    /// `bar`: it may be shown. `size`: the list's bytes, where they are known.
    pub fn new(bar: bool, size: Option<u64>) -> Self {
        Self { on: bar && io::stderr().is_terminal(), size, next: Instant::now() + PATIENCE, drawn: false }
    }

    /// So many bytes and lines have been read.
    pub fn at(&mut self, read: u64, line: u64) {
        if !self.on || Instant::now() < self.next {
            return;
        }
        self.next = Instant::now() + PAUSE;
        self.drawn = true;
        // It is only shown: if it cannot be, the run goes on.
        let _ = write!(io::stderr(), "\r{}\x1b[K", bar(read, line, self.size));
    }
}

/// The bar goes with the list: what is told next stands at the start of a line.
impl Drop for Progress {
    fn drop(&mut self) {
        if self.drawn {
            let _ = write!(io::stderr(), "\r\x1b[K");
        }
    }
}

fn bar(read: u64, line: u64, size: Option<u64>) -> String {
    let Some(size) = size.filter(|&s| s != 0) else { return format!("{line} lines") };
    // A file may grow while it is read.
    let part = |whole: u64| (u128::from(read.min(size)) * u128::from(whole) / u128::from(size)) as usize;
    format!("[{:.<width$}] {:3} %  {line} lines", "#".repeat(part(WIDTH)), part(100), width = WIDTH as usize)
}

#[cfg(test)]
mod tests {
    use super::*;

    #[test]
    fn bars() {
        assert_eq!(bar(0, 0, Some(10)), "[..............................]   0 %  0 lines");
        assert_eq!(bar(5, 7, Some(10)), "[###############...............]  50 %  7 lines");
        assert_eq!(bar(11, 8, Some(10)), "[##############################] 100 %  8 lines");
        assert_eq!(bar(u64::MAX, 8, Some(u64::MAX)), "[##############################] 100 %  8 lines");
        assert_eq!(bar(11, 8, None), "8 lines");
        assert_eq!(bar(0, 8, Some(0)), "8 lines");
    }
}
