//! A list's calls, line by line, from a file or from standard input.

use std::ffi::OsStr;
use std::fs::File;
use std::io::{self, BufRead, BufReader};

use crate::fault::Fault;
use crate::list::{self, Call, Malformed};
use crate::progress::Progress;

const BUFFER: usize = 1 << 16;

pub struct Source {
    name: String,
    input: Box<dyn BufRead>,
    progress: Progress,
    /// The line that is being read, and its number from 1.
    bytes: Vec<u8>,
    line: u64,
    read: u64,
}

/// Why there is no next call.
#[derive(Debug)]
pub enum Trouble {
    Malformed(u64, Malformed),
    Unread(io::Error),
}

impl Source {
    /// `bar`: progress may be shown.
    pub fn open(list: &OsStr, bar: bool) -> Result<Self, Fault> {
        if list == "-" {
            return Ok(Self::new("standard input".into(), Box::new(io::stdin().lock()), Progress::new(bar, None)));
        }
        let name = list.to_string_lossy().into_owned();
        let file = File::open(list).map_err(|e| Fault::failed(format!("{name}: {e}")))?;
        let size = file.metadata().ok().filter(|m| m.is_file()).map(|m| m.len());
        Ok(Self::new(name, Box::new(BufReader::with_capacity(BUFFER, file)), Progress::new(bar, size)))
    }

    fn new(name: String, input: Box<dyn BufRead>, progress: Progress) -> Self {
        Self { name, input, progress, bytes: Vec::new(), line: 0, read: 0 }
    }

    /// The next call; `None` at the end of the list.
    pub fn call(&mut self) -> Result<Option<Call>, Trouble> {
        loop {
            self.bytes.clear();
            if self.input.read_until(b'\n', &mut self.bytes).map_err(Trouble::Unread)? == 0 {
                return Ok(None);
            }
            self.line += 1;
            self.read += self.bytes.len() as u64;
            self.progress.at(self.read, self.line);
            let line = self.bytes.strip_suffix(b"\n").unwrap_or(&self.bytes);
            match list::parse(line) {
                Ok(None) => continue,
                Ok(call) => return Ok(call),
                Err(reason) => return Err(Trouble::Malformed(self.line, reason)),
            }
        }
    }

    /// The number of the line that was read last.
    pub fn line(&self) -> u64 {
        self.line
    }

    /// What is told of a trouble.
    pub fn fault(&self, trouble: Trouble) -> Fault {
        match trouble {
            Trouble::Malformed(line, reason) => Fault::failed(format!("{}: line {line}: {reason}", self.name)),
            Trouble::Unread(e) => Fault::failed(format!("{}: line {}: {e}", self.name, self.line + 1)),
        }
    }
}

#[cfg(test)]
mod tests {
    use super::*;

    fn source(text: &'static [u8]) -> Source {
        Source::new("x".into(), Box::new(text), Progress::new(false, None))
    }

    #[test]
    fn every_line_counts() {
        let mut s = source(b"# a comment\n\nnext # one\r\n\t \nnext\nnonsense\nnext");
        assert_eq!(s.call().unwrap(), Some(Call::Next));
        assert_eq!(s.line(), 3);
        assert_eq!(s.call().unwrap(), Some(Call::Next));
        assert_eq!(s.line(), 5);
        let trouble = s.call().unwrap_err();
        assert!(matches!(trouble, Trouble::Malformed(6, Malformed::UnknownWord)));
        assert!(matches!(s.fault(trouble), Fault::Failed(told) if told == "x: line 6: unknown word"));
    }

    #[test]
    fn the_last_line_needs_no_line_feed() {
        let mut s = source(b"next\nnext\r");
        assert_eq!(s.call().unwrap(), Some(Call::Next));
        assert_eq!(s.call().unwrap(), Some(Call::Next));
        assert_eq!(s.call().unwrap(), None);
        assert_eq!(s.call().unwrap(), None);
    }
}
