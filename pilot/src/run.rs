//! `pilot run`: a list's calls, answered.

use std::fs::File;
use std::io::{self, BufWriter, IsTerminal, StdoutLock, Write};
use std::os::fd::AsFd;

use crate::args::{Args, Spec};
use crate::fault::Fault;
use crate::play::Player;
use crate::source::{Source, Trouble};

pub const HELP: &str = "\
usage: pilot run LIST

Answers each call of LIST (a file, or - for standard input) on standard output, byte for byte as the proved program
`replay` does: `NUMBER VALUE COUNT` and an entry `PIN:LEVEL@CYCLE` for each level change (docs/CALLS.md).

A malformed line ends the run: `line N: REASON` is the last line of the output, and is told on standard error too.
Into a pipe or a terminal each answer is written as soon as it is made, into a file in blocks. A list that takes longer than
half a second has a progress bar on standard error, if that is a terminal and the answers go elsewhere.

Exit status: 0, whatever the calls were answered; 1 for a malformed line, a failed read or a failed write; 2 for wrong usage.
";

pub const OPTIONS: &[Spec] = &[];

const BUFFER: usize = 1 << 16;

pub fn run(args: &Args) -> Result<(), Fault> {
    let stdout = io::stdout();
    let mut source = Source::open(args.list()?, !stdout.is_terminal())?;
    let mut out = Out::new(stdout.lock());
    let mut player = Player::new();
    loop {
        match source.call() {
            Ok(Some(call)) => out.line(|line| player.play(&call).write(line))?,
            Ok(None) => return out.end(),
            Err(trouble) => {
                if let Trouble::Malformed(n, reason) = trouble {
                    out.line(|line| writeln!(line, "line {n}: {reason}"))?;
                }
                out.end()?;
                return Err(source.fault(trouble));
            }
        }
    }
}

/// Standard output, line by line but into a file.
struct Out<'a> {
    to: BufWriter<StdoutLock<'a>>,
    blocks: bool,
}

impl<'a> Out<'a> {
    fn new(stdout: StdoutLock<'a>) -> Self {
        let blocks = is_file(&stdout);
        Self { to: BufWriter::with_capacity(BUFFER, stdout), blocks }
    }

    fn line(&mut self, write: impl FnOnce(&mut BufWriter<StdoutLock<'a>>) -> io::Result<()>) -> Result<(), Fault> {
        write(&mut self.to).map_err(Fault::unwritten)?;
        if self.blocks { Ok(()) } else { self.end() }
    }

    fn end(&mut self) -> Result<(), Fault> {
        self.to.flush().map_err(Fault::unwritten)
    }
}

fn is_file(stdout: &StdoutLock) -> bool {
    let file = stdout.as_fd().try_clone_to_owned().map(File::from);
    file.and_then(|f| f.metadata()).is_ok_and(|m| m.is_file())
}
