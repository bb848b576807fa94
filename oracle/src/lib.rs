//! The published Rust timer as an oracle: document 01's calls, refusals and lent book in front of it.

pub mod board;
pub mod calls;
pub mod follow;
pub mod gen;
pub mod record;
pub mod rng;
pub mod samples;
pub mod silicon;
pub mod small;
pub mod source;

use std::io::{self, BufRead, Write};

pub use board::Board;
pub use calls::{Answer, Aside, Call, Entry, Line, Setup, TimerSpec};

/// Answers a call list from the first board, up to its end or its first malformed line.
pub fn run(input: impl BufRead, mut out: impl Write) -> io::Result<()> {
    let mut board = Board::new();
    for (i, line) in input.split(b'\n').enumerate() {
        match calls::read(&line?) {
            Ok(Some(Line::Call(call))) => writeln!(out, "{}", board.call(&call))?,
            Ok(Some(Line::Aside(aside))) => writeln!(out, "{}", answer(&aside))?,
            Ok(None) => {}
            Err(reason) => {
                writeln!(out, "line {}: {reason}", i + 1)?;
                break;
            }
        }
    }
    out.flush()
}

/// What a line that asks the board nothing is answered.
pub fn answer(aside: &Aside) -> String {
    match aside {
        Aside::Pilot { n, k } => small::answer(*n, *k),
        Aside::Record { timer, places } => record::write_line(record::write(timer, *places)),
        Aside::Unrecord { latest, bytes } => record::read_line(record::read(bytes, *latest)),
    }
}
