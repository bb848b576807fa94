//! Differential runs: random call lists through the library and the oracle, side by side.

use std::io::{self, BufRead, Write};

pub use oracle;
use oracle::Line;

pub mod busy;
pub mod duty;
pub mod machine;
pub mod port;
pub mod run;
pub mod shrink;

pub use port::{Fault, Port};
pub use run::{list, manual_list, Failure, Stats};
pub use shrink::report;

/// Answers a call list as `oracle::run` does, with the library.
pub fn run(input: impl BufRead, mut out: impl Write) -> io::Result<()> {
    let mut port = Port::new();
    for (i, line) in input.split(b'\n').enumerate() {
        match oracle::calls::read(&line?) {
            Ok(Some(Line::Call(call))) => match port.call(&call) {
                Ok(answer) => writeln!(out, "{answer}")?,
                Err(fault) => writeln!(out, "{fault}")?,
            },
            Ok(Some(Line::Aside(aside))) => writeln!(out, "{}", port::aside(&aside))?,
            Ok(None) => {}
            Err(reason) => {
                writeln!(out, "line {}: {reason}", i + 1)?;
                break;
            }
        }
    }
    out.flush()
}
