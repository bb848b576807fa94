//! `bench [WORD]`: the library's exported functions beside the published Rust's own; only rows whose name has WORD.

mod duty;
mod probe;
mod rows;
mod sides;
mod table;

use std::process::ExitCode;

fn main() -> ExitCode {
    let only = std::env::args().nth(1).unwrap_or_default();
    println!("Best of many turns, the two sides in turn, same calls, one process. A delivery of events: for each event.");
    let calls = table::print("call", rows::calls(), &only);
    let inner = table::print("below the calls", probe::rows(), &only);
    let duty = table::print("beside a plain Rust loop", duty::rows(), &only);
    match calls && inner && duty {
        true => ExitCode::SUCCESS,
        false => ExitCode::FAILURE,
    }
}
