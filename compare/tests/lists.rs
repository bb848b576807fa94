//! The oracle's own tests that replay lists, with the library in the oracle's place: document 01's bench figures, its
//! refusals, the lists of docs/BOARD.md, docs/differences, of why a pin is low and samples.
#![allow(clippy::duplicate_mod)] // each of them has its own `common`

// In those files `oracle` is this crate, whose `run` is the library's.
extern crate self as oracle;
pub use compare::oracle::{board, gen, Answer, Board, Call};
pub use compare::run;

#[path = "../../oracle/tests/differences.rs"]
mod differences;
#[path = "../../oracle/tests/figures.rs"]
mod figures;
#[path = "../../oracle/tests/refusals.rs"]
mod refusals;
#[path = "../../oracle/tests/samples.rs"]
mod samples;
#[path = "../../oracle/tests/why.rs"]
mod why;
