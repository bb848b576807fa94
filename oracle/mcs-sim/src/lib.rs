//! The published simulator as far as the timer needs it. The files of docs/src are built where they lie.

// The published files hold more than the timer uses, and are not ours to tidy.
#![allow(dead_code, clippy::all)]

#[path = "../../../docs/src/crates/mcs-sim/src/pins.rs"]
pub mod pins;
#[path = "../../../docs/src/crates/mcs-sim/src/scheduler.rs"]
pub mod scheduler;

pub mod arm;
pub mod avr;
#[cfg(feature = "seen")]
pub mod seen;
