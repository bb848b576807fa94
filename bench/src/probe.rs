//! The second table: functions below the calls, of the archive `probe`, beside the Rust's own.

use std::hint::black_box;
use std::mem::replace;

use board::ffi::State;
use mcs_sim::arm::periph::tim::Timer;

use crate::rows;
use crate::sides::instances;
use crate::table::Row;

/// Operations in a turn.
const OPERATIONS: u64 = 100_000;
/// The signal of timer 2, channel 0, which pin 0 routes.
const SIGNAL: u32 = 194;

extern "C" {
    fn probe_sig_out(words: *mut u64, reals: *mut f64, s: u32, level: u8) -> u8;
    fn probe_refresh_pin(words: *mut u64, reals: *mut f64, i: u32) -> u8;
    fn probe_timer(words: *mut u64, i: u32);
}

/// The state of a board, copied out.
struct Arrays {
    words: Vec<u64>,
    reals: Vec<f64>,
}

impl Arrays {
    fn of(state: &State) -> Self {
        Self { words: state.words().to_vec(), reals: state.reals().to_vec() }
    }

    fn sig_out(&mut self, s: u32, level: u8) -> u8 {
        // The vectors have as many words and reals as the library says.
        unsafe { probe_sig_out(self.words.as_mut_ptr(), self.reals.as_mut_ptr(), s, level) }
    }

    fn refresh_pin(&mut self, i: u32) -> u8 {
        unsafe { probe_refresh_pin(self.words.as_mut_ptr(), self.reals.as_mut_ptr(), i) }
    }

    fn timer(&mut self, i: u32) {
        unsafe { probe_timer(self.words.as_mut_ptr(), i) }
    }
}

pub fn rows() -> Vec<Row> {
    vec![sig_out(), refresh_pin(), timer()]
}

fn sig_out() -> Row {
    let mut rust = rows::rust(0);
    let mut port = Arrays::of(&rows::port(0, 4).state);
    Row {
        name: "sig_out, the pin's level changes each time",
        operations: OPERATIONS,
        rust: Box::new(move || {
            let mut sum = 0;
            for k in 0..OPERATIONS {
                rust.sys.changed.clear();
                rust.sys.sig_out(black_box(SIGNAL as u16), (k % 2) as u8, k);
                sum += rust.sys.changed.len() as u64;
            }
            sum
        }),
        port: Box::new(move || (0..OPERATIONS).map(|k| port.sig_out(black_box(SIGNAL), (k % 2) as u8) as u64).sum()),
    }
}

fn refresh_pin() -> Row {
    let mut rust = rows::rust(0);
    let mut port = Arrays::of(&rows::port(0, 4).state);
    Row {
        name: "refresh_pin",
        operations: OPERATIONS,
        rust: Box::new(move || {
            let mut sum = 0;
            for k in 0..OPERATIONS {
                rust.sys.changed.clear();
                rust.sys.refresh_pin(black_box(0), k);
                sum += rust.sys.changed.len() as u64;
            }
            sum
        }),
        port: Box::new(move || (0..OPERATIONS).map(|_| port.refresh_pin(black_box(0)) as u64).sum()),
    }
}

fn timer() -> Row {
    let mut rust = rows::rust(0);
    let mut spare = Some(Timer::new(&instances()[0]));
    let mut port = Arrays::of(&rows::port(0, 4).state);
    Row {
        name: "a timer loaded and stored (the Rust: moved out and back)",
        operations: OPERATIONS,
        rust: Box::new(move || {
            for _ in 0..OPERATIONS {
                let t = replace(&mut rust.timers[black_box(0)], spare.take().unwrap());
                spare = Some(replace(&mut rust.timers[black_box(0)], black_box(t)));
            }
            0
        }),
        port: Box::new(move || {
            (0..OPERATIONS).for_each(|_| port.timer(black_box(0)));
            0
        }),
    }
}
