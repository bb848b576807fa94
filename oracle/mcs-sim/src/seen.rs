//! What the additions to tim.rs talk to. Thread-local, so that boards may run on several threads.

use std::cell::Cell;

thread_local! {
    static PLACES: Cell<u64> = const { Cell::new(u64::MAX) };
    static HANDLED: Cell<u64> = const { Cell::new(0) };
    static MANUAL: Cell<bool> = const { Cell::new(false) };
}

/// A timer's private fields, copied.
#[derive(Clone, Copy, Debug)]
pub struct View {
    pub running: bool,
    pub down: bool,
    /// `cnt_at` the cycle asked for.
    pub counter: u64,
    /// The active reload.
    pub reload: u64,
    pub cr1: u32,
    pub max: u64,
    pub channels: usize,
    pub base: u64,
    pub tick: u64,
    /// The active compares.
    pub compare: [u32; 4],
}

/// The timer that is called next on this thread is in manual mode, or not.
pub fn manual(on: bool) {
    MANUAL.set(on);
}

/// The timer that is called is in manual mode.
pub(crate) fn is_manual() -> bool {
    MANUAL.get()
}

/// A reload of 0 blocks the timer that is called (document 02, F-6).
pub(crate) fn blocks(reload: u64) -> bool {
    reload == 0 && MANUAL.get()
}

/// The places lent to the deliveries that follow on this thread.
pub fn lend(places: u64) {
    PLACES.set(places);
}

/// Under 4 places left, with `used` entries made: an event might not find room.
pub(crate) fn full(used: usize) -> bool {
    PLACES.get().saturating_sub(used as u64) < 4
}

pub(crate) fn handled(events: u64) {
    HANDLED.set(events);
}

/// The events handled by the last delivery on this thread.
pub fn events() -> u64 {
    HANDLED.get()
}

/// The published lane merge, which is private to its crate.
pub fn lane_write(old: u32, offset: u32, size: u8, value: u32) -> u32 {
    crate::arm::periph::lane_write(old, offset, size, value)
}
