//! One board on either side. The published Rust is called as it is, with nothing in front of it: no refusals, no
//! indices looked up; its own `changed` takes the entries and is emptied before a call. The port gets its state and a
//! book, neither of them cleared between calls.

use board::ffi::{Book, State};
use mcs_core::arm::device::{Enable, TimerInstance};
use mcs_sim::arm::bus::Cx;
use mcs_sim::arm::nvic::Nvic;
use mcs_sim::arm::periph::tim::Timer;
use mcs_sim::arm::sys::{ArmSys, ClockTree};
use mcs_sim::scheduler::Scheduler;

pub const HZ: f64 = 16e6;
pub const VCC: f64 = 3.3;
pub const PINS: usize = 32;
pub const LINES: u32 = 64;

/// The timers: NUMBER WIDTH CHANNELS BUS WORD BIT IRQ.
pub const TIMERS: [[u32; 7]; 4] = [[2, 32, 4, 1, 3, 0, 28], [3, 16, 4, 1, 3, 1, 29], [4, 16, 4, 1, 3, 2, 30], [6, 16, 0, 1, 3, 4, 54]];

pub fn instances() -> Vec<TimerInstance> {
    let instance = |&[number, width, channels, bus, word, bit, irq]: &[u32; 7]| TimerInstance {
        name: format!("TIM{number}"),
        width: width as u8,
        channels: channels as u8,
        apb: bus as u8,
        irq,
        enable: Enable { reg: word as u8, bit: bit as u8 },
    };
    TIMERS.iter().map(instance).collect()
}

/// Function 1 of the pins 0 to 11: the channels of timers 2, 3 and 4 in turn.
pub fn table() -> Vec<u32> {
    let mut table = vec![0; PINS * 16];
    for pin in 0..12 {
        table[pin * 16 + 1] = 16 * (pin as u32 / 4 + 12) + pin as u32 % 4 + 2;
    }
    table
}

/// The published Rust.
pub struct Rust {
    pub sys: ArmSys,
    pub nvic: Nvic,
    pub sched: Scheduler,
    pub timers: Vec<Timer>,
}

impl Rust {
    pub fn new(instances: &[TimerInstance], table: &[u32]) -> Self {
        let mut sys = ArmSys::new(PINS, HZ, VCC, 0.0);
        for (i, &signal) in table.iter().enumerate() {
            sys.af[i / 16][i % 16] = signal as u16;
        }
        Self { sys, nvic: Nvic::new(LINES, 4), sched: Scheduler::new(), timers: instances.iter().map(Timer::new).collect() }
    }

    #[inline(always)]
    pub fn at<R>(&mut self, t: usize, cycle: u64, f: impl FnOnce(&mut Timer, &mut Cx) -> R) -> R {
        let Rust { sys, nvic, sched, timers } = self;
        f(&mut timers[t], &mut Cx { cycles: cycle, nvic, sched, owner: t as u8, sys })
    }

    /// The dividers that a set-up gives.
    pub fn tree(&self) -> ClockTree {
        self.sys.clk
    }
}

/// The port.
pub struct Port {
    pub state: State,
    pins: Vec<u8>,
    levels: Vec<u8>,
    cycles: Vec<u64>,
    sources: Vec<u8>,
}

impl Port {
    pub fn new(places: usize) -> Self {
        let mut state = State::new();
        let a = state.set_up(HZ, VCC, PINS as u32, LINES, &TIMERS.concat(), &table());
        assert_eq!(a.number, 0);
        Self { state, pins: vec![0; places], levels: vec![0; places], cycles: vec![0; places], sources: vec![0; places] }
    }

    /// A call with the book.
    #[inline(always)]
    pub fn lend<R>(&mut self, f: impl FnOnce(&mut State, &mut Book) -> R) -> R {
        f(&mut self.state, &mut Book { pins: &mut self.pins, levels: &mut self.levels, cycles: &mut self.cycles, sources: &mut self.sources })
    }
}
