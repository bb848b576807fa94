//! The board: document 01's refusals, with 11 of document 02, and the lent book in front of the published Rust. Every refusal is decided
//! before the Rust is entered, so a refused call cannot have changed anything. Behind the Rust, of document 02: a pulse that
//! ends in manual mode clears CEN (F-2), a line that several timers name follows all of them (F-7), and each level has its source (F-5). In it, by
//! four added lines (oracle/mcs-sim/build.rs): in manual mode a reload of 0 blocks (F-6) and UDIS goes before one-pulse (F-11).

use mcs_core::arm::device::{Enable, TimerInstance};
use mcs_sim::arm::bus::{Cx, Mmio};
use mcs_sim::arm::nvic::Nvic;
use mcs_sim::arm::periph::tim::Timer;
use mcs_sim::arm::sys::{sig, ArmSys, ClockTree, PinCfg, NENR};
use mcs_sim::pins::ExtDrive;
use mcs_sim::scheduler::{EventKey, Scheduler};
use mcs_sim::seen::{self, View};

use crate::calls::{Answer, Call, Entry, Setup, TimerSpec};
use crate::source;

/// The last cycle that is served.
pub const LIMIT: u64 = 1 << 62;
/// The one not-a-number that is ever shown.
pub const NAN: u64 = 0x7ff8_0000_0000_0000;

// Document 01's numbers, and document 02's.
pub const BAD_SETUP: u8 = 1;
pub const NO_SUCH_INDEX: u8 = 2;
pub const BAD_SIZE: u8 = 3;
pub const BAD_CLOCK: u8 = 4;
pub const BAD_CYCLE: u8 = 5;
pub const BOOK_FULL: u8 = 6;
pub const COUNTER_ASTRAY: u8 = 7;
pub const BACKLOG: u8 = 8;
pub const SOCKET_TAKEN: u8 = 11;

/// What an event, a write or a timer reset may need: one entry for each of four channels.
const PLACES: u64 = 4;

const CR1: u32 = 0x00;
const CCMR1: u32 = 0x18;
const CCER: u32 = 0x20;
const CNT: u32 = 0x24;
const ARR: u32 = 0x2c;
const CEN: u32 = 1;
const DIR: u32 = 16;
const ARPE: u32 = 128;

/// Number and value of a call that was served (0) or stopped (8); `Err` is a refusal, any other number.
type Outcome = Result<(u8, u64), u8>;

pub struct Board {
    sys: ArmSys,
    nvic: Nvic,
    /// For each timer an interrupt part that it alone talks to where others name its line: its latest `set_line` stands there.
    own: Vec<Nvic>,
    sched: Scheduler,
    timers: Vec<Timer>,
    specs: Vec<TimerSpec>,
    /// Timers in manual mode, timer i at bit i.
    manual: u32,
    /// The cycle of the last changing call.
    last: u64,
}

// Boards may be handed to threads, for runs side by side.
const _: fn() = || {
    fn send<T: Send>() {}
    send::<Board>();
};

impl Default for Board {
    fn default() -> Self {
        Self::new()
    }
}

impl Board {
    /// The first board: no timers, pins or lines, 1 Hz, 1 volt.
    pub fn new() -> Self {
        Self::build(&Setup { hz: 1f64.to_bits(), vcc: 1f64.to_bits(), ..Setup::default() })
    }

    fn build(s: &Setup) -> Self {
        let mut sys = ArmSys::new(s.pins as usize, f64::from_bits(s.hz), f64::from_bits(s.vcc), 0.0);
        for &(i, signal) in &s.signals {
            sys.af[i as usize / 16][i as usize % 16] = signal as u16;
        }
        let nvic = || {
            let mut nvic = Nvic::new(s.lines, 4);
            nvic.nirq = s.lines; // `new` cuts at 240, document 01 takes 256
            nvic
        };
        let timers = s.timers.iter().map(|t| Timer::new(&instance(t))).collect();
        let own = s.timers.iter().map(|_| nvic()).collect();
        Self { sys, nvic: nvic(), own, sched: Scheduler::new(), timers, specs: s.timers.clone(), manual: s.manual, last: 0 }
    }

    pub fn call(&mut self, call: &Call) -> Answer {
        // What `changed` holds after the call is the book.
        self.sys.changed.clear();
        match self.outcome(call) {
            Ok((number, value)) => {
                let entries = self.sys.changed.iter().map(|&(pin, level, cycle)| {
                    // A timer's call moves a pin by the pin's signal alone, perhaps again and again: at each entry the signal had the entry's level.
                    let by_signal = matches!(call, Call::Write { .. } | Call::Reset { .. } | Call::Deliver { .. });
                    let wanted = if by_signal { Some(level) } else { source::wanted(&self.sys, pin as usize) };
                    Entry { pin, level, cycle, source: source::source(&self.sys, pin as usize, wanted) }
                });
                Answer { number, value, entries: entries.collect() }
            }
            Err(number) => Answer { number, value: 0, entries: Vec::new() },
        }
    }

    fn outcome(&mut self, call: &Call) -> Outcome {
        match *call {
            Call::Setup(ref s) => {
                check_setup(s)?;
                *self = Self::build(s);
                Ok((0, 0))
            }
            Call::Clock { sys, hclk, dividers, cycle } => self.clock(f64::from_bits(sys), f64::from_bits(hclk), dividers, cycle),
            Call::Enable { word, value } => {
                *self.sys.enr.get_mut(word as usize).ok_or(NO_SUCH_INDEX)? = value;
                Ok((0, 0))
            }
            Call::Pin { pin, mode, open_drain, out, pullup, pulldown, function, cycle, book } => {
                let cfg = PinCfg {
                    mode: if mode > 3 { 0 } else { mode as u8 },
                    open_drain: open_drain != 0,
                    odr: (out != 0) as u8,
                    pullup: pullup != 0,
                    pulldown: pulldown != 0,
                };
                // 11 stands between 5 and 6.
                let p = self.pin(pin)?;
                self.check_cycle(cycle)?;
                if self.taken(p, cfg.mode, function) {
                    return Err(SOCKET_TAKEN);
                }
                let pin = self.pin_change(pin, cycle, book)?;
                self.sys.pcfg[pin] = cfg;
                self.sys.select_af(pin, (function % 16) as u8);
                self.sys.refresh_pin(pin, cycle);
                Ok((0, 0))
            }
            Call::Drive { pin, kind, volts, cycle, book } => {
                let pin = self.pin_change(pin, cycle, book)?;
                let p = &mut self.sys.pins[pin];
                p.ext = match kind {
                    0 => ExtDrive::Float,
                    1 => ExtDrive::Low,
                    2 => ExtDrive::High,
                    _ => ExtDrive::Analog,
                };
                p.ext_volts = f64::from_bits(volts);
                self.sys.update_pin(pin, cycle);
                Ok((0, 0))
            }
            Call::ResetPins { cycle, book } => {
                self.check_cycle(cycle)?;
                check_places(book, self.sys.pins.len() as u64)?;
                self.last = cycle;
                self.sys.reset_pins(cycle);
                Ok((0, 0))
            }
            Call::Read { timer, offset, size, cycle } => {
                let t = self.timer(timer)?;
                let size = check_size(size)?;
                self.check_cycle(cycle)?;
                Ok((0, self.at(t, cycle, |timer, cx| timer.read(offset, size, cx)) as u64))
            }
            Call::Write { timer, offset, size, value, cycle, book } => {
                let t = self.timer(timer)?;
                let size = check_size(size)?;
                self.check_cycle(cycle)?;
                check_places(book, PLACES)?;
                if self.clock_on(t) && self.astray(t, offset, size, value, cycle) {
                    return Err(COUNTER_ASTRAY);
                }
                self.last = cycle;
                self.at(t, cycle, |timer, cx| timer.write(offset, size, value, cx));
                Ok((0, 0))
            }
            Call::Peek { timer, offset, cycle } => {
                let t = self.timer(timer)?;
                self.check_cycle(cycle)?;
                Ok((0, self.peek(t, offset, cycle) as u64))
            }
            Call::Reset { timer, cycle, book } => {
                let t = self.timer_change(timer, cycle, book)?;
                self.at(t, cycle, |timer, cx| timer.reset(cx));
                Ok((0, 0))
            }
            Call::Deliver { timer, cycle, book } => self.deliver(timer, cycle, book),
            Call::Booked { timer } => {
                let t = self.timer(timer)?;
                Ok((0, self.booked(t)))
            }
            Call::Next => Ok((0, self.sched.next)),
            Call::Level { pin } => {
                let p = self.pin(pin)?;
                let source = source::source(&self.sys, p, source::wanted(&self.sys, p));
                Ok((0, self.sys.pins[p].level as u64 + 2 * source as u64))
            }
            Call::Volts { pin } => Ok((0, bits(self.sys.pins[self.pin(pin)?].volts))),
            Call::Line { irq } => Ok((0, self.line(irq))),
            Call::Time { cycle } => {
                self.check_cycle(cycle)?;
                Ok((0, bits(self.sys.time_at(cycle))))
            }
            Call::Clear { irq } => {
                self.nvic.clear_pending(irq);
                Ok((0, 0))
            }
            Call::Why { pin, cycle } => {
                let p = self.pin(pin)?;
                self.check_cycle(cycle)?;
                Ok(self.why(p, cycle))
            }
        }
    }

    // ---- the calls that are more than a line ----------------------------------------------

    fn clock(&mut self, sysclk_hz: f64, hclk_hz: f64, dividers: [u32; 6], cycle: u64) -> Outcome {
        // `timer_div` gives one of the six, so these are all the dividers there are.
        let good = dividers.iter().all(|d| (1..=8192).contains(d)) && frequency(sysclk_hz) && frequency(hclk_hz);
        if !good {
            return Err(BAD_CLOCK);
        }
        self.check_cycle(cycle)?;
        self.last = cycle;
        let [ppre1, ppre2, ppre3, ppre4, tim1, tim2] = dividers;
        self.sys.set_clock_tree(ClockTree { sysclk_hz, hclk_hz, ppre1, ppre2, ppre3, ppre4, tim1, tim2 }, cycle);
        if std::mem::take(&mut self.sys.clock_dirty) {
            for t in 0..self.timers.len() {
                self.at(t, cycle, |timer, cx| timer.on_clock_change(cx));
            }
        }
        Ok((0, 0))
    }

    fn deliver(&mut self, timer: u32, cycle: u64, book: u64) -> Outcome {
        let t = self.timer_change(timer, cycle, book)?;
        seen::lend(book);
        let ran = self.view(t, cycle).running;
        self.at(t, cycle, |timer, cx| timer.on_event(0, cx));
        // A delivery stops a timer at the end of a pulse alone, and handles no event of it after that.
        if ran && self.is_manual(t) && !self.view(t, cycle).running {
            self.timers[t].clear_cen();
        }
        // What is due is booked no earlier than now: booked at now means still due.
        let number = if self.booked(t) == cycle { BACKLOG } else { 0 };
        Ok((number, seen::events()))
    }

    /// Number and value of the query why (F-12), by the rule of document 02 over the Rust's own fields. What a pin shows and whether it is released are
    /// the pin's; its signal is the one that `select_af` kept, 0 outside alternate mode.
    fn why(&mut self, pin: usize, cycle: u64) -> (u8, u64) {
        let signal = self.sys.pin_sig[pin];
        let channels = |s: &TimerSpec| if matches!(s.number, 2..=4) { s.channels } else { 0 };
        let mut every = self.specs.iter().enumerate().flat_map(|(t, s)| (0..channels(s)).map(move |ch| (t, ch, sig::tim(s.number as u8, ch as u8))));
        let source = every.find(|&(_, _, s)| s == signal).map(|(t, ch, _)| (t, ch));
        if let Some((t, _)) = source {
            seen::manual(self.is_manual(t));
            if self.timers[t].due().is_some_and(|at| at <= cycle) {
                return (BACKLOG, 0);
            }
        }
        let (cfg, shown) = (self.sys.pcfg[pin], &self.sys.pins[pin]);
        let (high, released, level) = (shown.level == 1, shown.ddoe == 1, self.sys.sig_level[signal as usize]);
        let reason = match cfg.mode {
            _ if high => 0,
            0 | 3 => 1,
            1 if cfg.odr == 0 => 2,
            2 if signal == 0 => 3,
            _ if released => 4,
            2 => match source {
                None => 5,
                Some(_) if self.routed(signal) != Some(pin) => 6,
                Some((t, ch)) => self.channel(t, ch, level, cycle),
            },
            _ => 10,
        };
        (0, reason)
    }

    /// Reasons 7 to 10 of channel `ch` of timer `t`, whose signal has this level.
    fn channel(&mut self, t: usize, ch: u32, level: u8, cycle: u64) -> u64 {
        let byte = self.peek(t, CCMR1 + 4 * (ch / 2), cycle) >> (8 * (ch % 2)) & 0xff;
        let (mode, bits) = (byte >> 4 & 7, self.peek(t, CCER, cycle) >> (4 * ch));
        let View { counter, down, compare, .. } = self.view(t, cycle);
        let ccr = compare[ch as usize] as u64;
        let active = (if down { counter <= ccr } else { counter < ccr }) == (mode == 6);
        match mode {
            _ if byte & 3 != 0 || bits & 1 == 0 => 7,
            _ if level != 0 => 10,
            0..=5 => 8,
            _ if active == (bits & 2 != 0) => 9,
            _ => 10,
        }
    }

    fn line(&self, irq: u32) -> u64 {
        if irq >= self.nvic.nirq {
            return 0;
        }
        bit(&self.nvic.lines, irq) as u64 + 2 * bit(&self.nvic.pending, irq) as u64
    }

    /// Another timer names timer `t`'s line.
    pub fn is_shared(&self, t: usize) -> bool {
        let irq = self.specs[t].irq;
        irq < self.nvic.nirq && self.specs.iter().filter(|s| s.irq == irq).count() > 1
    }

    /// Refusal 7: after this ungated write the timer would run upward with its counter above the active
    /// reload + 1; in manual mode never with a reload of 0 (F-6). Foretold, because the Rust's own sum would go below 0.
    fn astray(&mut self, t: usize, offset: u32, size: u8, value: u32, cycle: u64) -> bool {
        let v = seen::lane_write(self.peek(t, offset, cycle), offset, size, value);
        let View { mut running, mut cr1, mut counter, mut reload, max, channels, .. } = self.view(t, cycle);
        match offset & !3 {
            CR1 => {
                if (v ^ cr1) & CEN != 0 {
                    running = v & CEN != 0;
                }
                cr1 = v;
            }
            CNT => counter = v as u64 & max,
            ARR if cr1 & ARPE == 0 => reload = v as u64 & max,
            _ => return false,
        }
        let down = channels > 0 && cr1 & DIR != 0;
        let blocked = self.is_manual(t) && reload == 0;
        running && !blocked && !down && counter > reload + 1
    }

    // ---- refusals -------------------------------------------------------------------------

    /// Refusal 11: another pin routes the signal that this setting of a pin would select. The Rust itself gives the signal to
    /// the last pin that asks.
    fn taken(&self, pin: usize, mode: u8, function: u32) -> bool {
        let signal = if mode == 2 { self.entry(pin, function) } else { 0 };
        signal != 0 && self.routed(signal).is_some_and(|p| p != pin)
    }

    fn timer(&self, timer: u32) -> Result<usize, u8> {
        index(timer, self.timers.len())
    }

    fn pin(&self, pin: u32) -> Result<usize, u8> {
        index(pin, self.sys.pins.len())
    }

    fn check_cycle(&self, cycle: u64) -> Result<(), u8> {
        if cycle > LIMIT || cycle < self.last { Err(BAD_CYCLE) } else { Ok(()) }
    }

    /// Admits a timer reset or a delivery, and with it moves the last changing cycle.
    fn timer_change(&mut self, timer: u32, cycle: u64, book: u64) -> Result<usize, u8> {
        let t = self.timer(timer)?;
        self.check_cycle(cycle)?;
        check_places(book, PLACES)?;
        self.last = cycle;
        Ok(t)
    }

    /// Admits a pin setting or an outside drive, and with it moves the last changing cycle.
    fn pin_change(&mut self, pin: u32, cycle: u64, book: u64) -> Result<usize, u8> {
        let p = self.pin(pin)?;
        self.check_cycle(cycle)?;
        check_places(book, PLACES)?;
        self.last = cycle;
        Ok(p)
    }

    // ---- inside, also for whoever aims calls at a board -------------------------------------

    /// Timer `t` with the board around it. A line of several timers is then set to whether one of them asked for it last.
    fn at<R>(&mut self, t: usize, cycle: u64, f: impl FnOnce(&mut Timer, &mut Cx) -> R) -> R {
        seen::manual(self.is_manual(t));
        let shared = self.is_shared(t);
        let Board { sys, nvic, own, sched, timers, .. } = self;
        let part = if shared { &mut own[t] } else { &mut *nvic };
        let given = f(&mut timers[t], &mut Cx { cycles: cycle, nvic: part, sched, owner: t as u8, sys });
        if shared {
            let irq = self.specs[t].irq;
            nvic.set_line(irq, own.iter().any(|n| bit(&n.lines, irq)));
        }
        given
    }

    fn peek(&mut self, t: usize, offset: u32, cycle: u64) -> u32 {
        self.at(t, cycle, |timer, cx| timer.peek(offset, cx))
    }

    /// A timer write without refusal 7, to see that the Rust cannot do what it refuses.
    pub fn write_unchecked(&mut self, t: usize, offset: u32, size: u8, value: u32, cycle: u64) {
        self.at(t, cycle, |timer, cx| timer.write(offset, size, value, cx));
    }

    /// The cycle of the last changing call.
    pub fn last(&self) -> u64 {
        self.last
    }

    pub fn specs(&self) -> &[TimerSpec] {
        &self.specs
    }

    pub fn pins(&self) -> usize {
        self.sys.pins.len()
    }

    /// The clock tree: SYSCLK, HCLK and the dividers, as in `Call::Clock`.
    pub fn tree(&self) -> (u64, u64, [u32; 6]) {
        let t = &self.sys.clk;
        (t.sysclk_hz.to_bits(), t.hclk_hz.to_bits(), [t.ppre1, t.ppre2, t.ppre3, t.ppre4, t.tim1, t.tim2])
    }

    /// The signal selected on a pin, 0 if none.
    pub fn signal(&self, pin: usize) -> u16 {
        self.sys.pin_sig[pin]
    }

    /// The signal table's entry of a pin and a function.
    pub fn entry(&self, pin: usize, function: u32) -> u16 {
        self.sys.af[pin][(function % 16) as usize]
    }

    /// The pin that routes a signal.
    pub fn routed(&self, signal: u16) -> Option<usize> {
        self.sys.pin_of(signal)
    }

    /// A pin setting without refusal 11, to see what the Rust does with a signal that is taken.
    pub fn set_unchecked(&mut self, pin: usize, mode: u8, function: u8, cycle: u64) {
        self.sys.pcfg[pin].mode = mode;
        self.sys.select_af(pin, function);
        self.sys.refresh_pin(pin, cycle);
    }

    pub fn lines(&self) -> u32 {
        self.nvic.nirq
    }

    /// Timer `t`'s booked cycle, 2^64 - 1 if none.
    pub fn booked(&self, t: usize) -> u64 {
        self.sched.is_scheduled(EventKey { owner: t as u8, tag: 0 }).unwrap_or(u64::MAX)
    }

    pub fn view(&self, t: usize, cycle: u64) -> View {
        seen::manual(self.is_manual(t));
        self.timers[t].seen(cycle)
    }

    pub fn is_manual(&self, t: usize) -> bool {
        self.manual >> t & 1 != 0
    }

    /// Timer `t`'s enable bit is set.
    pub fn clock_on(&self, t: usize) -> bool {
        self.sys.clock_on(self.specs[t].word as u8, self.specs[t].bit as u8)
    }
}

fn bit(words: &[u32; 8], i: u32) -> bool {
    words[i as usize / 32] >> (i % 32) & 1 != 0
}

fn index(i: u32, len: usize) -> Result<usize, u8> {
    if (i as usize) < len { Ok(i as usize) } else { Err(NO_SUCH_INDEX) }
}

fn check_size(size: u32) -> Result<u8, u8> {
    if matches!(size, 1 | 2 | 4) { Ok(size as u8) } else { Err(BAD_SIZE) }
}

fn check_places(book: u64, need: u64) -> Result<(), u8> {
    if book < need { Err(BOOK_FULL) } else { Ok(()) }
}

fn frequency(hz: f64) -> bool {
    hz.is_finite() && hz > 0.0
}

fn bits(x: f64) -> u64 {
    if x.is_nan() { NAN } else { x.to_bits() }
}

fn check_setup(s: &Setup) -> Result<(), u8> {
    let vcc = f64::from_bits(s.vcc);
    let good = (1..=8).contains(&s.timers.len())
        && (1..=128).contains(&s.pins)
        && s.lines <= 256
        && vcc.is_finite()
        && vcc > 0.0
        && s.timers.iter().all(good_timer)
        && s.timers.iter().enumerate().all(|(i, t)| s.timers[..i].iter().all(|o| o.number != t.number))
        && s.len == s.pins * 16
        && good_signals(&s.signals);
    match good {
        false => Err(BAD_SETUP),
        true if !frequency(f64::from_bits(s.hz)) => Err(BAD_CLOCK),
        true => Ok(()),
    }
}

fn good_timer(t: &TimerSpec) -> bool {
    (1..=24).contains(&t.number) && matches!(t.width, 16 | 32) && t.channels <= 4 && (t.word as usize) < NENR && t.bit <= 31
}

/// The table's entries are below 256; of two pairs with one index only the later is an entry.
fn good_signals(signals: &[(u32, u32)]) -> bool {
    let overwritten = |i: usize| signals[i + 1..].iter().any(|o| o.0 == signals[i].0);
    (0..signals.len()).all(|i| signals[i].1 < 256 || overwritten(i))
}

fn instance(t: &TimerSpec) -> TimerInstance {
    TimerInstance {
        name: format!("TIM{}", t.number),
        width: t.width as u8,
        channels: t.channels as u8,
        // Buses 1, 2 and 3 are told apart, all others are alike; a large number must not become a small one.
        apb: t.bus.min(4) as u8,
        irq: t.irq,
        enable: Enable { reg: t.word as u8, bit: t.bit as u8 },
    }
}
