//! Random call lists: mostly what a program would do, some wild, boundaries often. The generator keeps a board
//! in step with what it writes, so that it can aim: at booked cycles, at reload + 1, at the last changing cycle.

use std::collections::VecDeque;

use mcs_sim::seen::lane_write;

use crate::board::{Board, LIMIT};
use crate::calls::{Answer, Call, Setup, TimerSpec};
use crate::rng::Rng;

const CR1: u32 = 0x00;
const CR2: u32 = 0x04;
const SMCR: u32 = 0x08;
const DIER: u32 = 0x0c;
const SR: u32 = 0x10;
const EGR: u32 = 0x14;
const CCMR1: u32 = 0x18;
const CCMR2: u32 = 0x1c;
const CCER: u32 = 0x20;
const CNT: u32 = 0x24;
const PSC: u32 = 0x28;
const ARR: u32 = 0x2c;
const CCR1: u32 = 0x34;

/// A delivery of more events than this takes milliseconds: made rarely, and then on purpose.
const MANY: u64 = 3_000;

pub struct Gen {
    rng: Rng,
    board: Board,
    /// The set-up last served.
    setup: Setup,
    /// Calls decided on; their cycles are chosen when they are made.
    plan: VecDeque<Call>,
    /// Calls until the next set-up.
    left: u64,
    /// Planned calls are made no earlier: a board may start far out.
    start: u64,
    /// One or two timers, calls that a stepped machine can follow; each call with nothing due that is not delivered.
    few: bool,
    in_time: bool,
    /// Set-ups have timers in manual mode, and those are fired now and then. A generator of its own: without it a seed's list is what it was.
    modes: Option<Rng>,
    /// OPM is never set, a manual timer's reload never 0, and the board knows nothing of manual mode.
    published: bool,
}

impl Gen {
    pub fn new(seed: u64) -> Self {
        let mut rng = Rng::new(seed);
        let left = rng.below(8); // a few calls meet the blank board
        Self { rng, board: Board::new(), setup: Setup::default(), plan: VecDeque::new(), left, start: 0, few: false, in_time: false, modes: None, published: false }
    }

    /// The same with each timer in manual mode or not, by chance.
    pub fn with_manual(self, seed: u64) -> Self {
        Self { modes: Some(Rng::new(seed ^ 0xf2)), ..self }
    }

    /// The same with OPM never set and no reload of 0 in manual mode. Then the mode changes nothing, so the answers are the published Rust's alone.
    pub fn as_published(self) -> Self {
        Self { published: true, ..self }
    }

    /// Lists for a machine that is stepped clock by clock: one or two timers, a pin to each channel, small prescalers, cycles near
    /// each other, no call that is refused but with 7. In time: every write is followed by a delivery at its cycle, and
    /// time goes on with deliveries alone.
    pub fn few_timers(seed: u64, in_time: bool) -> Self {
        Self { few: true, in_time, left: 0, ..Self::new(seed) }
    }

    /// The generator's board, as the calls so far left it.
    pub fn board(&self) -> &Board {
        &self.board
    }

    /// The next call and its answer.
    pub fn step(&mut self) -> (Call, Answer) {
        let mut call = self.choose();
        match &mut call {
            Call::Write { offset, value, .. } if self.published && *offset & !3 == CR1 => *value &= !8,
            Call::Write { timer, offset, size, value, .. } if self.published && *offset & !3 == ARR && self.zeroes(*timer, *offset, *size, *value) => {
                (*offset, *size, *value) = (ARR, 4, 1);
            }
            Call::Setup(s) => s.manual = self.modes.as_mut().map_or(0, |rng| rng.small(1 << s.timers.len())),
            _ => {}
        }
        let answer = match &call {
            Call::Setup(s) if self.published => self.board.call(&Call::Setup(Setup { manual: 0, ..s.clone() })),
            call => self.board.call(call),
        };
        if self.in_time {
            let book = self.book();
            let due = match call {
                Call::Write { timer, .. } => timer..timer + 1,
                // A shorter step may have passed already.
                Call::Clock { .. } => 0..self.setup.timers.len() as u32,
                _ => 0..0,
            };
            due.for_each(|timer| self.plan.push_front(Call::Deliver { timer, cycle: 0, book }));
        }
        if let (Call::Setup(s), 0) = (&call, answer.number) {
            self.setup = s.clone();
            self.left = if self.rng.one_in(10) { self.rng.below(40) } else { 100 + self.rng.below(500) };
            self.plan.clear();
            self.prepare();
        }
        (call, answer)
    }

    /// A peek or a query of the generator's board; it changes nothing.
    pub fn ask(&mut self, call: &Call) -> Answer {
        let asks = matches!(
            call,
            Call::Peek { .. } | Call::Booked { .. } | Call::Next | Call::Level { .. } | Call::Volts { .. } | Call::Line { .. } | Call::Time { .. }
                | Call::Why { .. }
        );
        assert!(asks, "{call} may change the board");
        self.board.call(call)
    }

    fn choose(&mut self) -> Call {
        if let Some(mut call) = self.plan.pop_front() {
            if let Some(cycle) = call.cycle_mut() {
                *cycle = self.soon();
            }
            return call;
        }
        if self.left == 0 {
            return Call::Setup(self.good_setup());
        }
        self.left -= 1;
        if let Some(call) = self.fire() {
            return call;
        }
        if self.few {
            return self.choose_few();
        }
        if self.rng.one_in(5_000) {
            return self.heavy();
        }
        match self.rng.below(1000) {
            0..=379 => self.deliver(),
            380..=529 => self.aimed_write(),
            530..=539 => {
                self.pilot();
                self.choose()
            }
            540..=639 => self.read(),
            640..=679 => self.peek(),
            680..=729 => self.set_pin(),
            730..=779 => self.drive(),
            780..=784 => self.reset_pins(),
            785..=794 => Call::Reset { timer: self.timer(), cycle: self.when(), book: self.book() },
            795..=814 => self.clock(),
            815..=824 => self.enable(),
            825..=929 => self.query(),
            930..=949 => Call::Clear { irq: self.irq() },
            950..=957 => Call::Setup(self.bad_setup()),
            _ => self.wild(),
        }
    }

    fn choose_few(&mut self) -> Call {
        match self.rng.below(1000) {
            0..=459 => {
                // All timers are served in time, mostly.
                let call = self.deliver();
                if let (&Call::Deliver { timer, book, .. }, 2) = (&call, self.setup.timers.len()) {
                    self.plan.push_back(Call::Deliver { timer: 1 - timer, cycle: 0, book });
                }
                call
            }
            460..=829 => self.aimed_write(),
            830..=844 => {
                self.pilot();
                self.choose()
            }
            845..=944 => Call::Read { timer: self.timer(), offset: self.register(), size: 4, cycle: self.when() },
            945..=969 => Call::Peek { timer: self.timer(), offset: self.register(), cycle: self.when() },
            970..=974 => Call::Reset { timer: self.timer(), cycle: self.when(), book: self.book() },
            975..=979 => {
                let (sys, hclk, mut dividers) = self.board.tree();
                dividers[4] = self.rng.pick(&[1, 1, 2, 3]);
                Call::Clock { sys, hclk, dividers, cycle: self.when() }
            }
            980..=984 => {
                // A closed gate opens again before long.
                let word = self.rng.pick(&self.setup.timers).word;
                for _ in 0..self.rng.below(4) {
                    let call = self.aimed_write();
                    self.plan.push_back(call);
                }
                self.plan.push_back(Call::Enable { word, value: u32::MAX });
                Call::Enable { word, value: 0 }
            }
            _ => match self.first_booked() {
                // Delivered at the very cycle of a write, as a program that is in time has it.
                Some(t) => Call::Deliver { timer: t as u32, cycle: self.board.last(), book: self.book() },
                None => Call::Next,
            },
        }
    }

    /// This write of ARR leaves a manual timer's reload 0.
    fn zeroes(&mut self, timer: u32, offset: u32, size: u32, value: u32) -> bool {
        let (t, cycle) = (timer as usize, self.board.last());
        if t >= self.setup.timers.len() || self.setup.manual >> t & 1 == 0 || !matches!(size, 1 | 2 | 4) {
            return false;
        }
        let old = self.board.call(&Call::Peek { timer, offset: ARR, cycle }).value as u32;
        let max = if self.setup.timers[t].width == 32 { u32::MAX } else { 0xffff };
        lane_write(old, offset, size as u8, value) & max == 0
    }

    /// A manual timer is fired, or its run made a pulse, once in eight calls; once in 24 its reload is written, often 0.
    fn fire(&mut self) -> Option<Call> {
        let rng = self.modes.as_mut()?;
        let chance = rng.below(24);
        if chance > 3 {
            return None;
        }
        let timer = rng.small(self.board.specs().len() as u32);
        let t = Some(timer as usize).filter(|&t| t < self.setup.timers.len() && self.setup.manual >> t & 1 != 0)?;
        if chance == 3 {
            let value = rng.pick(&[0, 0, 0, 1, 3, 9, 40]);
            return Some(Call::Write { timer, offset: ARR, size: 4, value, cycle: self.when(), book: self.book() });
        }
        let v = self.board.view(t, self.board.last());
        let more = rng.pick(&[0, 0, 0, 0x10, 0x80, 4, 2, 2]);
        let more = if v.running { 0 } else { more };
        Some(Call::Write { timer, offset: CR1, size: 4, value: v.cr1 ^ more | 9, cycle: self.when(), book: self.book() })
    }

    /// One or two timers, mostly with channels; function 1 of pin k is the k-th channel.
    fn few_setup(&mut self) -> Setup {
        let lines = 8;
        let mut s = Setup { hz: 16e6f64.to_bits(), vcc: 3.3f64.to_bits(), pins: 8, lines, len: 128, ..Setup::default() };
        for k in 0..1 + self.rng.small(2) {
            let number = self.rng.pick(&[2, 3]) + 2 * k;
            let channels = self.rng.pick(&[4, 4, 4, 2, 1, 3, 0]);
            s.timers.push(TimerSpec { number, width: self.rng.pick(&[16, 32]), channels, bus: 1, word: 3, bit: k, irq: k });
        }
        let channels: Vec<u32> = s.timers.iter().flat_map(|t| (0..t.channels).map(|c| 16 * (t.number + 10) + c + 2)).collect();
        s.signals.extend((0..).zip(channels).map(|(pin, signal)| (pin * 16 + 1, signal)));
        s
    }

    // ---- small choices --------------------------------------------------------------------

    /// A cycle as a program would have it.
    fn soon(&mut self) -> u64 {
        let last = self.board.last().max(self.start);
        if self.few {
            return if !self.in_time && self.rng.one_in(12) { last + self.rng.below(6) } else { last };
        }
        match self.rng.below(20) {
            0..=6 => last,
            7..=17 => last + self.rng.below(12),
            18 => last + self.rng.below(150),
            _ => self.when(),
        }
    }

    /// Any cycle, mostly a good one. A few lead far out, so that a board's life ends there.
    fn when(&mut self) -> u64 {
        let last = self.board.last();
        if self.in_time {
            return last;
        }
        if self.few {
            let n = self.rng.below(100);
            let step = self.running().map_or(1, |t| self.board.view(t, last).tick).min(100);
            return last + if n < 60 { 0 } else if n < 90 { self.rng.below(2 * step) } else { self.rng.below(30 * step) };
        }
        match self.rng.below(1000) {
            0..=449 => last + self.rng.below(30),
            450..=649 => last,
            650..=749 => last + self.rng.below(300),
            750..=799 => last + self.rng.below(20_000),
            800..=949 => {
                let n = self.board.specs().len() as u64;
                let booked = if n == 0 { last } else { self.board.booked(self.rng.below(n) as usize) };
                let near = if booked > LIMIT { last } else { booked };
                (near + self.rng.pick(&[0, 1, 1, 1, 2])).saturating_sub(1).max(last)
            }
            950..=966 => last.saturating_sub(1 + self.rng.below(20)),
            967..=969 => self.rng.below(last + 1),
            970..=974 => LIMIT + 1,
            975 => self.rng.pick(&[u64::MAX, 1 << 63, LIMIT + 2, (1 << 63) - 1]),
            976 => last + (1 << self.rng.below(62)),
            977 if last < (1 << 53) => (1 << 53) - 20 + self.rng.below(40),
            978 if self.rng.one_in(4) => {
                self.left = self.left.min(40);
                LIMIT - self.rng.pick(&[0, 0, 1, 2, 1000])
            }
            _ => last + 1,
        }
    }

    /// Any cycle but one that would make thousands of events due.
    fn near(&mut self) -> u64 {
        let cycle = self.when();
        if cycle > LIMIT { cycle } else { cycle.min(self.board.last() + 500) }
    }

    fn timer(&mut self) -> u32 {
        if self.few {
            return self.rng.small(self.board.specs().len() as u32);
        }
        self.index(self.board.specs().len() as u32, &[8, 9, 255, 256, 1 << 16, u32::MAX])
    }

    fn pin(&mut self) -> u32 {
        self.index(self.board.pins() as u32, &[127, 128, 129, 255, 256, 65_535, 65_536, u32::MAX])
    }

    /// An index below `n`, once in 60 just above it or one of `wild`.
    fn index(&mut self, n: u32, wild: &[u32]) -> u32 {
        match self.rng.below(60) {
            0 if self.rng.one_in(2) => n + self.rng.small(2),
            0 => self.rng.pick(wild),
            _ => self.rng.small(n),
        }
    }

    fn book(&mut self) -> u64 {
        if self.few {
            return 400_008;
        }
        match self.rng.below(40) {
            0..=19 => 4 + self.rng.below(9),
            20..=34 => 13 + self.rng.below(100),
            35 => self.rng.below(7),
            36 => 4,
            37 => self.rng.pick(&[1 << 16, 1 << 32, (1 << 32) + 2, u64::MAX]),
            _ => 1000,
        }
    }

    fn reset_pins(&mut self) -> Call {
        let call = Call::ResetPins { cycle: self.when(), book: self.pin_reset_book() };
        self.route_all();
        call
    }

    fn pin_reset_book(&mut self) -> u64 {
        let pins = self.board.pins() as u64;
        match self.rng.below(6) {
            0 => pins.saturating_sub(1),
            1 => pins + 1,
            2 => self.book(),
            _ => pins,
        }
    }

    fn irq(&mut self) -> u32 {
        let lines = self.board.lines();
        match self.rng.below(10) {
            0 => lines + self.rng.small(2),
            1 => lines.saturating_sub(1),
            2 => self.rng.pick(&[0, 31, 32, 239, 240, 255, 256, 257, 1 << 16, u32::MAX]),
            3 => self.rng.small(lines + 1),
            _ => match self.setup.timers[..] {
                [] => 0,
                ref ts => self.rng.pick(ts).irq,
            },
        }
    }

    /// Yes or no, with numbers that a careless cut to 8 bits would turn into no.
    fn yes_no(&mut self, once_in: u64) -> u32 {
        if !self.rng.one_in(once_in) {
            0
        } else if self.rng.one_in(8) {
            self.rng.pick(&[2, 255, 256, 1 << 16, 1 << 31, u32::MAX])
        } else {
            1
        }
    }

    fn value(&mut self) -> u32 {
        match self.rng.below(6) {
            0 => self.rng.small(40),
            1 => self.rng.pick(&[0, 1, 0xff, 0xffff, 0x1_0000, 0x8000_0000, u32::MAX, u32::MAX - 1]),
            2 => 1 << self.rng.small(32),
            3 => self.rng.small(0x400),
            _ => self.rng.word() as u32,
        }
    }

    // ---- set-up ---------------------------------------------------------------------------

    fn hz(&mut self) -> u64 {
        match self.rng.below(40) {
            0 => 1f64.to_bits(),
            1 => self.rng.pick(&[f64::MAX, f64::MIN_POSITIVE, 5e-324, 1e-300, 3.0, 0.1]).to_bits(),
            2 => self.rng.pick(&[1e-3f64, 32_768.0, 1e9]).to_bits(),
            _ => self.rng.pick(&[16e6f64, 170e6, 8e6, 1e6, 4e6, 64e6, 48e6]).to_bits(),
        }
    }

    /// A frequency or a voltage that no board may have.
    fn bad_float(&mut self) -> u64 {
        self.rng.pick(&[0.0f64, -0.0, -1.0, -16e6, f64::INFINITY, f64::NEG_INFINITY, f64::NAN, -5e-324]).to_bits()
    }

    fn good_setup(&mut self) -> Setup {
        if self.few {
            return self.few_setup();
        }
        let n = match self.rng.below(10) {
            0..=3 => 1 + self.rng.below(2),
            4..=7 => 2 + self.rng.below(3),
            8 => 8,
            _ => 1 + self.rng.below(8),
        };
        let pins = match self.rng.below(10) {
            0 => self.rng.pick(&[128, 128, 127, 64, 33, 32, 31]),
            1 => 1,
            2..=4 => 1 + self.rng.small(16),
            _ => 4 + self.rng.small(10),
        };
        let lines = match self.rng.below(3) {
            0 => self.rng.pick(&[0, 1, 32, 239, 240, 241, 255, 256, 256]),
            1 => self.rng.small(257),
            _ => 8 + self.rng.small(100),
        };
        let mut s = Setup { hz: self.hz(), vcc: self.vcc(), pins, lines, len: pins * 16, ..Setup::default() };
        for _ in 0..n {
            let t = self.good_timer(&s);
            s.timers.push(t);
        }
        self.signals(&mut s);
        s
    }

    fn vcc(&mut self) -> u64 {
        let rare = [f64::MAX, f64::MIN_POSITIVE, 5e-324, 1e-300, 0.1];
        if self.rng.one_in(20) { self.rng.pick(&rare).to_bits() } else { self.rng.pick(&[3.3f64, 5.0, 1.8, 1.0]).to_bits() }
    }

    fn good_timer(&mut self, s: &Setup) -> TimerSpec {
        let number = loop {
            let usual = [2, 3, 4, 2, 3, 4, 2, 3, 4, 5, 6, 7, 1, 24];
            let n = if self.rng.one_in(8) { 1 + self.rng.small(24) } else { self.rng.pick(&usual) };
            if s.timers.iter().all(|t| t.number != n) {
                break n;
            }
        };
        let irq = match self.rng.below(8) {
            0 => s.lines,
            1 => s.lines.saturating_sub(1),
            2 => self.rng.pick(&[31, 32, 239, 240, 255, 256, 1 << 16, u32::MAX]),
            3 if !s.timers.is_empty() => self.rng.pick(&s.timers).irq,
            _ => self.rng.small(s.lines + 1),
        };
        TimerSpec {
            number,
            width: self.rng.pick(&[16, 32]),
            channels: self.rng.pick(&[4, 4, 4, 4, 4, 2, 1, 3, 0]),
            bus: self.rng.pick(&[1, 1, 1, 2, 3, 4, 0, 5, 256, 257, 258, u32::MAX]),
            word: self.rng.pick(&[3, 3, 3, 0, 4, 5, 7, 8]),
            bit: self.rng.pick(&[0, 0, 1, 2, 15, 31]),
            irq,
        }
    }

    /// Function 1 of the pins takes the channels that drive in turn; the other functions are mixed.
    fn signals(&mut self, s: &mut Setup) {
        let drivers = s.timers.iter().filter(|t| (2..=4).contains(&t.number));
        let drivers: Vec<u32> = drivers.flat_map(|t| (0..t.channels).map(|c| 16 * (t.number + 10) + c + 2)).collect();
        let first = self.rng.below(drivers.len() as u64) as usize;
        for pin in 0..s.pins {
            for f in 0..16 {
                let signal = match self.rng.below(16) {
                    _ if f == 1 && !drivers.is_empty() => drivers[(first + pin as usize) % drivers.len()],
                    0..=3 => {
                        let t = self.rng.pick(&s.timers).number;
                        16 * (if (2..=5).contains(&t) { t } else { 2 } + 10) + self.rng.small(4) + 2
                    }
                    4 => self.rng.small(256),
                    5 => 16 * self.rng.small(11) + self.rng.small(2), // a UART, or nearly
                    _ => continue,
                };
                s.signals.push((pin * 16 + f, signal));
                if self.rng.one_in(400) {
                    s.signals.push((pin * 16 + f, self.rng.small(256)));
                }
            }
        }
        // A pair that is overwritten is no entry, whatever its signal.
        if let (true, Some(&(i, _))) = (self.rng.one_in(30), s.signals.first()) {
            s.signals.insert(0, (i, 256));
        }
    }

    /// A set-up with one thing wrong, now and then two.
    fn bad_setup(&mut self) -> Setup {
        let mut s = self.good_setup();
        for _ in 0..if self.rng.one_in(5) { 2 } else { 1 } {
            self.spoil(&mut s);
        }
        s
    }

    fn spoil(&mut self, s: &mut Setup) {
        let t = self.rng.below(s.timers.len().max(1) as u64) as usize;
        let fault = self.rng.below(14);
        match (fault, s.timers.get_mut(t)) {
            (0, _) => s.pins = self.rng.pick(&[0, 129, 256, 257, 1 << 28, u32::MAX]),
            (1, _) => s.lines = self.rng.pick(&[257, 258, 512, 1 << 16, u32::MAX]),
            (2, _) => s.vcc = self.bad_float(),
            (3 | 4, _) => s.hz = self.bad_float(),
            (5, _) => s.len = self.rng.pick(&[s.len.wrapping_sub(1), s.len.wrapping_add(1), s.len / 2, s.pins, u32::MAX]),
            (6, _) => s.signals.push((s.len.saturating_sub(1), self.rng.pick(&[256, 450, 65_536 + 194, u32::MAX]))),
            (7, _) if self.rng.one_in(2) => s.timers.clear(),
            (7, Some(&mut first)) => {
                s.timers.clear();
                s.timers.extend((1..=9).map(|number| TimerSpec { number, ..first }));
            }
            (8, Some(t)) => t.number = self.rng.pick(&[0, 25, 256, 258, u32::MAX]),
            (9, Some(&mut twin)) => s.timers.push(twin),
            (10, Some(t)) => t.width = self.rng.pick(&[0, 8, 15, 17, 31, 33, 64, 272, 288]),
            (11, Some(t)) => t.channels = self.rng.pick(&[5, 6, 256, 260, u32::MAX]),
            (12, Some(t)) => t.word = self.rng.pick(&[9, 10, 256, 259, u32::MAX]),
            (13, Some(t)) => t.bit = self.rng.pick(&[32, 33, 256, u32::MAX]),
            _ => s.pins = 0,
        }
        // A pair beyond the table would be no set-up at all.
        s.signals.retain(|p| p.0 < s.len);
    }

    /// After a set-up: open the gates, route the pins, start some timers, as a program does first.
    fn prepare(&mut self) {
        if self.few {
            self.plan.push_back(Call::Enable { word: 3, value: u32::MAX });
            let pins = self.setup.signals.clone();
            let pin = |(entry, _)| Call::Pin { pin: entry / 16, mode: 2, open_drain: 0, out: 0, pullup: 0, pulldown: 0, function: 1, cycle: 0, book: 4 };
            self.plan.extend(pins.into_iter().map(pin));
            return (0..self.setup.timers.len()).for_each(|_| self.pilot());
        }
        for t in self.setup.timers.clone() {
            let value = if self.rng.one_in(12) { self.value() } else { u32::MAX };
            self.plan.push_back(Call::Enable { word: t.word, value });
        }
        self.start = if self.rng.one_in(8) { self.far() } else { 0 };
        if self.rng.one_in(3) {
            let clock = self.clock();
            self.plan.push_back(clock);
        }
        self.route_all();
        for _ in 0..self.setup.timers.len() {
            if !self.rng.one_in(4) {
                self.pilot();
            }
        }
    }

    fn far(&mut self) -> u64 {
        match self.rng.below(5) {
            0 => (1 << 53) - self.rng.below(2_000),
            1 => (1 << 53) + self.rng.below(100),
            2 => LIMIT - self.rng.below(100_000),
            3 => LIMIT - (1 << self.rng.below(60)),
            _ => 1 << self.rng.below(62),
        }
    }

    // ---- what a program does --------------------------------------------------------------

    fn reload(&mut self) -> u32 {
        match self.rng.below(24) {
            0..=7 => 9,
            8..=15 => self.rng.small(20),
            16..=18 => 99,
            19 => 999,
            20 => 0,
            21 => 1,
            22 => 0xffff,
            _ => self.rng.pick(&[u32::MAX, 0xfffe, 0x1_0000, 0x1_0001]),
        }
    }

    fn compare(&mut self, reload: u32) -> u32 {
        match self.rng.below(12) {
            0 => 0,
            1 => reload,
            2 => reload.wrapping_add(1),
            3 => reload.wrapping_add(2),
            4 => self.value(),
            5 => 3,
            6 => 1,
            _ => self.rng.below(reload as u64 + 2) as u32,
        }
    }

    /// One channel's byte of CCMR: mode, preload, and now and then an input.
    fn channel_mode(&mut self) -> u32 {
        let mode = if self.rng.one_in(2) { 6 + self.rng.small(2) } else { self.rng.small(8) };
        let preload = if self.rng.one_in(3) { 8 } else { 0 };
        let input = if self.rng.one_in(12) { self.rng.small(4) } else { 0 };
        let other = if self.rng.one_in(12) { self.rng.small(256) & 0x84 } else { 0 };
        mode << 4 | preload | input | other
    }

    fn modes(&mut self) -> u32 {
        let fourth = if self.rng.one_in(12) { self.rng.pick(&[1 << 16, 1 << 24]) } else { 0 };
        self.channel_mode() | self.channel_mode() << 8 | fourth
    }

    fn enables(&mut self) -> u32 {
        let polarity = self.rng.word() as u32 & self.rng.pick(&[0, 0, 0x2222]);
        let on = if self.rng.one_in(4) { self.rng.word() as u32 & 0x1111 } else { 0x1111 };
        on | polarity
    }

    fn control(&mut self) -> u32 {
        let mut v = 1;
        for (bit, once_in) in [(16, 3), (128, 3), (8, 12), (2, 10), (4, 10), (0x60, 20), (0x300, 20)] {
            if self.rng.one_in(once_in) {
                v |= bit;
            }
        }
        v
    }

    /// Plans what starts a pilot on a timer.
    fn pilot(&mut self) {
        let n = self.board.specs().len();
        if n == 0 {
            return self.plan.push_back(Call::Next);
        }
        let timer = self.rng.below(n as u64) as u32;
        let reload = self.reload();
        let mut steps = Vec::new();
        if self.rng.one_in(2) {
            steps.push((CR1, 0));
        }
        if self.rng.one_in(4) {
            steps.push((PSC, self.rng.pick(&[0, 1, 2, 7, 15, 0xffff])));
        }
        steps.push((ARR, reload));
        steps.push((CCMR1, self.modes()));
        steps.push((CCMR2, self.modes()));
        for c in 0..4 {
            if !self.rng.one_in(4) {
                steps.push((CCR1 + 4 * c, self.compare(reload)));
            }
        }
        if self.rng.one_in(3) {
            steps.push((CNT, self.rng.pick(&[0, 1, reload / 2, reload, reload.wrapping_add(1), reload.wrapping_add(2)])));
        }
        if self.rng.one_in(3) {
            steps.push((EGR, 1));
        }
        if self.rng.one_in(2) {
            steps.push((DIER, self.rng.pick(&[1, 2, 0x1f, 0x1e, 0x5f5f, 0])));
        }
        steps.push((CCER, self.enables()));
        if self.rng.one_in(6) {
            let (i, j) = (self.rng.below(steps.len() as u64) as usize, self.rng.below(steps.len() as u64) as usize);
            steps.swap(i, j);
        }
        steps.push((CR1, self.control()));
        for (offset, value) in steps {
            let book = 4 + self.rng.below(4);
            self.plan.push_back(Call::Write { timer, offset, size: 4, value, cycle: 0, book });
        }
    }

    /// About how many events are due at `cycle`, from above.
    fn due(&self, t: usize, cycle: u64) -> u64 {
        let v = self.board.view(t, self.board.last());
        let steps = cycle.saturating_sub(v.base) / v.tick;
        if v.running { (steps / (v.reload + 1)).saturating_mul(1 + v.channels as u64) } else { 0 }
    }

    fn running(&mut self) -> Option<usize> {
        let n = self.board.specs().len();
        let first = self.rng.below(n as u64) as usize;
        (0..n).map(|i| (first + i) % n).find(|&t| self.board.booked(t) != u64::MAX)
    }

    /// The timer that a machine would serve next.
    fn first_booked(&self) -> Option<usize> {
        let n = self.board.specs().len();
        (0..n).filter(|&t| self.board.booked(t) != u64::MAX).min_by_key(|&t| self.board.booked(t))
    }

    fn deliver(&mut self) -> Call {
        let book = self.book();
        let some = match self.rng.below(20) {
            0 => None,
            1..=8 => self.running(),
            _ => self.first_booked(),
        };
        if some.is_none() && self.rng.one_in(2) {
            self.pilot();
        }
        let Some(t) = some else {
            return match (self.timer(), self.when(), self.board.specs().len()) {
                (t, c, n) if (t as usize) < n && self.due(t as usize, c) > MANY => self.catch_up(t),
                (timer, cycle, _) => Call::Deliver { timer, cycle, book },
            };
        };
        let (last, booked, v) = (self.board.last(), self.board.booked(t), self.board.view(t, self.board.last()));
        let period = v.tick * (v.reload + 1);
        let cycle = match self.rng.below(20) {
            0..=5 => booked,
            6 => booked.saturating_sub(1),
            7 | 8 => booked + self.rng.below(3 * v.tick),
            9..=11 => booked + self.rng.below(period),
            12..=15 => booked.saturating_add(period.saturating_mul(1 + self.rng.below(4))),
            16 => booked.saturating_add(period.saturating_mul(self.rng.below(100))),
            17 | 18 => last,
            _ => return Call::Deliver { timer: t as u32, cycle: self.near(), book },
        };
        // A booking far out is seldom worth the jump: the other timers would fall far behind.
        let far = if self.few { cycle > last + 4_000 } else { cycle > last + 20_000 && !self.rng.one_in(30) };
        let cycle = if far { last + self.rng.below(100) } else { cycle.max(last) };
        if self.due(t, cycle) > MANY {
            return self.catch_up(t as u32);
        }
        Call::Deliver { timer: t as u32, cycle, book }
    }

    /// Brings a timer that has fallen far behind back to the present without handling its events.
    fn catch_up(&mut self, timer: u32) -> Call {
        let (cycle, book) = (self.board.last(), 4);
        match self.rng.below(4) {
            0 => Call::Reset { timer, cycle, book },
            1 => Call::Write { timer, offset: CNT, size: 4, value: 0, cycle, book },
            _ => Call::Write { timer, offset: EGR, size: 4, value: 1, cycle, book },
        }
    }

    /// A delivery of about 100,001 events; of a timer without channels, of exactly as many or one more or less.
    fn heavy(&mut self) -> Call {
        let n = self.board.specs().len();
        let plain = (0..n).find(|&t| self.board.specs()[t].channels == 0 && self.board.booked(t) != u64::MAX);
        let Some(t) = plain.or_else(|| self.running()) else { return Call::Next };
        let v = self.board.view(t, self.board.last());
        // The counter at its base is the one that the next update is reckoned from.
        let first = v.base + (v.reload + 1 - self.board.view(t, v.base).counter) * v.tick;
        let late = (v.tick * (v.reload + 1)).saturating_mul(self.rng.pick(&[99_999, 100_000, 100_000, 100_001]));
        let cycle = first.saturating_add(late).max(self.board.last());
        let book = self.rng.pick(&[4, 1000, 100_000, 500_000, u64::MAX]);
        if cycle > LIMIT { Call::Next } else { Call::Deliver { timer: t as u32, cycle, book } }
    }

    /// A write that makes sense where the timer stands.
    fn aimed_write(&mut self) -> Call {
        let (timer, cycle, book) = (self.timer(), self.when(), self.book());
        let Some(t) = Some(timer as usize).filter(|&t| t < self.board.specs().len()) else {
            return Call::Write { timer, offset: CR1, size: 4, value: 1, cycle, book };
        };
        let v = self.board.view(t, cycle.clamp(self.board.last(), LIMIT));
        let (reload, counter) = (v.reload as u32, v.counter as u32);
        let (offset, value) = match self.rng.below(26) {
            0..=2 => (CNT, self.rng.pick(&[0, reload, reload.wrapping_add(1), reload.wrapping_add(2), v.compare[0], v.compare[1].wrapping_sub(1), counter])),
            3 => (CNT, self.rng.below(v.reload + 2) as u32),
            4..=6 => (CR1, v.cr1 ^ self.rng.pick(&[1, 1, 16, 16, 128, 8, 2, 4, 17, 0x60])),
            7 => (CR1, self.control()),
            8 => (ARR, self.reload()),
            9 => (ARR, self.rng.pick(&[counter, counter.wrapping_sub(1), counter.wrapping_sub(2), counter.wrapping_add(1), 0, u32::MAX])),
            10..=13 => (CCR1 + 4 * self.rng.small(4), self.compare(reload)),
            14 => (CCR1 + 4 * self.rng.small(4), self.rng.pick(&[counter, counter.wrapping_add(1), counter.wrapping_sub(1), 0])),
            15 | 16 => (self.rng.pick(&[CCMR1, CCMR2]), self.modes()),
            17 => (CCER, self.enables()),
            18 | 19 => (SR, self.rng.pick(&[0, !1, !2, !0x1f, u32::MAX, 0x1f, !0x1e5f])),
            20 => (DIER, self.rng.pick(&[0, 1, 0x1f, 2, 0xffff_ffff, 0x1e])),
            21 | 22 => (EGR, self.rng.pick(&[1, 2, 4, 8, 16, 0x1e, 0x1f, 0x20, 0])),
            23 => (PSC, self.rng.pick(&[0, 0, 1, 2, 3, 9, 0xffff, 0x1_0000])),
            24 => (self.rng.pick(&[CR2, SMCR]), self.value()),
            _ => (self.register(), self.value()),
        };
        match self.rng.below(8) {
            0 => self.lane(timer, offset, value, cycle, book),
            _ => Call::Write { timer, offset, size: 4, value, cycle, book },
        }
    }

    fn register(&mut self) -> u32 {
        self.rng.pick(&[CR1, CR2, SMCR, DIER, SR, EGR, CCMR1, CCMR2, CCER, CNT, PSC, ARR, 0x30, CCR1, 0x38, 0x3c, 0x40, 0x44])
    }

    /// Part of a write: the lane's own part of the value, or all of it, at any of the four bytes.
    fn lane(&mut self, timer: u32, offset: u32, value: u32, cycle: u64, book: u64) -> Call {
        let (size, byte) = (self.rng.pick(&[1, 2]), self.rng.pick(&[0, 0, 0, 1, 2, 3]));
        let value = if self.rng.one_in(2) { value >> (8 * byte) } else { value };
        Call::Write { timer, offset: offset + byte, size, value, cycle, book }
    }

    fn read(&mut self) -> Call {
        let offset = if self.rng.one_in(2) { CNT } else { self.register() };
        let (size, byte) = if self.rng.one_in(4) { (self.rng.pick(&[1, 2, 4]), self.rng.small(4)) } else { (4, 0) };
        Call::Read { timer: self.timer(), offset: offset + byte, size, cycle: self.odd_time() }
    }

    fn peek(&mut self) -> Call {
        let byte = if self.rng.one_in(4) { self.rng.small(4) } else { 0 };
        Call::Peek { timer: self.timer(), offset: self.register() + byte, cycle: self.odd_time() }
    }

    /// A cycle for a call that moves no time: it may look far ahead.
    fn odd_time(&mut self) -> u64 {
        match self.rng.below(12) {
            0 => LIMIT - self.rng.pick(&[0, 1, 2]),
            1 => self.rng.below(LIMIT - self.board.last().min(LIMIT) + 1) + self.board.last(),
            2 => (1u64 << self.rng.below(62)).saturating_add(self.board.last()),
            _ => self.when(),
        }
    }

    fn set_pin(&mut self) -> Call {
        let mut call = self.route();
        if let Call::Pin { pin, mode, open_drain, function, cycle, book, .. } = &mut call {
            if self.rng.one_in(8) {
                *pin = self.pin();
            }
            *mode = match self.rng.below(20) {
                0..=12 => 2,
                13 => 0,
                14..=16 => 1,
                17 => 3,
                _ => self.rng.pick(&[4, 5, 6, 255, 256, 257, 258, u32::MAX]),
            };
            *open_drain = self.yes_no(5);
            if self.rng.one_in(8) {
                *function = self.rng.pick(&[0, 1, 7, 15, 16, 17, 31, 256, 257, u32::MAX]);
            }
            if self.rng.one_in(3) {
                if let Some(entry) = self.taken() {
                    (*pin, *function) = (entry / 16, entry % 16 + 16 * self.rng.pick(&[0, 0, 1]));
                }
            }
            (*cycle, *book) = (self.when(), self.book());
        }
        call
    }

    /// An entry of the table whose signal another pin routes now.
    fn taken(&mut self) -> Option<u32> {
        let other = |&(i, signal): &(u32, u32)| signal < 256 && self.board.routed(signal as u16).is_some_and(|p| p as u32 != i / 16);
        let entries: Vec<u32> = self.setup.signals.iter().filter(|e| other(e)).map(|e| e.0).collect();
        if entries.is_empty() { None } else { Some(self.rng.pick(&entries)) }
    }

    /// Plans the first pins' settings, some of them on another pin or function.
    fn route_all(&mut self) {
        for i in 0..self.setup.pins.min(12) {
            let mut call = self.route();
            if let Call::Pin { pin, function, .. } = &mut call {
                if !self.rng.one_in(8) {
                    (*pin, *function) = (i, 1);
                }
            }
            self.plan.push_back(call);
        }
    }

    /// A pin in alternate mode, mostly on the function that has a driving channel.
    fn route(&mut self) -> Call {
        let entry = match self.rng.below(4) {
            0 if !self.setup.signals.is_empty() => self.rng.pick(&self.setup.signals).0,
            _ => self.rng.small(self.setup.pins) * 16 + 1,
        };
        Call::Pin {
            pin: entry / 16,
            mode: 2,
            open_drain: self.yes_no(12),
            out: self.yes_no(2),
            pullup: self.yes_no(5),
            pulldown: self.yes_no(5),
            function: entry % 16,
            cycle: 0,
            book: 4 + self.rng.below(3),
        }
    }

    fn volts(&mut self) -> u64 {
        let vcc = f64::from_bits(self.setup.vcc);
        let step = |x: f64, up: bool| f64::from_bits(if up { x.to_bits() + 1 } else { x.to_bits().saturating_sub(1) });
        match self.rng.below(20) {
            0 => (0.3 * vcc).to_bits(),
            1 => (0.6 * vcc).to_bits(),
            2 => step(0.3 * vcc, true).to_bits(),
            3 => step(0.6 * vcc, false).to_bits(),
            4 => vcc.to_bits(),
            5 => step(vcc, true).to_bits(),
            6 => self.rng.pick(&[0x7ff8_0000_0000_0000, 0xfff8_0000_0000_0000, 0x7ff0_0000_0000_0001, 0x7fff_ffff_ffff_ffff, 0xfff4_0000_0000_1234]),
            7 => self.rng.pick(&[-0.0f64, 0.0, f64::INFINITY, f64::NEG_INFINITY]).to_bits(),
            8 => self.rng.pick(&[5e-324f64, -5e-324, f64::MIN_POSITIVE, f64::MAX, f64::MIN]).to_bits(),
            9 => self.rng.word(),
            10 => (0.45 * vcc).to_bits(),
            _ => (vcc * (self.rng.below(120) as f64 - 10.0) / 100.0).to_bits(),
        }
    }

    fn drive(&mut self) -> Call {
        let kind = self.rng.pick(&[0, 1, 2, 3, 3, 3]);
        Call::Drive { pin: self.pin(), kind, volts: self.volts(), cycle: self.when(), book: self.book() }
    }

    fn divider(&mut self) -> u32 {
        match self.rng.below(12) {
            0..=5 => 1,
            6..=10 => self.rng.pick(&[2, 4, 8, 3, 5, 16]),
            _ => self.rng.pick(&[2, 2, 64, 512, 8191, 8192]),
        }
    }

    /// A new tree, or the present one with at most one part changed: a timer is told of some changes only.
    fn clock(&mut self) -> Call {
        let (mut sys, mut hclk, mut dividers) = self.board.tree();
        match self.rng.below(8) {
            0..=3 => (sys, hclk, dividers) = (self.hz(), self.hz(), [(); 6].map(|_| self.divider())),
            4 => sys = self.hz(),
            5 => hclk = self.hz(),
            6 => dividers[self.rng.below(6) as usize] = self.divider(),
            _ => {}
        }
        if self.rng.one_in(12) {
            dividers[self.rng.below(6) as usize] = self.rng.pick(&[0, 8193, 8194, 65_536, 65_537, u32::MAX]);
        }
        if self.rng.one_in(20) {
            *(if self.rng.one_in(2) { &mut sys } else { &mut hclk }) = self.bad_float();
        }
        Call::Clock { sys, hclk, dividers, cycle: self.when() }
    }

    fn enable(&mut self) -> Call {
        let words: Vec<u32> = self.setup.timers.iter().map(|t| t.word).collect();
        let word = match self.rng.below(6) {
            0 => self.rng.pick(&[8, 9, 10, 255, 256, u32::MAX]),
            1 => self.rng.small(9),
            _ if words.is_empty() => 0,
            _ => self.rng.pick(&words),
        };
        let value = if self.rng.one_in(4) { self.value() } else { u32::MAX };
        // A closed gate opens again before long, else the board would fall asleep.
        if value != u32::MAX && word < 9 {
            for _ in 0..self.rng.below(8) {
                let call = match self.rng.below(4) {
                    0 => self.deliver(),
                    1 => self.read(),
                    _ => self.aimed_write(),
                };
                self.plan.push_back(call);
            }
            self.plan.push_back(Call::Enable { word, value: u32::MAX });
        }
        Call::Enable { word, value }
    }

    fn query(&mut self) -> Call {
        match self.rng.below(14) {
            0..=3 => Call::Booked { timer: self.timer() },
            4 => Call::Next,
            5 | 6 => Call::Level { pin: self.pin() },
            7 | 8 => Call::Volts { pin: self.pin() },
            9..=11 => Call::Line { irq: self.irq() },
            _ => Call::Time { cycle: self.odd_time() },
        }
    }

    /// Anything at all, shaped like a register access.
    fn wild(&mut self) -> Call {
        let timer = self.timer();
        let offset = match self.rng.below(8) {
            0 => self.rng.word() as u32,
            1 => self.rng.pick(&[0x48, 0x4c, 0x50, 0x100, 0x3fc, 0x400, 0x10000, 0x1_0024, u32::MAX, u32::MAX - 3]),
            _ => self.rng.small(0x51),
        };
        let size = match self.rng.below(12) {
            0 => self.rng.pick(&[8, 255, 256, 257, 258, 260, u32::MAX]),
            1 | 2 => self.rng.small(9),
            _ => self.rng.pick(&[1, 2, 4]),
        };
        let book = if self.rng.one_in(4) { self.rng.below(7) } else { self.book() };
        match self.rng.below(8) {
            0 => Call::Read { timer, offset, size, cycle: self.odd_time() },
            1 => Call::Peek { timer, offset, cycle: self.odd_time() },
            _ => Call::Write { timer, offset, size, value: self.value(), cycle: self.when(), book },
        }
    }
}
