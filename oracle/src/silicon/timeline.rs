//! The machine on the board's cycles, with what the Rust does when a call comes before a delivery: its events happen when
//! they are delivered, and a call that finds one due sees the machine whose matches and updates were passed over
//! (docs/DIFFERENCES.md, lost-update, lost-compare, late-flags); in manual mode as F-8 and readings 1 to 6 have it. With a
//! delivery before each call it is the machine, clock by clock.

use super::{of_channels, synchronizes, Event, Rules, Timer, ARPE, ARR, CCER, CCMR1, CCMR2, CCR1, CCR4, CEN, CNT, CR1, EGR};

/// A level that an output takes.
#[derive(Clone, Copy, Debug, PartialEq, Eq)]
pub struct Edge {
    pub ch: usize,
    pub level: bool,
    pub cycle: u64,
}

/// What a delivery did.
#[derive(Clone, Debug, Default)]
pub struct Delivered {
    pub updates: u64,
    pub matches: u64,
    pub edges: Vec<Edge>,
}

impl Delivered {
    fn count(&mut self, e: Event) {
        match e {
            Event::Update => self.updates += 1,
            Event::Match(_) => self.matches += 1,
        }
    }

    pub fn events(&self) -> u64 {
        self.updates + self.matches
    }
}

#[derive(Clone, Debug)]
pub struct Timeline {
    pub rules: Rules,
    /// The machine as last delivered or written; `at` is the kernel clock that it stands at.
    pub t: Timer,
    pub at: u64,
    /// Cycles to a kernel clock.
    pub div: u64,
    /// The timer has outputs (timer-5), and their levels as last driven.
    pub drives: bool,
    pub out: [bool; 4],
}

impl Timeline {
    pub fn new(rules: Rules, channels: usize, max: u64, drives: bool) -> Self {
        Self { rules, t: Timer::reset(channels, max), at: 0, div: 1, drives, out: [false; 4] }
    }

    /// Kernel clocks up to a cycle.
    fn clocks(&self, cycle: u64) -> u64 {
        cycle.saturating_sub(self.at) / self.div
    }

    // ---- deliveries -------------------------------------------------------------------------

    /// Every event due at or before `cycle`. `step` sees the machine before and after each clock that is a step, and the levels.
    pub fn deliver(&mut self, cycle: u64, mut step: impl FnMut(&Timer, &Timer, &[bool; 4])) -> Delivered {
        let mut d = self.settle();
        let Self { rules, t, at, div, drives, out } = self;
        let mut n = cycle.saturating_sub(*at) / *div;
        while n > 0 {
            let starts = rules.start_delay && t.cr1 & CEN != 0;
            let rest = if !t.on && !starts {
                n
            } else if t.on && t.blocked(rules) {
                t.pre = 0;
                n
            } else if t.on && t.pre < t.psc {
                let k = n.min(t.psc - t.pre);
                t.pre += k;
                k
            } else {
                let before = *t;
                let now = *at + *div;
                t.clock(rules, &mut |s: &Timer, e| {
                    d.count(e);
                    drive(s, s.cnt, now, *drives, out, &mut d.edges);
                });
                step(&before, t, out);
                1
            };
            *at += rest * *div;
            n -= rest;
        }
        d
    }

    /// What is due at the counter's own step: after a write, or a call that passed events over. It is the Rust's rule; by the
    /// manual's all of it happens with the write.
    pub fn settle(&mut self) -> Delivered {
        let mut d = Delivered::default();
        if self.t.overrun(&self.rules) {
            self.rewind();
            self.t.wrapped(&self.rules);
            d.count(Event::Update);
            drive(&self.t, self.t.cnt, self.at, self.drives, &mut self.out, &mut d.edges);
        }
        let now = self.step_cycle();
        let Self { rules, t, drives, out, .. } = self;
        if t.going(rules) {
            t.matched(rules, &mut |s: &Timer, e| {
                d.count(e);
                drive(s, s.cnt, now, *drives, out, &mut d.edges);
            });
        }
        d
    }

    /// The cycle of the counter's last step.
    pub fn step_cycle(&self) -> u64 {
        self.at.saturating_sub(self.t.pre * self.div)
    }

    fn rewind(&mut self) {
        self.at = self.step_cycle();
        self.t.pre = 0;
    }

    /// The cycle of the next event, of those at most `clocks` kernel clocks ahead.
    pub fn next_event(&self, clocks: u64) -> Option<u64> {
        let mut s = self.clone();
        if s.settle().events() > 0 {
            return Some(s.step_cycle());
        }
        let end = s.at + clocks * s.div;
        while s.at < end && s.t.going(&s.rules) {
            let cycle = s.at + (s.t.psc.saturating_sub(s.t.pre) + 1) * s.div;
            if s.deliver(cycle, |_, _, _| {}).events() > 0 {
                return Some(cycle);
            }
        }
        None
    }

    // ---- late calls -------------------------------------------------------------------------

    /// `n` clocks of which only the counters move.
    fn passed(&self, t: &mut Timer, n: u64) {
        let r = &self.rules;
        t.synced(r);
        t.shown = t.cnt;
        if !t.going(r) {
            return;
        }
        let steps = (t.pre + n) / (t.psc + 1);
        t.pre = (t.pre + n) % (t.psc + 1);
        let period = if t.centre(r) { 2 * t.arr } else { t.arr + 1 };
        for _ in 0..steps % period {
            let pre = t.pre;
            if t.wraps(r) { t.restarted(r) } else { t.counted(r) }
            (t.pre, t.shown) = (pre, t.cnt);
        }
    }

    /// What a read at `cycle` sees.
    pub fn late(&self, cycle: u64) -> Timer {
        let mut t = self.t;
        self.passed(&mut t, self.clocks(cycle));
        t
    }

    fn catch_up(&mut self, n: u64) {
        let mut t = self.t;
        self.passed(&mut t, n);
        self.t = t;
        self.at += n * self.div;
    }

    /// The clocks that a write which turns nothing counts: with a turn undelivered, to the step before it (F-8).
    fn short(&self, cycle: u64) -> u64 {
        let (t, n) = (&self.t, self.clocks(cycle));
        if !t.centre(&self.rules) || !t.going(&self.rules) {
            return n;
        }
        let to_turn = if t.down() { t.cnt } else { t.arr.saturating_sub(t.cnt) };
        let step = t.psc + 1;
        if t.pre + n >= to_turn * step { (to_turn.saturating_sub(1) * step).saturating_sub(t.pre) } else { n }
    }

    // ---- calls ------------------------------------------------------------------------------

    pub fn read(&self, i: usize, cycle: u64) -> u64 {
        self.late(cycle).read(&self.rules, i)
    }

    /// Refusal 7: the write would leave the counter running upward above the active reload + 1, centre-aligned above the
    /// reload; never with a reload of 0 in manual mode.
    pub fn astray(&self, i: usize, v: u64, cycle: u64) -> bool {
        if !matches!(i, CR1 | CNT | ARR) {
            return false;
        }
        let mut t = self.late(cycle);
        t.put(&self.rules, i, v);
        let above = if t.centre(&self.rules) { t.arr < t.cnt } else { !t.down() && t.arr + 1 < t.cnt };
        t.going(&self.rules) && above
    }

    /// A write, before anything that is due after it; the levels that it drives.
    pub fn write(&mut self, i: usize, v: u64, cycle: u64) -> Vec<Edge> {
        let r = self.rules;
        let (was, blocked) = (self.t.down(), self.t.blocked(&r));
        let channels = self.t.channels != 0;
        if i == CCER {
            let mut s = self.t;
            self.passed(&mut s, self.short(cycle));
            s.put(&r, i, v);
            self.t.put(&r, i, v);
            return if channels { self.drive(&s, s.cnt, cycle) } else { Vec::new() };
        }
        if synchronizes(i) && (channels || !of_channels(i)) {
            let n = if of_channels(i) { self.short(cycle) } else { self.clocks(cycle) };
            self.catch_up(n);
        }
        let started = i == CR1 && self.t.cr1 & CEN == 0 && v & CEN != 0;
        let ug = i == EGR && v & 1 != 0;
        self.t.put(&r, i, v);
        // Reading 4: settled anew exactly when the way before the call and after it differ.
        let passes = i == CR1 || i == EGR && !ug || i == ARR && self.t.cr1 & ARPE != 0;
        if passes && self.t.centre(&r) && self.t.down() != was {
            self.t.resettled();
        }
        if started || ug || i == CNT || blocked && !self.t.blocked(&r) {
            self.at = cycle;
        }
        match i {
            EGR => self.drive(&self.t.clone(), self.t.shown, cycle),
            CNT => self.drive(&self.t.clone(), self.t.cnt, cycle),
            CCMR1 | CCMR2 if channels => self.drive(&self.t.clone(), self.t.shown, cycle),
            CCR1..=CCR4 if channels && !self.t.preloads(i - CCR1) => self.drive(&self.t.clone(), self.t.shown, cycle),
            _ => Vec::new(),
        }
    }

    fn drive(&mut self, t: &Timer, cnt: u64, cycle: u64) -> Vec<Edge> {
        let mut edges = Vec::new();
        drive(t, cnt, cycle, self.drives, &mut self.out, &mut edges);
        edges
    }

    /// Another divider: the part-step is kept in cycles (clock-change-jump).
    pub fn clock_change(&mut self, div: u64, cycle: u64) {
        if self.t.on {
            let was = self.t.down();
            self.catch_up(self.clocks(cycle));
            self.rewind();
            if self.t.down() != was {
                self.t.resettled();
            }
        }
        self.div = div;
    }

    pub fn reset(&mut self, cycle: u64) -> Vec<Edge> {
        self.t = Timer::reset(self.t.channels, self.t.max);
        self.at = cycle;
        self.drive(&self.t.clone(), 0, cycle)
    }
}

/// The outputs take their levels at this count.
fn drive(t: &Timer, cnt: u64, cycle: u64, drives: bool, out: &mut [bool; 4], edges: &mut Vec<Edge>) {
    if !drives {
        return;
    }
    for (ch, out) in out.iter_mut().enumerate().take(t.channels) {
        let level = t.level_at(ch, cnt);
        if std::mem::replace(out, level) != level {
            edges.push(Edge { ch, level, cycle });
        }
    }
}
