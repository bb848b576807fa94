//! RM0440's general-purpose timer as one machine that is stepped a kernel clock at a time: written by hand from
//! crates/rm0440/specs (Rules, State, Clock, Write, Read, Level), by the same names, to be run. Both
//! rules of a disagreement stand at the one place that it concerns. Sentences in quotation marks paraphrase the manual,
//! from memory of its text or as documents 01 and 02 give it; F-n is a request of document 02.
//!
//! Where it is not the definitions: `answered` keeps the part of the step where `overrun` wraps (docs/DECISIONS.md, "Known and not mended"); a write of EGR without UG and one of ARR with ARPE can turn a centre-aligned
//! counter (F-8); CCMR has `ccs-locked`; the count that is read is kept beside the counter (`shown`, `clamp-down`).

pub mod cases;
pub mod timeline;

macro_rules! rules {
    ($($(#[$doc:meta])* $field:ident $name:literal,)*) => {
        /// Where RM0440 and the Rust disagree, by the names of docs/DIFFERENCES.md. True: as RM0440 has it.
        #[derive(Clone, Copy, Debug, PartialEq, Eq)]
        pub struct Rules {
            $($(#[$doc])* pub $field: bool,)*
        }

        impl Rules {
            pub const NAMES: &'static [&'static str] = &[$($name),*];

            pub const fn all(by_manual: bool) -> Self {
                Self { $($field: by_manual,)* }
            }

            /// These rules with the one of this name by the manual.
            pub fn and(mut self, name: &str) -> Self {
                match name {
                    $($name => self.$field = true,)*
                    _ => unreachable!("{name} is no rule"),
                }
                self
            }

            /// The rule of this name is the manual's; false if there is none of it.
            pub fn by_manual(&self, name: &str) -> bool {
                match name {
                    $($name => self.$field,)*
                    _ => false,
                }
            }
        }
    };
}

rules! {
    // the counter
    reload_zero "reload-zero",
    above_reload "above-reload",
    /// Only here: the definition's state has the counter alone, and the Rust reads another number than it counts by.
    clamp_down "clamp-down",
    centre_aligned "centre-aligned",
    start_delay "start-delay",
    stop_phase "stop-phase",
    cnt_write_phase "cnt-write-phase",
    // update and preload
    one_pulse "one-pulse",
    one_pulse_udis "one-pulse-udis",
    one_pulse_ug "one-pulse-ug",
    ug_under_udis "ug-under-udis",
    preload_cleared "preload-cleared",
    // compare and output
    /// match-again, stopped-match and one-pulse-last-match too.
    done_equality "done-equality",
    compare_above_reload "compare-above-reload",
    mode_change_latch "mode-change-latch",
    ccg_latches "ccg-latches",
    trigger_generation "trigger-generation",
    /// Only here.
    ccs_locked "ccs-locked",
}

impl Rules {
    pub const fn manual() -> Self {
        Self::all(true)
    }

    pub const fn rust() -> Self {
        Self::all(false)
    }

    /// What the port follows: the Rust's rules, and in manual mode the manual's of each request that is there. So far these are F-2, F-6
    /// and F-11.
    pub const fn port(manual: bool) -> Self {
        Self { one_pulse: manual, reload_zero: manual, one_pulse_udis: manual, ..Self::rust() }
    }

    /// Document 02's manual mode: F-2, F-6, F-8 and F-11 by the manual, all else by the Rust.
    pub const fn manual_mode() -> Self {
        Self { one_pulse: true, reload_zero: true, centre_aligned: true, one_pulse_udis: true, ..Self::rust() }
    }
}

// Registers by offset / 4.
pub const CR1: usize = 0;
pub const DIER: usize = 3;
pub const SR: usize = 4;
pub const EGR: usize = 5;
pub const CCMR1: usize = 6;
pub const CCMR2: usize = 7;
pub const CCER: usize = 8;
pub const CNT: usize = 9;
pub const PSC: usize = 10;
pub const ARR: usize = 11;
pub const CCR1: usize = 13;
pub const CCR4: usize = 16;

// Bits of CR1.
pub const CEN: u64 = 1;
pub const UDIS: u64 = 1 << 1;
pub const URS: u64 = 1 << 2;
pub const OPM: u64 = 1 << 3;
pub const DIR: u64 = 1 << 4;
pub const ARPE: u64 = 1 << 7;

/// The bits that a register keeps of a write, of those that are stored as they come.
fn kept(i: usize) -> u64 {
    [0x3ff, 0xffff_ffff, 0xffff_ffff, 0x5f5f, 0x1e5f, 0, 0, 0, 0x3333, 0, 0xffff].get(i).copied().unwrap_or(0)
}

pub fn cms(cr1: u64) -> u64 {
    cr1 >> 5 & 3
}

fn with_bit(bit: u64, set: bool, x: u64) -> u64 {
    if set { x | bit } else { x & !bit }
}

#[derive(Clone, Copy, Debug, PartialEq, Eq)]
pub struct Timer {
    /// How it is built: channels, 0 to 4, and the largest count.
    pub channels: usize,
    pub max: u64,
    /// The registers as software sees them. The timer itself changes CEN and DIR of CR1, and the flags.
    pub cr1: u64,
    pub sr: u64,
    /// CR2, SMCR, DIER, CCER, PSC and ARR by offset / 4, the other places 0.
    pub regs: [u64; 12],
    /// CCMR1 and CCMR2; CCR1 to CCR4.
    pub modes: [u64; 2],
    pub compares: [u64; 4],
    /// The shadow registers: prescaler, reload and compares in use.
    pub psc: u64,
    pub arr: u64,
    pub ccr: [u64; 4],
    /// The counter is enabled (the manual's CNT_EN); kernel clocks since its last step; its count.
    pub on: bool,
    pub pre: u64,
    pub cnt: u64,
    /// OCxREF of each channel as last latched; PWM and forced modes do not read it.
    pub latch: [bool; 4],
    /// The Rust's own memory, which no rule of the manual reads: the channel's match of this period is past; the count that is
    /// read (clamp-down).
    pub done: [bool; 4],
    pub shown: u64,
}

#[derive(Clone, Copy, Debug, PartialEq, Eq)]
pub enum Event {
    /// An overflow or underflow, also under UDIS.
    Update,
    /// A match of a channel.
    Match(usize),
}

/// Called at each event, with the state that it left.
pub trait Events: FnMut(&Timer, Event) {}
impl<F: FnMut(&Timer, Event)> Events for F {}

impl Timer {
    pub fn reset(channels: usize, max: u64) -> Self {
        let mut regs = [0; 12];
        regs[ARR] = max;
        let (modes, compares, ccr, latch, done) = ([0; 2], [0; 4], [0; 4], [false; 4], [false; 4]);
        Self { channels, max, cr1: 0, sr: 0, regs, modes, compares, psc: 0, arr: max, ccr, on: false, pre: 0, cnt: 0, latch, done, shown: 0 }
    }

    /// Equal in all that the manual knows.
    pub fn same(&self, other: &Self) -> bool {
        Self { done: other.done, shown: other.shown, ..*self } == *other
    }

    // ---- reading the state ------------------------------------------------------------------

    pub fn byte(&self, ch: usize) -> u64 {
        self.modes[ch / 2] >> (8 * (ch % 2)) & 0xff
    }

    /// OCxM, its three low bits.
    pub fn mode(&self, ch: usize) -> u64 {
        self.byte(ch) >> 4 & 7
    }

    pub fn preloads(&self, ch: usize) -> bool {
        self.byte(ch) & 8 != 0
    }

    /// "CC channel is configured as output."
    pub fn is_output(&self, ch: usize) -> bool {
        ch < self.channels && self.byte(ch) & 3 == 0
    }

    /// "DIR: counter used as downcounter"; a basic timer has no DIR and no CMS.
    pub fn down(&self) -> bool {
        self.channels != 0 && self.cr1 & DIR != 0
    }

    /// "Center-aligned mode is active when the CMS bits are not 00" (F-8).
    pub fn centre(&self, r: &Rules) -> bool {
        r.centre_aligned && self.channels != 0 && cms(self.cr1) != 0
    }

    pub fn equal(&self, ch: usize) -> bool {
        self.cnt == self.ccr[ch]
    }

    /// "TIMx_ARR: the counter is blocked while the auto-reload value is null" (F-6: with no part of a step kept).
    pub fn blocked(&self, r: &Rules) -> bool {
        r.reload_zero && self.arr == 0
    }

    pub fn going(&self, r: &Rules) -> bool {
        !self.blocked(r) && self.on
    }

    // ---- the counter ------------------------------------------------------------------------

    /// The step from this count is the overflow or the underflow. "Center-aligned mode: counts from 0 to the auto-reload value - 1,
    /// generates an overflow, then counts from the auto-reload value down to 1 and generates an underflow." Upward above
    /// the reload the manual has no value to meet but the largest.
    pub fn wraps(&self, r: &Rules) -> bool {
        if self.centre(r) {
            if self.down() { self.cnt <= 1 } else { self.cnt + 1 == self.arr }
        } else if self.down() {
            self.cnt == 0
        } else if r.above_reload {
            self.cnt == self.arr || self.cnt == self.max
        } else {
            self.arr <= self.cnt
        }
    }

    /// A step that is neither.
    pub fn counted(&mut self, r: &Rules) {
        self.pre = 0;
        if self.down() {
            self.cnt -= 1;
            self.shown = if self.shown == 0 { self.arr } else { self.shown - 1 };
        } else {
            // Only centre-aligned counting from above the reload could pass the largest count (refusal 7).
            self.cnt = (self.cnt + 1) & self.max;
            self.shown = self.cnt;
        }
        if r.clamp_down {
            self.shown = self.cnt;
        }
    }

    /// The Rust reads a counter above the reload as within it; blocked, stopped and centre-aligned ones as they are.
    fn show(&mut self, r: &Rules) {
        let plain = r.clamp_down || !self.going(r) || self.centre(r) || self.cnt <= self.arr;
        self.shown = if plain {
            self.cnt
        } else if self.down() {
            self.arr
        } else {
            (self.cnt - self.arr - 1) % (self.arr + 1)
        };
    }

    /// What a call that synchronizes goes on from.
    pub fn synced(&mut self, r: &Rules) {
        if !r.clamp_down {
            self.cnt = self.shown;
        }
    }

    /// Where counting goes on: upward from 0, downward from the reload; centre-aligned it turns.
    pub fn restarted(&mut self, r: &Rules) {
        let down = self.down();
        self.pre = 0;
        if self.centre(r) {
            self.cr1 = with_bit(DIR, !down, self.cr1);
            self.cnt = if down { 0 } else { self.arr };
        } else {
            self.cnt = if down { self.arr } else { 0 };
        }
    }

    // ---- the update event -------------------------------------------------------------------

    /// "The auto-reload shadow register is updated with the preload value, the prescaler is reloaded", and the compares.
    fn loaded(&mut self) {
        self.psc = self.regs[PSC];
        self.arr = self.regs[ARR];
        self.ccr = self.compares;
    }

    /// "One-pulse mode: the counter stops at the next update event (clearing the bit CEN)"; the Rust leaves CEN.
    fn pulse_ended(&mut self, r: &Rules) {
        if self.cr1 & OPM != 0 {
            self.on = false;
            if r.one_pulse {
                self.cr1 &= !CEN;
            }
        }
    }

    /// "UDIS: the update event is not generated, shadow registers keep their value"; then the manual's one-pulse goes on (F-11).
    fn update_event(&mut self, r: &Rules) {
        let udis = self.cr1 & UDIS != 0;
        if !udis {
            self.loaded();
            self.sr |= 1;
        }
        self.restarted(r);
        if !(udis && r.one_pulse_udis) {
            self.pulse_ended(r);
        }
    }

    /// "CCxIF: if the compare is above the reload, set on the overflow, or on the underflow in downcounting mode."
    fn passes_over(&self, r: &Rules, ch: usize) -> bool {
        r.compare_above_reload && self.is_output(ch) && self.arr < self.ccr[ch] && !(self.centre(r) && self.down())
    }

    /// The Rust's record of matches after an overflow, an underflow or UG.
    fn all_ahead(&mut self) {
        self.done = std::array::from_fn(|ch| ch < self.channels && self.arr < self.ccr[ch]);
    }

    pub fn wrapped(&mut self, r: &Rules) {
        let over = (0..4).filter(|&ch| self.passes_over(r, ch)).fold(0, |bits, ch| bits | 2 << ch);
        self.sr |= over;
        self.update_event(r);
        self.all_ahead();
        self.show(r);
    }

    // ---- a match ----------------------------------------------------------------------------

    fn latched(&mut self, ch: usize) {
        match self.mode(ch) {
            1 => self.latch[ch] = true,
            2 => self.latch[ch] = false,
            3 => self.latch[ch] = !self.latch[ch],
            _ => {}
        }
    }

    /// "CMS 01: compare flags are set only when the counter is counting down; 10: up; 11: both." The flags only: F-8, "every match is
    /// an event, and latching output modes act on it".
    fn flags(&self, r: &Rules) -> bool {
        !self.centre(r) || cms(self.cr1) & if self.down() { 1 } else { 2 } != 0
    }

    /// Matches of these channels, in turn: flag, OCxREF, and the Rust's record.
    fn marked(&mut self, r: &Rules, of: [bool; 4], event: &mut impl Events) {
        let flagged = self.flags(r);
        for ch in (0..4).filter(|&ch| of[ch]) {
            if flagged {
                self.sr |= 2 << ch;
            }
            self.latched(ch);
            self.done[ch] = true;
            event(self, Event::Match(ch));
        }
    }

    /// "When a match is found between the compare register and the counter", just after a step. The Rust asks that it is
    /// still to come in this period, and that the counter goes on.
    fn meets(&self, r: &Rules, ch: usize) -> bool {
        self.is_output(ch) && self.equal(ch) && (r.done_equality || self.going(r) && !self.done[ch])
    }

    pub fn matched(&mut self, r: &Rules, event: &mut impl Events) {
        let of = std::array::from_fn(|ch| self.meets(r, ch));
        self.marked(r, of, event);
    }

    // ---- the clock --------------------------------------------------------------------------

    /// This clock is a step of the counter.
    pub fn steps(&self) -> bool {
        self.on && self.pre >= self.psc
    }

    /// "The counter is clocked by the prescaler output": one step of it, before it is compared.
    pub fn moved(&mut self, r: &Rules) -> bool {
        self.pre = 0;
        let wraps = self.wraps(r);
        if wraps { self.wrapped(r) } else { self.counted(r) }
        wraps
    }

    /// One kernel clock. "The actual counter enable signal CNT_EN is set one clock cycle after CEN."
    pub fn clock(&mut self, r: &Rules, event: &mut impl Events) {
        if !self.on {
            self.on = r.start_delay && self.cr1 & CEN != 0;
        } else if self.blocked(r) {
            self.pre = 0;
        } else if !self.steps() {
            self.pre += 1;
        } else {
            if self.moved(r) {
                event(self, Event::Update);
            }
            self.matched(r, event);
        }
    }

    // ---- the output -------------------------------------------------------------------------

    /// OCxREF at a count: forced, PWM, or latched. "PWM mode 1: in upcounting, active as long as CNT < CCRx; in downcounting,
    /// inactive as long as CNT > CCRx."
    pub fn ocref(&self, ch: usize, cnt: u64) -> bool {
        let pwm1 = if self.down() { cnt <= self.ccr[ch] } else { cnt < self.ccr[ch] };
        match self.mode(ch) {
            4 => false,
            5 => true,
            6 => pwm1,
            7 => !pwm1,
            _ => self.latch[ch],
        }
    }

    pub fn level_at(&self, ch: usize, cnt: u64) -> bool {
        let bits = self.regs[CCER] >> (4 * ch);
        self.is_output(ch) && bits & 1 != 0 && self.ocref(ch, cnt) != (bits & 2 != 0)
    }

    /// The level of output `ch`.
    pub fn level(&self, ch: usize) -> bool {
        self.level_at(ch, self.cnt)
    }

    // ---- a register written, between two kernel clocks ----------------------------------------

    /// A compare at or below the counter (upward) or above it (downward) is past.
    fn past(&self, ch: usize) -> bool {
        if self.down() { self.cnt < self.ccr[ch] } else { self.ccr[ch] <= self.cnt }
    }

    /// The Rust's record of matches, settled anew.
    pub fn resettled(&mut self) {
        self.done = std::array::from_fn(|ch| ch < self.channels && self.past(ch));
    }

    /// Upward above the reload the Rust wraps at once; a counter that a reload of 0 blocks stays (F-6).
    pub fn overrun(&self, r: &Rules) -> bool {
        !r.above_reload && self.going(r) && !self.centre(r) && !self.down() && self.arr < self.cnt
    }

    /// A match that a write makes: the manual's where counter and compare come to be equal, the Rust's where one is still to come.
    fn comes(&self, r: &Rules, old: &Self, ch: usize) -> bool {
        let so = if r.done_equality { !old.equal(ch) } else { self.going(r) && !self.done[ch] };
        self.is_output(ch) && self.equal(ch) && so
    }

    fn answered(&mut self, r: &Rules, old: &Self, event: &mut impl Events) {
        if self.overrun(r) {
            // The Rust wraps at the step that has been, not at the write: what has passed of the step stays.
            let pre = self.pre;
            self.wrapped(r);
            self.pre = pre;
            event(self, Event::Update);
        }
        let of = std::array::from_fn(|ch| self.comes(r, old, ch));
        self.marked(r, of, event);
    }

    /// F-8: a write of CR1, CNT, ARR or EGR that leaves the counter at the reload turns it down, one that leaves it at 0 up.
    fn turned(&mut self, r: &Rules) {
        if self.centre(r) && (self.cnt == 0 || self.cnt == self.arr) {
            self.cr1 = with_bit(DIR, self.cnt != 0, self.cr1);
        }
    }

    /// "CMS: not to be changed while the counter is enabled"; "DIR is read only in center-aligned mode".
    pub fn new_cr1(&self, r: &Rules, v: u64) -> u64 {
        let mut c = v & if self.channels == 0 { 0x8f } else { kept(CR1) };
        if r.centre_aligned && self.cr1 & CEN != 0 {
            c = c & !0x60 | self.cr1 & 0x60;
        }
        if r.centre_aligned && cms(c) != 0 {
            c = with_bit(DIR, self.cr1 & DIR != 0, c);
        }
        c
    }

    /// A start, a stop, or neither. The Rust drops the part of a step that a stop finds, and counts from the start's cycle.
    fn enabled(&mut self, r: &Rules, was: bool) {
        let cen = self.cr1 & CEN != 0;
        if !(cen && was) {
            self.on = cen && !r.start_delay;
            if !r.stop_phase {
                self.pre = 0;
            }
        }
    }

    fn write_cr1(&mut self, r: &Rules, v: u64) {
        let old = self.cr1;
        self.cr1 = self.new_cr1(r, v);
        // "ARPE 0: TIMx_ARR is not buffered."
        if r.preload_cleared && self.cr1 & ARPE == 0 {
            self.arr = self.regs[ARR];
        }
        self.enabled(r, old & CEN != 0);
        self.turned(r);
        // The Rust settles its record anew at a start and where DIR changes, but not at a stop.
        let (starts, stops) = (!old & self.cr1 & CEN != 0, old & !self.cr1 & CEN != 0);
        if starts || (old ^ self.cr1) & DIR != 0 && !stops {
            self.resettled();
        }
    }

    /// "UG: re-initialize the counter and generate an update; the prescaler counter is cleared too." With UDIS "the shadow registers
    /// keep their value"; UIF not with URS; by the sentence of one-pulse mode the update event also stops the counter.
    fn generated(&mut self, r: &Rules) {
        let (udis, urs) = (self.cr1 & UDIS != 0, self.cr1 & URS != 0);
        if !(r.ug_under_udis && udis) {
            self.loaded();
        }
        self.pre = 0;
        self.cnt = if !self.centre(r) && self.down() { self.arr } else { 0 };
        self.turned(r);
        self.all_ahead();
        if !udis && !urs {
            self.sr |= 1;
        }
        if r.one_pulse_ug && !udis {
            self.pulse_ended(r);
        }
    }

    /// EGR. "CCxG: the flag is set"; the Rust latches OCxREF too. "TG: TIF is set."
    fn write_egr(&mut self, r: &Rules, v: u64) {
        if v & 1 != 0 {
            self.generated(r);
        } else {
            // F-8 says it of every write of EGR (reading 12).
            let was = self.down();
            self.turned(r);
            if self.down() != was {
                self.resettled();
            }
        }
        for ch in (0..4).filter(|ch| v >> (ch + 1) & 1 != 0) {
            if self.is_output(ch) {
                self.sr |= 2 << ch;
                if !r.ccg_latches {
                    self.latched(ch);
                }
            }
        }
        if r.trigger_generation && v & 1 << 6 != 0 {
            self.sr |= 1 << 6;
        }
    }

    fn write_arr(&mut self, r: &Rules, v: u64) {
        self.regs[ARR] = v & self.max;
        if self.cr1 & ARPE == 0 {
            self.arr = v & self.max;
            if self.blocked(r) {
                self.pre = 0;
            }
            self.turned(r);
            self.resettled();
        } else {
            // F-8 says it of every write of ARR.
            let was = self.down();
            self.turned(r);
            if self.down() != was {
                self.resettled();
            }
        }
    }

    fn write_ccmr(&mut self, r: &Rules, i: usize, v: u64) {
        let old = *self;
        let mut v = v;
        // "CCxS bits are writable only when the channel is off (CCxE = 0)."
        for k in (0..2).filter(|k| r.ccs_locked && self.regs[CCER] >> (4 * (2 * i + k)) & 1 != 0) {
            v = v & !(3 << (8 * k)) | self.modes[i] & 3 << (8 * k);
        }
        self.modes[i] = v;
        for ch in 0..4 {
            // A mode that latches goes on from OCxREF as it is; the Rust's from what the last match left.
            if r.mode_change_latch && self.mode(ch) < 4 {
                self.latch[ch] = old.ocref(ch, old.cnt);
            }
            // "OCxPE 0: preload register on TIMx_CCRx disabled."
            if r.preload_cleared && !self.preloads(ch) {
                self.ccr[ch] = self.compares[ch];
            }
        }
    }

    fn write_ccr(&mut self, ch: usize, v: u64) {
        self.compares[ch] = v & self.max;
        if !self.preloads(ch) {
            self.ccr[ch] = v & self.max;
            self.done[ch] = self.past(ch);
        }
    }

    /// A write of register `i`, its lanes merged, before anything that it sets off: as the Rust leaves it before a delivery.
    pub fn put(&mut self, r: &Rules, i: usize, v: u64) {
        let syncs = synchronizes(i) && (self.channels != 0 || !of_channels(i));
        if syncs {
            self.synced(r);
        }
        match i {
            CR1 => self.write_cr1(r, v),
            SR => self.sr &= v | !kept(SR),
            EGR => self.write_egr(r, v),
            CNT => {
                if !r.cnt_write_phase {
                    self.pre = 0;
                }
                self.cnt = v & self.max;
                self.turned(r);
                self.resettled();
            }
            ARR => self.write_arr(r, v),
            1..=3 | PSC => self.regs[i] = v & kept(i),
            _ if self.channels == 0 => {}
            CCMR1 | CCMR2 => self.write_ccmr(r, i - CCMR1, v),
            CCER => self.regs[i] = v & kept(i),
            CCR1..=CCR4 => self.write_ccr(i - CCR1, v),
            _ => {}
        }
        if syncs {
            self.show(r);
        }
    }

    /// A write of register `i` with all that it sets off at once.
    pub fn write(&mut self, r: &Rules, i: usize, v: u64, event: &mut impl Events) {
        let old = *self;
        self.put(r, i, v);
        match i {
            EGR if v & 1 != 0 => self.matched(r, event),
            ARR if self.cr1 & ARPE != 0 => {}
            CCR1..=CCR4 if self.preloads(i - CCR1) => {}
            CR1 | CNT | ARR | CCMR1 | CCMR2 | CCR1..=CCR4 => self.answered(r, &old, event),
            _ => {}
        }
    }

    /// "EGR reads 0"; CNT is the counter.
    pub fn read(&self, r: &Rules, i: usize) -> u64 {
        match i {
            CR1 => self.cr1,
            SR => self.sr,
            CNT => if r.clamp_down { self.cnt } else { self.shown },
            _ if self.channels == 0 && (of_channels(i) || i == CCER) => 0,
            CCMR1 | CCMR2 => self.modes[i - CCMR1],
            CCR1..=CCR4 => self.compares[i - CCR1],
            _ => self.regs.get(i).copied().unwrap_or(0),
        }
    }
}

/// A write of register `i` synchronizes in the Rust.
pub fn synchronizes(i: usize) -> bool {
    matches!(i, CR1 | EGR | CNT | ARR) || of_channels(i)
}

/// CCMRx and CCRx, which a basic timer lacks.
pub fn of_channels(i: usize) -> bool {
    matches!(i, CCMR1 | CCMR2 | CCR1..=CCR4)
}
