//! The exact cases of docs/DIFFERENCES.md, each a test of the machine's state (and of the written value), under the same
//! names; and which of them makes a difference.

use super::{cms, synchronizes, Rules, Timer, ARPE, ARR, CCER, CCMR1, CCMR2, CCR1, CCR4, CEN, CNT, CR1, EGR, OPM, PSC, UDIS};

/// Every case that the machine, or a call that finds it late, can meet; in the order of docs/DIFFERENCES.md.
pub const NAMES: [&str; 28] = [
    "reload-zero",
    "above-reload",
    "clamp-down",
    "centre-aligned",
    "start-delay",
    "stop-phase",
    "cnt-write-phase",
    "clock-change-jump",
    "gated-counts",
    "one-pulse",
    "one-pulse-udis",
    "one-pulse-ug",
    "ug-under-udis",
    "preload-cleared",
    "lost-update",
    "lost-compare",
    "late-flags",
    "done-equality",
    "match-again",
    "stopped-match",
    "one-pulse-last-match",
    "compare-above-reload",
    "direction-late",
    "match-before-write",
    "mode-change-latch",
    "ccs-locked",
    "ccg-latches",
    "trigger-generation",
];

/// Names that are met, as bits by their places in `NAMES`.
#[derive(Clone, Copy, Debug, Default, PartialEq, Eq)]
pub struct Met(u32);

impl Met {
    pub fn add(&mut self, name: &str, met: bool) {
        self.0 |= (met as u32) << place(name);
    }

    pub fn has(&self, name: &str) -> bool {
        self.0 >> place(name) & 1 != 0
    }

    pub fn also(&mut self, other: Self) {
        self.0 |= other.0;
    }

    /// Without the cases whose rule in `r` is the manual's.
    fn left_by(mut self, r: &Rules) -> Self {
        for name in NAMES {
            let rule = match name {
                "match-again" | "stopped-match" | "one-pulse-last-match" => "done-equality",
                name => name,
            };
            self.0 &= !((r.by_manual(rule) as u32) << place(name));
        }
        self
    }

    pub fn names(self) -> impl Iterator<Item = &'static str> {
        NAMES.into_iter().filter(move |name| self.has(name))
    }

    pub fn none(&self) -> bool {
        self.0 == 0
    }
}

fn place(name: &str) -> usize {
    NAMES.iter().position(|n| *n == name).unwrap_or_else(|| unreachable!("{name} is no case"))
}

fn some(f: impl Fn(usize) -> bool) -> bool {
    (0..4).any(f)
}

/// "Running upward, counter above the active reload", and not blocked.
fn above_reload(r: &Rules, t: &Timer) -> bool {
    t.going(r) && !t.down() && t.arr < t.cnt
}

/// "CMS not 0, channels above 0."
fn centre_aligned(t: &Timer) -> bool {
    t.channels != 0 && cms(t.cr1) != 0
}

/// The cases of a clock, of those that rules `r` leave to the Rust.
pub fn of_clock(r: &Rules, t: &Timer) -> Met {
    let mut m = Met::default();
    m.add("reload-zero", t.on && t.arr == 0);
    m.add("above-reload", above_reload(r, t));
    m.add("centre-aligned", centre_aligned(t));
    if t.steps() {
        let mut next = *t;
        if next.moved(r) {
            of_overflow(t, &mut m);
        }
        // By its own rule a reload of 0 that this step loads is met, too.
        m.add("reload-zero", next.on && next.arr == 0);
        missed(r, &next, true, &mut m);
    }
    if *r == Rules::rust() { m } else { m.left_by(r) }
}

/// The cases of an overflow or underflow.
fn of_overflow(t: &Timer, m: &mut Met) {
    m.add("one-pulse", t.cr1 & OPM != 0);
    m.add("one-pulse-udis", t.cr1 & OPM != 0 && t.cr1 & UDIS != 0);
    m.add("compare-above-reload", some(|ch| t.is_output(ch) && t.arr < t.ccr[ch]));
}

/// An output's compare is met that the Rust's record calls done, or with the counter not going on.
fn missed(r: &Rules, t: &Timer, by_clock: bool, m: &mut Met) {
    for ch in 0..4 {
        let missed = t.is_output(ch) && t.equal(ch) && (t.done[ch] || !t.going(r));
        let stopped = if by_clock { "one-pulse-last-match" } else { "stopped-match" };
        m.add(if t.on { "done-equality" } else { stopped }, missed);
    }
}

/// What a write sets off, by the manual (`after`) and by `r` (`ours`): where counter and compare are equal, the manual matches if
/// they were not before, the Rust if its record says so.
fn answers(r: &Rules, old: &Timer, after: &Timer, ours: &Timer, m: &mut Met) {
    m.add("centre-aligned", centre_aligned(after));
    m.add("above-reload", above_reload(r, after) || above_reload(r, ours));
    m.add("reload-zero", ours.on && ours.arr == 0);
    let mut ours = *ours;
    if ours.overrun(r) {
        of_overflow(&ours, m);
        ours.wrapped(r);
        m.add("reload-zero", ours.arr == 0);
    }
    for ch in 0..4 {
        let manual = after.is_output(ch) && after.equal(ch) && !old.equal(ch);
        let rust = ours.is_output(ch) && ours.equal(ch) && ours.going(r) && !ours.done[ch];
        let name = match (manual, ours.on) {
            (true, false) => "stopped-match",
            // Downward a compare equal to the counter is done only by its match.
            (false, _) if old.done[ch] && old.down() => "match-again",
            _ => "done-equality",
        };
        m.add(name, manual != rust);
    }
}

/// The cases of a write of `v` to register `i`, of those that rules `r` leave to the Rust.
pub fn of_write(r: &Rules, t: &Timer, i: usize, v: u64) -> Met {
    let mut m = Met::default();
    let mut after = *t;
    after.put(&Rules::manual(), i, v);
    let mut ours = *t;
    ours.put(r, i, v);
    let channel_register = matches!(i, CCMR1 | CCMR2 | CCR1..=CCR4);
    if channel_register && t.channels == 0 {
        return m;
    }
    if synchronizes(i) && t.shown != t.cnt {
        m = of_write(r, &Timer { cnt: t.shown, ..*t }, i, v);
        m.add("clamp-down", true);
    }
    match i {
        CR1 => {
            let new = t.new_cr1(&Rules::manual(), v);
            let (was, is) = (t.cr1 & CEN != 0, new & CEN != 0);
            let written = t.new_cr1(&Rules::rust(), v);
            m.add("centre-aligned", t.channels != 0 && (cms(written) != 0 || cms(t.cr1) != 0));
            m.add("preload-cleared", new & ARPE == 0 && t.regs[ARR] != t.arr);
            m.add("start-delay", is && !was);
            m.add("stop-phase", !(is && was) && t.pre != 0);
            answers(r, t, &after, &ours, &mut m);
        }
        CNT => {
            m.add("centre-aligned", centre_aligned(t));
            m.add("cnt-write-phase", t.pre != 0);
            answers(r, t, &after, &ours, &mut m);
        }
        ARR => {
            m.add("centre-aligned", centre_aligned(t));
            if t.cr1 & ARPE == 0 {
                m.add("reload-zero", v & t.max == 0);
                answers(r, t, &after, &ours, &mut m);
            }
        }
        EGR => {
            m.add("centre-aligned", centre_aligned(t));
            if v & 1 != 0 {
                let waits = t.regs[PSC] != t.psc || t.regs[ARR] != t.arr || t.compares != t.ccr;
                m.add("ug-under-udis", t.cr1 & UDIS != 0 && waits);
                m.add("one-pulse-ug", t.cr1 & OPM != 0 && t.cr1 & UDIS == 0);
                m.add("reload-zero", ours.on && ours.arr == 0);
                missed(r, &ours, false, &mut m);
            }
            m.add("ccg-latches", some(|ch| v >> (ch + 1) & 1 != 0 && t.is_output(ch) && (1..4).contains(&t.mode(ch))));
            m.add("trigger-generation", v >> 6 & 1 != 0);
        }
        CCMR1 | CCMR2 => {
            let locked = some(|ch| ch / 2 == i - CCMR1 && t.regs[CCER] >> (4 * ch) & 1 != 0 && (v ^ t.modes[i - CCMR1]) >> (8 * (ch % 2)) & 3 != 0);
            m.add("ccs-locked", locked);
            m.add("mode-change-latch", some(|ch| after.mode(ch) < 4 && t.ocref(ch, t.cnt) != t.latch[ch]));
            m.add("preload-cleared", some(|ch| !after.preloads(ch) && after.compares[ch] != t.ccr[ch]));
            answers(r, t, &after, &ours, &mut m);
        }
        CCR1..=CCR4 if !t.preloads(i - CCR1) => answers(r, t, &after, &ours, &mut m),
        _ => {}
    }
    m.left_by(r)
}

/// Which of the cases met make `does`, done by rules `r`, another than by the manual: those whose rule alone does so, else all.
pub fn blame(r: &Rules, met: Met, does: impl Fn(&Rules) -> Timer) -> Met {
    let plain = does(r);
    let mut to = Met::default();
    for name in Rules::NAMES.iter().copied().filter(|name| !r.by_manual(name) && !does(&r.and(name)).same(&plain)) {
        if name == "done-equality" {
            for n in ["done-equality", "match-again", "stopped-match", "one-pulse-last-match"] {
                to.add(n, met.has(n));
            }
        } else {
            to.add(name, true);
        }
    }
    if to.none() { met } else { to }
}
