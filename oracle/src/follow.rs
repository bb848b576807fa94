//! The machine of `silicon` beside a board: every call that a board has answered is made of the machine too, by the port's rules
//! (the Rust's, and those of manual mode where a timer is in it), and all that can be seen of the timers must be equal. At every step and every write the manual's rules are
//! tried from the same state: outside the named cases they must do the same, and inside a difference is counted under the
//! case's name.

use std::collections::BTreeMap;

use crate::calls::{Answer, Call, TimerSpec};
use crate::silicon::cases::{self, Met};
use crate::silicon::timeline::{Delivered, Edge, Timeline};
use crate::silicon::{synchronizes, Rules, Timer, CCER, CNT, CR1, DIER, DIR};

const MANUAL: Rules = Rules::manual();
/// Kernel clocks to which the next event is looked for.
const NEAR: u64 = 40;
/// Steps that are too many to be made one by one.
const FAR: u64 = 20_000;

/// What was compared, and the cases met.
#[derive(Clone, Debug, Default)]
pub struct Table {
    pub lists: u64,
    pub calls: u64,
    /// Registers and pin levels looked at, entries and event counts besides.
    pub looks: u64,
    /// Steps of a counter and writes tried by the manual's rules; those that met no case.
    pub steps: u64,
    pub plain_steps: u64,
    pub writes: u64,
    pub plain_writes: u64,
    /// By case: times met, times that it made a difference.
    pub met: BTreeMap<&'static str, [u64; 2]>,
    /// Pulses that ended in manual mode.
    pub pulses: u64,
    /// Deliveries to a timer in manual mode that is blocked by a reload of 0.
    pub blocked: u64,
    /// Times that a timer was followed no more, up to its reset: a delivery answered 8, or steps too many.
    pub left: u64,
}

/// The cases met by lists in time and by lists with late calls, as a page's table.
pub fn report(in_time: &Table, late: &Table) -> String {
    let mut text = String::new();
    for (what, t) in [("In time", in_time), ("With late calls", late)] {
        let Table { lists, calls, looks, steps, plain_steps, writes, plain_writes, left, .. } = t;
        text += &format!("{what}: {calls} calls in {lists} lists, {looks} looks, all equal by the port's rules; {left} times a timer was left.\n");
        text += &format!("By the manual's rules: {plain_steps} of {steps} steps and {plain_writes} of {writes} writes met no case, all equal.\n");
    }
    text += "\n| case | in time: met | another state | with late calls: met | another state |\n|---|---|---|---|---|\n";
    for name in cases::NAMES {
        let [[a, b], [c, d]] = [in_time, late].map(|t| t.met.get(name).copied().unwrap_or_default());
        text += &format!("| `{name}` | {a} | {b} | {c} | {d} |\n");
    }
    text
}

impl Table {
    fn count(&mut self, met: Met, differ: Met) {
        if met.none() && differ.none() {
            return;
        }
        for (names, k) in [(met, 0), (differ, 1)] {
            names.names().for_each(|n| self.met.entry(n).or_default()[k] += 1);
        }
    }

    fn note(&mut self, name: &'static str, met: bool, differs: bool) {
        let (mut m, mut d) = (Met::default(), Met::default());
        m.add(name, met);
        d.add(name, differs);
        self.count(m, d);
    }

    /// What is done by rules `r` (`ours`), tried by the manual's: another state only in cases that are met.
    pub fn tried(&mut self, r: &Rules, what: &str, met: Met, ours: &Timer, does: impl Fn(&Rules) -> Timer) -> Result<(), String> {
        let differ = if does(&MANUAL).same(ours) {
            Met::default()
        } else if met.none() {
            return Err(format!("the {what} differs in no named case"));
        } else {
            cases::blame(r, met, does)
        };
        self.count(met, differ);
        match differ.names().find(|n| !met.has(n)) {
            Some(n) => Err(format!("{n} makes a difference to the {what} outside its case")),
            None => Ok(()),
        }
    }

    /// Two things that must be the same.
    fn look<T: PartialEq + std::fmt::Debug>(&mut self, what: impl FnOnce() -> String, board: T, machine: T) -> Result<(), String> {
        self.looks += 1;
        if board == machine { Ok(()) } else { Err(format!("{}: board {board:x?}, machine {machine:x?}", what())) }
    }
}

struct Followed {
    line: Timeline,
    /// The cycle of the last write.
    written: u64,
    /// The outputs may not show the machine's levels: by direction-late, clamp-down, done-equality, a late call or a pin reset.
    stale: bool,
    /// Not followed, up to a reset.
    left: bool,
}

impl Followed {
    /// It is not followed to this cycle.
    fn far(&self, cycle: u64) -> bool {
        let t = &self.line.t;
        self.left || t.on && cycle.saturating_sub(self.line.at) / self.line.div / (t.psc + 1) > FAR
    }

    /// The same; then it is followed no more.
    fn leave(&mut self, cut: bool, cycle: u64, table: &mut Table) -> bool {
        let leaves = cut || self.far(cycle);
        table.left += (leaves && !self.left) as u64;
        self.left = leaves;
        leaves
    }

    /// Delivers, each step tried by the manual's rules as well, and the levels held to the machine's.
    fn steps(&mut self, cycle: u64, table: &mut Table) -> Result<Delivered, String> {
        let mut fault = None;
        let Self { line, stale, .. } = self;
        let (drives, r) = (line.drives, line.rules);
        let done = line.deliver(cycle, |before, after, out| {
            table.steps += 1;
            table.pulses += (r.one_pulse && before.on && !after.on) as u64;
            let does = |r: &Rules| {
                let mut s = *before;
                s.clock(r, &mut |_: &Timer, _| {});
                s
            };
            let met = cases::of_clock(&r, before);
            table.plain_steps += met.none() as u64;
            if let Err(e) = table.tried(&r, "clock", met, after, does) {
                fault = Some(format!("{e}: {before:x?}"));
            }
            *stale |= met.has("done-equality");
            let shows = !drives || (0..after.channels).all(|ch| after.level(ch) == out[ch]);
            if shows {
                *stale = false;
            } else if !*stale {
                fault = Some(format!("a level that is not the machine's: {out:?} {after:x?}"));
            }
        });
        fault.map_or(Ok(done), Err)
    }

    /// Steps that a call without a delivery makes, no event being due.
    fn quiet_steps(&mut self, cycle: u64, table: &mut Table) -> Result<(), String> {
        let mut probe = Self { line: self.line.clone(), ..*self };
        probe.steps(cycle, table)?;
        self.stale = probe.stale;
        Ok(())
    }
}

/// A board's timers as machines.
#[derive(Default)]
pub struct Follow {
    specs: Vec<TimerSpec>,
    lines: u32,
    timers: Vec<Followed>,
    table: BTreeMap<u32, u32>,
    tree: Option<(u64, [u32; 6])>,
    enable: BTreeMap<u32, u32>,
    /// The pin that took a signal last, and each pin's signal; pins that do not just show their signal.
    routes: BTreeMap<u32, u32>,
    signals: BTreeMap<u32, u32>,
    odd: BTreeMap<u32, bool>,
}

fn signal(number: u32, ch: usize) -> u32 {
    16 * (number + 10) + ch as u32 + 2
}

impl Follow {
    pub fn new() -> Self {
        Self::default()
    }

    fn divider(&self, bus: u32) -> u64 {
        let [_, _, p3, p4, t1, t2] = self.tree.map_or([1; 6], |t| t.1);
        (match bus {
            1 => t1,
            2 => t2,
            3 => p3,
            _ => p4,
        }) as u64
    }

    fn open(&self, t: usize) -> bool {
        let s = &self.specs[t];
        self.enable.get(&s.word).copied().unwrap_or(0) >> s.bit & 1 != 0
    }

    /// Follows a call that the board has answered, and asks the board for everything that can be seen of the timer called.
    pub fn step(&mut self, call: &Call, answer: &Answer, ask: &mut dyn FnMut(&Call) -> Answer, table: &mut Table) -> Result<(), String> {
        table.calls += 1;
        if let (&Call::Write { timer, offset, size, value, cycle, .. }, 7) = (call, answer.number) {
            let f = &self.timers[timer as usize];
            if f.far(cycle) {
                return Ok(());
            }
            let (i, v) = self.merged(timer as usize, offset, size, value, cycle);
            return table.look(|| "refusal 7".into(), true, f.line.astray(i, v, cycle));
        }
        if !matches!(answer.number, 0 | 8) {
            return Ok(());
        }
        match *call {
            Call::Setup(ref s) => {
                *self = Self { specs: s.timers.clone(), lines: s.lines, table: s.signals.iter().copied().collect(), ..Self::default() };
                let hz = s.hz;
                self.tree = Some((hz, [1; 6]));
                for (k, t) in s.timers.iter().enumerate() {
                    let rules = Rules::port(s.manual >> k & 1 != 0);
                    let max = if t.width == 32 { 0xffff_ffff } else { 0xffff };
                    let line = Timeline::new(rules, t.channels as usize, max, (2..=4).contains(&t.number));
                    self.timers.push(Followed { line, written: 0, stale: false, left: false });
                }
            }
            Call::Clock { hclk, dividers, cycle, .. } => self.clock(hclk, dividers, cycle, table)?,
            Call::Enable { word, value } => {
                let before: Vec<bool> = (0..self.specs.len()).map(|t| self.open(t)).collect();
                self.enable.insert(word, value);
                for (t, open) in before.into_iter().enumerate() {
                    let stops = open && !self.open(t) && self.timers[t].line.t.on;
                    table.note("gated-counts", stops, stops);
                }
            }
            Call::Pin { pin, mode, open_drain, function, .. } => {
                if let Some(old) = self.signals.remove(&pin) {
                    if self.routes.get(&old) == Some(&pin) {
                        self.routes.remove(&old);
                    }
                }
                let new = if mode == 2 { self.table.get(&(pin * 16 + function % 16)).copied().unwrap_or(0) } else { 0 };
                if new != 0 {
                    self.signals.insert(pin, new);
                    self.routes.insert(new, pin);
                }
                self.odd.insert(pin, open_drain != 0);
            }
            Call::ResetPins { .. } => {
                self.routes.clear();
                self.signals.clear();
                // The outputs' signals fall, up to the next drive.
                for f in &mut self.timers {
                    f.line.out = [false; 4];
                    f.stale = true;
                }
            }
            Call::Read { timer, offset, size, cycle } => {
                let t = timer as usize;
                if self.timers[t].far(cycle) {
                    return Ok(());
                }
                let i = (offset & !3) as usize / 4;
                let word = self.timers[t].line.read(i, cycle) as u32;
                let value = if self.open(t) { lane_read(word, offset, size) } else { 0 };
                self.seen_late(t, i, cycle, table);
                table.look(|| format!("read {offset:#x}"), answer.value, value as u64)?;
            }
            Call::Peek { timer, offset, cycle } => {
                let t = timer as usize;
                if self.timers[t].far(cycle) {
                    return Ok(());
                }
                let i = (offset & !3) as usize / 4;
                self.seen_late(t, i, cycle, table);
                table.look(|| format!("peek {offset:#x}"), answer.value, self.timers[t].line.read(i, cycle))?;
            }
            Call::Write { timer, offset, size, value, cycle, .. } => {
                let t = timer as usize;
                if self.timers[t].leave(false, cycle, table) {
                    return Ok(());
                }
                if self.open(t) {
                    let (i, v) = self.merged(t, offset, size, value, cycle);
                    let refused = self.timers[t].line.astray(i, v, cycle);
                    table.look(|| "no refusal 7".into(), false, refused)?;
                    self.tried(t, i, v, cycle, table)?;
                    let f = &mut self.timers[t];
                    let edges = f.line.write(i, v, cycle);
                    f.written = cycle;
                    self.edges(t, answer, &edges, table)?;
                }
                self.look(t, cycle, ask, table)?;
            }
            Call::Reset { timer, cycle, .. } => {
                let t = timer as usize;
                let f = &mut self.timers[t];
                let left = std::mem::take(&mut f.left);
                f.stale = false;
                let edges = f.line.reset(cycle);
                // What the outputs of a timer that was not followed fall from is not known.
                if !left {
                    self.edges(t, answer, &edges, table)?;
                }
                self.look(t, cycle, ask, table)?;
            }
            Call::Deliver { timer, cycle, .. } => {
                let t = timer as usize;
                if self.timers[t].leave(answer.number == 8, cycle, table) {
                    return Ok(());
                }
                let done = self.deliver(t, cycle, table)?;
                let line = &self.timers[t].line;
                table.blocked += (line.t.on && line.t.blocked(&line.rules)) as u64;
                table.look(|| "events".into(), answer.value, done.events())?;
                self.edges(t, answer, &done.edges, table)?;
                self.look(t, cycle, ask, table)?;
                self.look_ahead(t, ask, table)?;
            }
            _ => {}
        }
        Ok(())
    }

    /// The register and the word that a write comes to.
    fn merged(&self, t: usize, offset: u32, size: u32, value: u32, cycle: u64) -> (usize, u64) {
        let i = (offset & !3) as usize / 4;
        let old = if size == 4 || i == 5 { 0 } else { self.timers[t].line.read(i, cycle) as u32 };
        (i, lane_write(old, offset, size, value) as u64)
    }

    fn clock(&mut self, hclk: u64, dividers: [u32; 6], cycle: u64, table: &mut Table) -> Result<(), String> {
        let (old_hclk, old) = self.tree.unwrap_or((hclk, [1; 6]));
        self.tree = Some((hclk, dividers));
        if f64::from_bits(old_hclk) == f64::from_bits(hclk) && old == dividers {
            return Ok(());
        }
        for t in 0..self.timers.len() {
            let div = self.divider(self.specs[t].bus);
            if self.timers[t].leave(false, cycle, table) {
                self.timers[t].line.div = div;
                continue;
            }
            let lost = self.due(t, cycle);
            let f = &mut self.timers[t];
            if f.line.t.on {
                let (mut first, mut then) = (f.line.clone(), f.line.clone());
                first.deliver(cycle, |_, _, _| {});
                first.clock_change(div, cycle);
                then.clock_change(div, cycle);
                for line in [&mut first, &mut then] {
                    line.deliver(cycle, |_, _, _| {});
                }
                let differs = !first.t.same(&then.t);
                table.note("lost-update", lost.updates > 0, lost.updates > 0 && differs);
                table.note("lost-compare", lost.matches > 0, lost.matches > 0 && differs);
                f.stale |= lost.events() > 0;
                if lost.events() == 0 {
                    f.quiet_steps(cycle, table)?;
                }
                let clamped = f.line.t.shown != f.line.t.cnt;
                table.note("clamp-down", clamped, clamped);
                f.stale |= clamped;
                // What has passed of the step, in cycles, and in kernel clocks before and after.
                let pre = f.line.late(cycle).pre;
                let part = pre * f.line.div + (cycle - f.line.at) % f.line.div;
                let inside = div != f.line.div && part != 0;
                table.note("clock-change-jump", inside, inside && part / div != pre);
            }
            f.line.clock_change(div, cycle);
        }
        Ok(())
    }

    /// What a delivery at `cycle` would do.
    fn due(&self, t: usize, cycle: u64) -> Delivered {
        self.timers[t].line.clone().deliver(cycle, |_, _, _| {})
    }

    /// late-flags and clamp-down: a read that another rule would answer otherwise.
    fn seen_late(&self, t: usize, i: usize, cycle: u64, table: &mut Table) {
        let line = &self.timers[t].line;
        let (mut delivered, late) = (line.clone(), line.late(cycle));
        if delivered.deliver(cycle, |_, _, _| {}).events() > 0 {
            table.note("late-flags", true, late.read(&line.rules, i) != delivered.t.read(&line.rules, i));
        }
        if i == CNT && delivered.t.shown != delivered.t.cnt {
            table.note("clamp-down", true, true);
        }
    }

    /// A write by both rules, from the state that the call finds with nothing due.
    fn tried(&mut self, t: usize, i: usize, v: u64, cycle: u64, table: &mut Table) -> Result<(), String> {
        let f = &mut self.timers[t];
        let (r, syncs) = (f.line.rules, synchronizes(i));
        let mut probe = f.line.clone();
        let lost = probe.deliver(cycle, |_, _, _| {});
        if lost.events() > 0 {
            // Delivered before the write, and after it.
            let (mut first, mut then) = (probe.clone(), f.line.clone());
            first.write(i, v, cycle);
            then.write(i, v, cycle);
            first.settle();
            then.deliver(cycle, |_, _, _| {});
            let differs = !first.t.same(&then.t);
            table.note("lost-update", syncs && lost.updates > 0, syncs && lost.updates > 0 && differs);
            table.note("lost-compare", syncs && lost.matches > 0, syncs && lost.matches > 0 && differs);
            table.note("late-flags", !syncs, !syncs && differs);
            f.stale = true;
        } else if syncs {
            f.quiet_steps(cycle, table)?;
        }
        // CCER drives by the count of its own cycle, and the steps to it are still to be delivered.
        f.stale |= i == CCER && f.line.at < cycle;
        // From here on with nothing due: what a late call loses is counted above.
        let from = probe.t;
        let does = |r: &Rules| {
            let mut s = from;
            s.write(r, i, v, &mut |_: &Timer, _| {});
            s
        };
        table.writes += 1;
        let met = cases::of_write(&r, &from, i, v);
        table.plain_writes += met.none() as u64;
        let ours = does(&r);
        table.tried(&r, "write", met, &ours, does).map_err(|e| format!("{e}, register {i}, value {v:#x}: {from:x?}"))?;
        if i == CR1 && (from.cr1 ^ ours.cr1) & DIR != 0 {
            let late = probe.drives && (0..from.channels).any(|ch| ours.level(ch) != from.level(ch));
            table.note("direction-late", late, late);
            f.stale |= late;
        }
        f.stale |= met.has("clamp-down") || ours.shown != ours.cnt;
        Ok(())
    }

    fn deliver(&mut self, t: usize, cycle: u64, table: &mut Table) -> Result<Delivered, String> {
        let f = &mut self.timers[t];
        let mut probe = f.line.clone();
        let at_write = probe.settle();
        let before = at_write.events() > 0 && probe.step_cycle() < f.written;
        table.note("match-before-write", before, before && !at_write.edges.is_empty());
        f.steps(cycle, table)
    }

    /// The entries that a call made of this timer's outputs.
    fn edges(&self, t: usize, answer: &Answer, edges: &[Edge], table: &mut Table) -> Result<(), String> {
        let number = self.specs[t].number;
        let pin = |ch: usize| self.routes.get(&signal(number, ch)).copied();
        if (0..4).filter_map(pin).any(|p| self.odd.get(&p) == Some(&true)) {
            return Ok(());
        }
        // The manual's machine has no sources.
        let wanted: Vec<(u16, u8, u64)> = edges.iter().filter_map(|e| Some((pin(e.ch)? as u16, e.level as u8, e.cycle))).collect();
        let made: Vec<_> = answer.entries.iter().map(|e| (e.pin, e.level, e.cycle)).collect();
        table.look(|| "entries".into(), &made, &wanted)
    }

    /// After a delivery: the next event's cycle, where it is near, and the interrupt that the flags request.
    fn look_ahead(&self, t: usize, ask: &mut dyn FnMut(&Call) -> Answer, table: &mut Table) -> Result<(), String> {
        let line = &self.timers[t].line;
        let booked = ask(&Call::Booked { timer: t as u32 }).value;
        match line.next_event(NEAR) {
            Some(cycle) => table.look(|| "booked".into(), booked, cycle)?,
            None => table.look(|| format!("booked {booked}, nothing near"), false, booked <= line.at + NEAR * line.div)?,
        }
        let irq = self.specs[t].irq;
        if self.specs.iter().filter(|s| s.irq == irq).count() == 1 && irq < self.lines {
            let requests = line.t.sr & line.t.regs[DIER] & 0x1f != 0;
            table.look(|| "interrupt".into(), ask(&Call::Line { irq }).value & 1, requests as u64)?;
        }
        Ok(())
    }

    /// Every register at the call's cycle, and the pins that show the outputs.
    fn look(&self, t: usize, cycle: u64, ask: &mut dyn FnMut(&Call) -> Answer, table: &mut Table) -> Result<(), String> {
        let line = &self.timers[t].line;
        let late = line.late(cycle);
        for i in 0..18 {
            let offset = 4 * i as u32;
            let value = ask(&Call::Peek { timer: t as u32, offset, cycle }).value;
            table.look(|| format!("{offset:#x} at {cycle}"), value, late.read(&line.rules, i))?;
        }
        for ch in 0..line.t.channels {
            let Some(&pin) = self.routes.get(&signal(self.specs[t].number, ch)) else { continue };
            if self.odd.get(&pin) != Some(&true) {
                let level = ask(&Call::Level { pin }).value % 2;
                table.look(|| format!("pin {pin}"), level, line.out[ch] as u64)?;
            }
        }
        Ok(())
    }
}

fn lane_read(reg: u32, offset: u32, size: u32) -> u32 {
    let lane = reg >> (8 * (offset & 3));
    match size {
        4 => reg,
        2 => lane & 0xffff,
        _ => lane & 0xff,
    }
}

fn lane_write(old: u32, offset: u32, size: u32, value: u32) -> u32 {
    let shift = 8 * (offset & 3);
    let mask = match size {
        4 => return value,
        2 => 0xffff_u32 << shift,
        _ => 0xff << shift,
    };
    old & !mask | value << shift & mask
}
