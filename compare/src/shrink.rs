//! A failing list made small: calls are dropped, then numbers made smaller, as long as it still fails.

use std::fmt::Write;
use std::time::{Duration, Instant};

use oracle::{Board, Call};

use crate::port::{Fault, Port};
use crate::run::Failure;

/// A list is small enough when this much time has gone into it.
const PATIENCE: Duration = Duration::from_secs(60);

/// The first call of a list that fails, and how.
pub fn fails(port: &mut Port, calls: &[Call]) -> Option<(usize, Fault)> {
    port.restart();
    let mut board = Board::new();
    calls.iter().enumerate().find_map(|(i, call)| {
        let oracle = board.call(call);
        match port.call(call) {
            Ok(answer) if answer == oracle => None,
            Ok(answer) => Some((i, Fault::Answer { oracle, port: answer })),
            Err(fault) => Some((i, fault)),
        }
    })
}

/// A smaller list that fails too; the list itself if it does not fail again.
pub fn shrink(port: &mut Port, calls: Vec<Call>) -> Vec<Call> {
    shrink_by(&mut |calls| fails(port, calls).map(|(i, _)| i), calls)
}

/// The same for any failure: `fails` finds the call of a list that shows it.
pub fn shrink_by(fails: &mut dyn FnMut(&[Call]) -> Option<usize>, calls: Vec<Call>) -> Vec<Call> {
    let mut s = Shrinker { fails, calls, end: Instant::now() + PATIENCE };
    let whole = s.calls.clone();
    s.attempt(whole);
    loop {
        let before = s.calls.clone();
        s.drop_calls();
        s.shift_cycles();
        s.numbers();
        s.set_ups();
        if s.calls == before || s.late() {
            return s.calls;
        }
    }
}

/// A failure in docs/CALLS.md's format: the list made small, the oracle's answers behind `#`.
pub fn report(port: &mut Port, f: Failure) -> String {
    let mut text = format!("seed {}, call {}: {}\n\n", f.seed, f.calls.len(), f.fault);
    let calls = shrink(port, f.calls);
    let fault = fails(port, &calls);
    let mut board = Board::new();
    for (i, call) in calls.iter().enumerate() {
        let answer = board.call(call);
        let _ = match &fault {
            Some((at, fault)) if *at == i => writeln!(text, "{call} # {fault}"),
            _ => writeln!(text, "{call} # {answer}"),
        };
    }
    if fault.is_none() {
        text += "# These calls alone do not fail: run the seed again.\n";
    }
    text
}

struct Shrinker<'a> {
    fails: &'a mut dyn FnMut(&[Call]) -> Option<usize>,
    /// The smallest list so far.
    calls: Vec<Call>,
    end: Instant,
}

impl Shrinker<'_> {
    fn late(&self) -> bool {
        Instant::now() > self.end
    }

    /// Keeps a candidate, up to its failing call, if it fails.
    fn attempt(&mut self, mut calls: Vec<Call>) -> bool {
        if self.late() {
            return false;
        }
        match (self.fails)(&calls) {
            Some(i) => {
                calls.truncate(i + 1);
                self.calls = calls;
                true
            }
            None => false,
        }
    }

    /// Keeps the list with call `i` changed, if it still fails and is another list.
    fn attempt_at(&mut self, i: usize, change: impl FnOnce(&mut Call)) -> bool {
        let mut calls = self.calls.clone();
        change(&mut calls[i]);
        calls != self.calls && self.attempt(calls)
    }

    /// Keeps the list with a thing taken out of the set-up at `i` and of what follows it.
    fn without(&mut self, i: usize, change: impl Fn(&mut Call)) {
        let mut calls = self.calls.clone();
        if let Some((set_up, rest)) = calls.get_mut(i..).and_then(|c| c.split_first_mut()) {
            change(set_up);
            rest.iter_mut().take_while(|c| !matches!(c, Call::Setup(_))).for_each(change);
            if calls != self.calls {
                self.attempt(calls);
            }
        }
    }

    /// Drops runs of calls, long ones first.
    fn drop_calls(&mut self) {
        let mut run = self.calls.len() / 2;
        while run > 0 {
            let mut from = 0;
            while from < self.calls.len() {
                let to = (from + run).min(self.calls.len());
                let mut calls = self.calls.clone();
                calls.drain(from..to);
                if !self.attempt(calls) {
                    from += run;
                }
            }
            run /= 2;
        }
    }

    /// Moves the whole list, or what follows a call, to earlier cycles.
    fn shift_cycles(&mut self) {
        let mut i = 0;
        while i < self.calls.len() {
            let earlier = self.calls[..i].iter_mut().filter_map(Call::cycle_mut).map(|c| *c).max().unwrap_or(0);
            let least = self.calls[i..].iter_mut().filter_map(Call::cycle_mut).map(|c| *c).min().unwrap_or(0);
            let mut by = least.saturating_sub(earlier);
            while by > 0 {
                let mut calls = self.calls.clone();
                for c in calls[i..].iter_mut().filter_map(Call::cycle_mut) {
                    *c -= by;
                }
                by = if self.attempt(calls) { 0 } else { by / 2 };
            }
            i += 1;
        }
    }

    /// Makes every number smaller by itself.
    fn numbers(&mut self) {
        let mut i = 0;
        while i < self.calls.len() {
            for field in 0..fields(&mut self.calls[i]).len() {
                if i >= self.calls.len() {
                    return;
                }
                let n = get(&mut self.calls[i], field);
                if n == 0 || self.attempt_at(i, |c| set(c, field, 0)) || self.attempt_at(i, |c| set(c, field, 1)) {
                    continue;
                }
                for bit in (0..64).rev() {
                    if i < self.calls.len() {
                        let n = get(&mut self.calls[i], field);
                        self.attempt_at(i, |c| set(c, field, n & !(1 << bit)));
                    }
                }
                // Then by halves, so that the least that fails is found.
                let mut step = n / 2;
                while step > 0 && i < self.calls.len() {
                    let n = get(&mut self.calls[i], field);
                    if n < step || !self.attempt_at(i, |c| set(c, field, n - step)) {
                        step /= 2;
                    }
                }
            }
            i += 1;
        }
    }

    /// Makes set-ups plain: fewer signals, timers, pins and lines, and round numbers.
    fn set_ups(&mut self) {
        for i in 0..self.calls.len() {
            let Some(Call::Setup(s)) = self.calls.get(i) else { continue };
            let (signals, timers, pins) = (s.signals.len(), s.timers.len(), s.pins);
            let mut run = signals;
            while run > 0 {
                let mut from = 0;
                while let Some(Call::Setup(s)) = self.calls.get(i).filter(|c| matches!(c, Call::Setup(s) if from < s.signals.len())) {
                    let to = (from + run).min(s.signals.len());
                    if !self.attempt_at(i, |c| edit(c, |s| drop(s.signals.drain(from..to)))) {
                        from += run;
                    }
                }
                run /= 2;
            }
            for t in (0..timers as u32).rev() {
                self.without(i, |c| without_timer(c, t));
            }
            for p in (0..pins.min(128)).rev() {
                self.without(i, |c| without_pin(c, p));
            }
            for bit in 0..32 {
                self.attempt_at(i, |c| edit(c, |s| s.manual &= !(1 << bit)));
            }
            self.attempt_at(i, |c| edit(c, |s| s.hz = 1f64.to_bits()));
            self.attempt_at(i, |c| edit(c, |s| s.vcc = 1f64.to_bits()));
            for lines in [0, 1, 8, 32] {
                if self.attempt_at(i, |c| edit(c, |s| s.lines = lines.min(s.lines))) {
                    break;
                }
            }
        }
    }
}

/// Takes a timer out of a set-up, or counts it out of another call's index.
fn without_timer(call: &mut Call, t: u32) {
    match call {
        Call::Setup(s) if s.timers.len() as u32 > t => {
            s.timers.remove(t as usize);
            let before = (1 << t) - 1;
            s.manual = s.manual & before | s.manual >> 1 & !before;
        }
        Call::Read { timer, .. }
        | Call::Write { timer, .. }
        | Call::Peek { timer, .. }
        | Call::Reset { timer, .. }
        | Call::Deliver { timer, .. }
        | Call::Booked { timer }
            if *timer > t =>
        {
            *timer -= 1
        }
        _ => {}
    }
}

/// The same for a pin.
fn without_pin(call: &mut Call, p: u32) {
    match call {
        Call::Setup(s) if s.pins > p && s.len >= 16 => {
            s.pins -= 1;
            s.len -= 16;
            s.signals.retain(|&(entry, _)| entry / 16 != p);
            s.signals.iter_mut().filter(|(entry, _)| entry / 16 > p).for_each(|(entry, _)| *entry -= 16);
            s.signals.retain(|&(entry, _)| entry < s.len);
        }
        Call::Pin { pin, .. } | Call::Drive { pin, .. } | Call::Level { pin } | Call::Volts { pin } if *pin > p => *pin -= 1,
        _ => {}
    }
}

fn edit(call: &mut Call, change: impl FnOnce(&mut oracle::Setup)) {
    if let Call::Setup(s) = call {
        change(s);
    }
}

enum Field<'a> {
    Wide(&'a mut u64),
    Short(&'a mut u32),
}

fn get(call: &mut Call, field: usize) -> u64 {
    match fields(call).get(field) {
        Some(Field::Wide(n)) => **n,
        Some(Field::Short(n)) => **n as u64,
        None => 0,
    }
}

fn set(call: &mut Call, field: usize, value: u64) {
    match fields(call).get_mut(field) {
        Some(Field::Wide(n)) => **n = value,
        Some(Field::Short(n)) => **n = value as u32,
        None => {}
    }
}

/// The numbers of a call; a set-up's are `set_ups`' matter, but for its timers'.
fn fields(call: &mut Call) -> Vec<Field<'_>> {
    use Field::{Short as S, Wide as W};
    match call {
        Call::Setup(s) => {
            let numbers = s.timers.iter_mut().flat_map(|t| [&mut t.width, &mut t.channels, &mut t.bus, &mut t.word, &mut t.bit, &mut t.irq, &mut t.number]);
            numbers.map(S).collect()
        }
        Call::Clock { sys, hclk, dividers, cycle } => [W(sys), W(hclk), W(cycle)].into_iter().chain(dividers.iter_mut().map(S)).collect(),
        Call::Enable { word, value } => vec![S(word), S(value)],
        Call::Pin { pin, mode, open_drain, out, pullup, pulldown, function, cycle, book } => {
            vec![S(pin), S(mode), S(open_drain), S(out), S(pullup), S(pulldown), S(function), W(cycle), W(book)]
        }
        Call::Drive { pin, kind, volts, cycle, book } => vec![S(pin), S(kind), W(volts), W(cycle), W(book)],
        Call::ResetPins { cycle, book } => vec![W(cycle), W(book)],
        Call::Read { timer, offset, size, cycle } => vec![S(timer), S(offset), S(size), W(cycle)],
        Call::Write { timer, offset, size, value, cycle, book } => vec![S(timer), S(offset), S(size), S(value), W(cycle), W(book)],
        Call::Peek { timer, offset, cycle } => vec![S(timer), S(offset), W(cycle)],
        Call::Reset { timer, cycle, book } | Call::Deliver { timer, cycle, book } => vec![S(timer), W(cycle), W(book)],
        Call::Booked { timer } => vec![S(timer)],
        Call::Next => vec![],
        Call::Level { pin } | Call::Volts { pin } => vec![S(pin)],
        Call::Line { irq } | Call::Clear { irq } => vec![S(irq)],
        Call::Time { cycle } => vec![W(cycle)],
        Call::Why { pin, cycle } => vec![S(pin), W(cycle)],
    }
}
