//! The machine by the rules of manual mode: readings 1 to 25 of document 02, and F-8's sentences on centre-aligned counting.

use oracle::calls::{parse, Call};
use oracle::follow::Table;
use oracle::gen::Gen;
use oracle::rng::Rng;
use oracle::silicon::cases;
use oracle::silicon::timeline::{Edge, Timeline};
use oracle::silicon::{Rules, Timer, ARPE, ARR, CCER, CCMR1, CCR1, CEN, CNT, CR1, DIR, EGR, OPM, PSC, SR, UDIS};

const RULES: Rules = Rules::manual_mode();

// ---- readings -------------------------------------------------------------------------------

/// A board of one timer, as far as these lists need it.
struct Board {
    line: Timeline,
    routed: bool,
    booked: Option<u64>,
}

impl Board {
    fn new(width: u32, channels: u32, number: u32) -> Self {
        let max = if width == 32 { 0xffff_ffff } else { 0xffff };
        Self { line: Timeline::new(RULES, channels as usize, max, (2..=4).contains(&number)), routed: false, booked: None }
    }

    fn book(&mut self, now: u64) {
        self.booked = self.line.next_event(10_000).map(|c| c.max(now));
    }

    fn call(&mut self, call: &Call) -> String {
        let entries = |edges: &[Edge], routed: bool| {
            let entries: Vec<String> = edges.iter().filter(|_| routed).map(|e| format!(" 0:{}@{}/1", e.level as u8, e.cycle)).collect();
            format!("{}{}", entries.len(), entries.concat())
        };
        match *call {
            Call::Setup(ref s) => {
                let t = s.timers[0];
                *self = Self::new(t.width, t.channels, t.number);
                "0 0 0".into()
            }
            Call::Enable { .. } => "0 0 0".into(),
            Call::Pin { .. } => {
                self.routed = true;
                "0 0 0".into()
            }
            Call::Clock { dividers, cycle, .. } => {
                self.line.clock_change(dividers[4] as u64, cycle);
                self.book(cycle);
                "0 0 0".into()
            }
            Call::Write { offset, value, cycle, .. } => {
                let (i, v) = (offset as usize / 4, value as u64);
                if self.line.astray(i, v, cycle) {
                    return "7 0 0".into();
                }
                let edges = self.line.write(i, v, cycle);
                // An ARR that waits books nothing (reading 5), nor do registers that never synchronize.
                if matches!(i, CR1 | EGR | CCMR1 | CNT | CCR1) || i == ARR && self.line.t.cr1 & ARPE == 0 {
                    self.book(cycle);
                }
                format!("0 0 {}", entries(&edges, self.routed))
            }
            Call::Peek { offset, cycle, .. } => format!("0 {} 0", self.line.read(offset as usize / 4, cycle)),
            Call::Deliver { cycle, .. } => {
                let d = self.line.deliver(cycle, |_, _, _| {});
                self.book(cycle);
                format!("0 {} {}", d.events(), entries(&d.edges, self.routed))
            }
            Call::Booked { .. } => format!("0 {} 0", self.booked.unwrap_or(u64::MAX)),
            _ => unreachable!("{call}"),
        }
    }
}

#[test]
fn readings() {
    let mut board = Board::new(32, 1, 2);
    let (mut reading, mut asked, mut wrong) = ("", 0, Vec::new());
    for line in include_str!("manual-mode.calls").lines() {
        if let Some(title) = line.strip_prefix("# ") {
            reading = title;
        }
        let Some(call) = parse(line.as_bytes()).unwrap_or_else(|e| panic!("{line}: {e}")) else { continue };
        let answer = board.call(&call);
        if let Some((_, wanted)) = line.split_once('#') {
            asked += 1;
            if answer != wanted.trim() {
                wrong.push(format!("{reading}\n    {line}\n    {answer}"));
            }
        }
    }
    assert!(wrong.is_empty(), "{} of {asked}\n{}", wrong.len(), wrong.join("\n"));
    assert!(asked > 60, "{asked}");
}

/// Reading 12 with each of the four registers: at 0, "even with reload 0", the counter is turned up.
#[test]
fn turned_up_at_zero() {
    for (i, v) in [(CR1, ARPE | 0x21), (CNT, 0), (ARR, 3), (EGR, 0)] {
        let mut line = Timeline::new(RULES, 1, 0xffff, true);
        for (i, v, cycle) in [(CCR1, 9, 0), (ARR, 4, 0), (CR1, ARPE | 0x21, 0), (ARR, 0, 1)] {
            line.write(i, v, cycle);
        }
        assert_eq!(line.deliver(4, |_, _, _| {}).events(), 1);
        assert_eq!((cnt(&line.t), down(&line.t)), (0, 1));
        line.write(i, v, 5);
        assert_eq!((cnt(&line.t), down(&line.t)), (0, 0), "register {i}");
    }
}

/// Outside the cases that manual mode leaves to the Rust, its clocks and writes are the manual's, centre-aligned ones too.
#[test]
fn outside_the_cases() {
    let (mut table, mut turns) = (Table::default(), 0);
    for seed in 0..60 {
        let (mut gen, mut rng, mut lines) = (Gen::few_timers(seed, true), Rng::new(seed), Vec::new());
        for _ in 0..1_000 {
            match gen.step().0 {
                Call::Setup(s) => {
                    let max = |width| if width == 32 { 0xffff_ffff } else { 0xffff };
                    lines = s.timers.iter().map(|t| Timeline::new(RULES, t.channels as usize, max(t.width), true)).collect();
                }
                Call::Write { timer, offset, size: 4, value, cycle, .. } => {
                    let (i, line) = (offset as usize / 4, &mut lines[timer as usize]);
                    let cms = if i == CR1 && rng.one_in(2) { rng.below(4) << 5 } else { 0 };
                    let v = value as u64 | cms;
                    line.deliver(cycle, |_, _, _| {});
                    if line.astray(i, v, cycle) {
                        continue;
                    }
                    let from = line.t;
                    let does = |r: &Rules| {
                        let mut s = from;
                        s.write(r, i, v, &mut |_: &Timer, _| {});
                        s
                    };
                    let met = cases::of_write(&RULES, &from, i, v);
                    table.plain_writes += met.none() as u64;
                    table.tried(&RULES, "write", met, &does(&RULES), does).unwrap_or_else(|e| panic!("{e}: register {i}, {v:#x}, {from:x?}"));
                    line.write(i, v, cycle);
                }
                Call::Deliver { timer, cycle, .. } => {
                    lines[timer as usize].deliver(cycle, |before, after, _| {
                        let does = |r: &Rules| {
                            let mut s = *before;
                            s.clock(r, &mut |_: &Timer, _| {});
                            s
                        };
                        let met = cases::of_clock(&RULES, before);
                        table.plain_steps += met.none() as u64;
                        turns += (met.none() && before.down() != after.down()) as u64;
                        table.tried(&RULES, "clock", met, after, does).unwrap_or_else(|e| panic!("{e}: {before:x?}"));
                    });
                }
                Call::Reset { timer, cycle, .. } => drop(lines[timer as usize].reset(cycle)),
                _ => {}
            }
        }
    }
    assert!(table.plain_steps > 100_000 && table.plain_writes > 2_000 && turns > 2_000, "{turns} {table:?}");
    for switched in ["one-pulse", "one-pulse-udis", "reload-zero", "centre-aligned"] {
        assert!(!table.met.contains_key(switched), "{switched}");
    }
}

// ---- F-8, F-2, F-6, F-11 -----------------------------------------------------------------------

/// Reload, compare, mode, then CR1; by manual mode, 1 cycle a step.
fn pilot(arr: u64, ccr: u64, ccmr: u64, cr1: u64) -> Timer {
    let mut t = Timer::reset(1, 0xffff);
    for (i, v) in [(ARR, arr), (CCR1, ccr), (CCMR1, ccmr), (CCER, 1), (SR, 0), (CR1, cr1)] {
        t.write(&RULES, i, v, &mut |_: &Timer, _| {});
    }
    t
}

fn clock(t: &mut Timer) {
    t.clock(&RULES, &mut |_: &Timer, _| {});
}

/// What is seen of a timer over `n` clocks, from now on.
fn over(mut t: Timer, n: usize, f: impl Fn(&Timer) -> u64) -> Vec<u64> {
    (0..n)
        .map(|_| {
            let x = f(&t);
            clock(&mut t);
            x
        })
        .collect()
}

fn cnt(t: &Timer) -> u64 {
    t.read(&RULES, CNT)
}

fn down(t: &Timer) -> u64 {
    (t.cr1 & DIR != 0) as u64
}

fn flags(t: &Timer) -> u64 {
    t.sr & 3
}

/// "Up from 0 to reload − 1, overflow, down from reload to 1, underflow"; DIR by the counter; UIF at either turn.
#[test]
fn up_and_down() {
    for cms in [0x20, 0x40, 0x60] {
        let t = pilot(4, 9, 0x60, cms | CEN);
        assert_eq!(over(t, 18, cnt), [0, 1, 2, 3, 4, 3, 2, 1, 0, 1, 2, 3, 4, 3, 2, 1, 0, 1]);
        assert_eq!(over(t, 10, down), [0, 0, 0, 0, 1, 1, 1, 1, 0, 0]);
        let mut s = t;
        (0..4).for_each(|_| clock(&mut s));
        assert_eq!(flags(&s), 1, "overflow");
        s.write(&RULES, SR, 0, &mut |_: &Timer, _| {});
        assert_eq!(over(s, 5, flags), [0, 0, 0, 0, 1], "underflow");
    }
    // Reload 1: up at 0, down at 1.
    assert_eq!(over(pilot(1, 9, 0x60, 0x61), 5, cnt), [0, 1, 0, 1, 0]);
}

/// "CMS 1 sets compare flags on the way down, 2 on the way up, 3 on both"; the reload is on the way down, 0 on the way up.
#[test]
fn compare_flags() {
    let first = |cms, ccr| over(pilot(4, ccr, 0x60, cms | CEN), 17, |t| t.sr >> 1 & 1).iter().position(|&f| f == 1);
    assert_eq!([first(0x20, 2), first(0x40, 2), first(0x60, 2)], [Some(6), Some(2), Some(2)]);
    assert_eq!([first(0x20, 4), first(0x40, 4), first(0x60, 4)], [Some(4), None, Some(4)]);
    // The start counts compare 0 as done; it comes with the underflow.
    assert_eq!([first(0x20, 0), first(0x40, 0), first(0x60, 0)], [None, Some(8), Some(8)]);
    assert_eq!(first(0x60, 5), None, "above the reload");
}

/// "Every match is an event, and latching output modes act on it", whatever CMS flags.
#[test]
fn latching() {
    for cms in [0x20, 0x40, 0x60] {
        assert_eq!(over(pilot(4, 2, 0x30, cms | CEN), 12, |t| t.level(0) as u64), [0, 0, 1, 1, 1, 1, 0, 0, 0, 0, 1, 1]);
    }
}

/// "P as t × 2 × reload and D as t × 2 × the lesser of compare and reload, windows anywhere from the first underflow on."
#[test]
fn duty() {
    for (arr, ccr, psc, mode) in [(4, 2, 0, 0x60), (4, 0, 0, 0x60), (4, 4, 1, 0x60), (5, 9, 0, 0x60), (7, 3, 2, 0x70), (1, 1, 0, 0x60), (6, 5, 3, 0x70)] {
        let mut t = Timer::reset(1, 0xffff);
        for (i, v) in [(PSC, psc), (ARR, arr), (CCR1, ccr), (CCMR1, mode), (CCER, 1), (EGR, 1), (CR1, 0x61)] {
            t.write(&RULES, i, v, &mut |_: &Timer, _| {});
        }
        let step = psc + 1;
        let period = (step * 2 * arr) as usize;
        (0..period).for_each(|_| clock(&mut t));
        let levels = over(t, 4 * period, |t| t.level(0) as u64);
        let active = step * 2 * ccr.min(arr);
        let high = if mode == 0x60 { active } else { period as u64 - active };
        for from in 0..3 * period {
            assert_eq!(levels[from..from + period].iter().sum::<u64>(), high, "reload {arr}, compare {ccr}, from {from}");
        }
    }
}

/// "At an overflow the counter takes the reload just loaded."
#[test]
fn loaded_at_overflow() {
    let mut t = pilot(4, 9, 0x60, ARPE | 0x61);
    t.write(&RULES, ARR, 6, &mut |_: &Timer, _| {});
    assert_eq!(over(t, 12, cnt), [0, 1, 2, 3, 6, 5, 4, 3, 2, 1, 0, 1]);
}

/// "EGR's update clears the counter", and turns it up.
#[test]
fn update_by_egr() {
    let mut t = pilot(4, 9, 0x60, 0x61);
    (0..6).for_each(|_| clock(&mut t));
    assert_eq!((cnt(&t), down(&t)), (2, 1));
    t.write(&RULES, EGR, 1, &mut |_: &Timer, _| {});
    assert_eq!(over(t, 3, cnt), [0, 1, 2]);
    assert_eq!(down(&t), 0);
}

/// "One-pulse ends at either turn's update" (F-2: CEN falls), "UDIS now goes first" (F-11).
#[test]
fn one_pulse() {
    let t = pilot(4, 9, 0x60, 0x61 | OPM);
    assert_eq!(over(t, 6, cnt), [0, 1, 2, 3, 4, 4]);
    assert_eq!(over(t, 6, |t| t.cr1 & CEN), [1, 1, 1, 1, 0, 0]);
    let mut again = t;
    (0..9).for_each(|_| clock(&mut again));
    again.write(&RULES, CR1, 0x61 | OPM, &mut |_: &Timer, _| {});
    assert_eq!(over(again, 6, cnt), [4, 3, 2, 1, 0, 0]);
    assert_eq!(over(pilot(4, 9, 0x60, 0x61 | OPM | UDIS), 10, cnt), [0, 1, 2, 3, 4, 3, 2, 1, 0, 1]);
    assert_eq!(over(pilot(2, 9, 0x60, CEN | OPM), 5, cnt), [0, 1, 2, 0, 0]);
    assert_eq!(over(pilot(2, 9, 0x60, CEN | OPM | UDIS), 5, cnt), [0, 1, 2, 0, 1]);
}

/// F-6: "it keeps its number, no counted event occurs"; "counting resumes with a whole step from that write".
#[test]
fn reload_zero() {
    for cms in [0, 0x60] {
        let mut t = pilot(4, 9, 0x60, cms | CEN);
        (0..2).for_each(|_| clock(&mut t));
        t.write(&RULES, ARR, 0, &mut |_: &Timer, _| {});
        assert_eq!(over(t, 4, cnt), [2; 4]);
        assert_eq!(over(t, 4, flags), [0; 4]);
        t.write(&RULES, ARR, 4, &mut |_: &Timer, _| {});
        assert_eq!(over(t, 3, cnt), [2, 3, 4]);
    }
}

/// The machine of the manual, of the Rust and of manual mode, on one pilot.
#[test]
fn three_sets() {
    let run = |r: Rules, cr1: u64| {
        let mut t = Timer::reset(1, 0xffff);
        for (i, v) in [(ARR, 2), (CCR1, 9), (CR1, cr1)] {
            t.write(&r, i, v, &mut |_: &Timer, _| {});
        }
        (0..6)
            .map(|_| {
                let x = (t.read(&r, CNT), t.cr1 & CEN);
                t.clock(&r, &mut |_: &Timer, _| {});
                x
            })
            .collect::<Vec<_>>()
    };
    assert_eq!(run(Rules::manual(), CEN | OPM), [(0, 1), (0, 1), (1, 1), (2, 1), (0, 0), (0, 0)]);
    assert_eq!(run(Rules::rust(), CEN | OPM), [(0, 1), (1, 1), (2, 1), (0, 1), (0, 1), (0, 1)]);
    assert_eq!(run(Rules::manual_mode(), CEN | OPM), [(0, 1), (1, 1), (2, 1), (0, 0), (0, 0), (0, 0)]);
}
