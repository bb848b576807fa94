//! Pilots: what is on the record is what was asked for, however seldom the board is polled and however small its book is.

use board::{Board, Ccer, Channel, Cr1, Duty, Entry, Error, Pilot, PilotError, Reg, Setup, Shift, TimerIndex, TimerSpec, Timing};

const TIM2: TimerIndex = TimerIndex(0);
const TIM3: TimerIndex = TimerIndex(1);

fn duty(percent: u32) -> Duty {
    Duty::percent(percent).unwrap()
}

fn pilot() -> Pilot {
    Pilot::new(TIM2, Channel::Ch1, 0, 1)
}

const TEN: Timing = Timing { prescaler: 0, reload: 9 };

fn high(record: &[Entry], pin: u8, from: u64, to: u64) -> u64 {
    let mut shift = Shift::new([0; 4], from, to);
    shift.feed(record);
    shift.report().unwrap().pin(pin).unwrap().high
}

/// A duty set late, by a plain write, loses the edges that were due; a pilot loses none.
#[test]
fn nothing_is_lost() {
    let start = || {
        let (mut b, mut record) = (Board::example(), Vec::new());
        pilot().start(&mut b, TEN, duty(30), 100, &mut record).unwrap();
        (b, record)
    };
    let (mut b, mut record) = start();
    record.extend(b.write_reg(TIM2, Reg::Ccr(1), 6, 155).unwrap().entries);
    b.poll_all(200, &mut record).unwrap();
    assert_eq!(record.iter().filter(|e| (101..=155).contains(&e.cycle)).count(), 0);

    let (mut b, mut record) = start();
    pilot().set_duty(&mut b, duty(60), 155, &mut record).unwrap();
    b.poll_all(200, &mut record).unwrap();
    for period in 10..20 {
        let wanted = if period < 16 { 3 } else { 6 };
        assert_eq!(high(&record, 0, 10 * period, 10 * (period + 1)), wanted, "period {period}");
    }
    // Each edge once, in order, each at its own cycle.
    assert!(record.is_sorted_by(|a, b| a.cycle < b.cycle && a.level != b.level));
}

/// The same for what another timer has due on the pin that a pilot takes over, and for the pilot that another joins.
#[test]
fn nothing_is_lost_to_another_pilot() {
    let mut s = Setup::example();
    s.pins[0][2] = Channel::Ch1.signal(3);
    let (mut b, mut record) = (Board::new(4), Vec::new());
    b.set_up(&s).unwrap();
    b.enable(3, 3).unwrap();
    Pilot::new(TIM3, Channel::Ch1, 0, 2).start(&mut b, TEN, duty(30), 0, &mut record).unwrap();
    pilot().start(&mut b, TEN, duty(60), 100, &mut record).unwrap();
    Pilot::new(TIM2, Channel::Ch2, 1, 1).start(&mut b, TEN, duty(10), 155, &mut record).unwrap();
    b.poll_all(200, &mut record).unwrap();
    assert_eq!((high(&record, 0, 0, 100), high(&record, 0, 100, 200), high(&record, 1, 100, 200)), (30, 60, 4));
    let pin: Vec<_> = record.iter().filter(|e| e.pin == 0).collect();
    assert!(pin.is_sorted_by(|a, b| a.cycle <= b.cycle && a.level != b.level));
}

/// Random changes of four pilots on two timers. Every whole period has the duty that was set last before it began.
#[test]
fn every_period_has_its_duty() {
    for seed in 0..40u64 {
        let mut state = seed;
        let mut below = |n: u64| {
            state = state.wrapping_mul(6364136223846793005).wrapping_add(1442695040888963407);
            (state >> 33) % n
        };
        let places = [4, 5, 16, 64][seed as usize % 4];
        let mut b = Board::new(places);
        b.set_up(&Setup::example()).unwrap();
        b.enable(3, 3).unwrap();
        let timings = [Timing { prescaler: 0, reload: 9 }, Timing { prescaler: below(4) as u32, reload: 4 + below(30) as u32 }];
        let pilots = [(TIM2, Channel::Ch1, 0), (TIM2, Channel::Ch3, 2), (TIM3, Channel::Ch2, 5), (TIM3, Channel::Ch4, 7)].map(|(t, c, pin)| Pilot::new(t, c, pin, 1));
        let timing = |p: Pilot| timings[p.timer().0 as usize];
        let mut record = Vec::new();
        // Each timer's start, and of each pilot (cycle, compare) as they were set.
        let starts = [1000 + below(100), 1200 + below(100)];
        let mut set: [Vec<(u64, u64)>; 4] = Default::default();
        for (p, set) in pilots.iter().zip(&mut set) {
            let cycle = starts[p.timer().0 as usize];
            let d = Duty::of(below(11), 10).unwrap();
            p.start(&mut b, timing(*p), d, cycle, &mut record).unwrap();
            // The second pilot of a timer begins with the second period.
            let first = if p.channel() < Channel::Ch3 && p.timer() == TIM2 || p.channel() == Channel::Ch2 { cycle } else { cycle + 1 };
            set.push((first, timing(*p).compare(d).unwrap() as u64));
        }
        let mut now = 1400;
        for _ in 0..60 {
            now += below(200);
            if below(3) == 0 {
                b.poll_all(now, &mut record).unwrap();
                continue;
            }
            let k = below(4) as usize;
            let d = Duty::of(below(101), 100).unwrap();
            pilots[k].set_duty(&mut b, d, now, &mut record).unwrap();
            set[k].push((now, timing(pilots[k]).compare(d).unwrap() as u64));
        }
        b.poll_all(now, &mut record).unwrap();
        for (p, set) in pilots.iter().zip(&set) {
            let (t, start) = (timing(*p), starts[p.timer().0 as usize]);
            let mut from = start;
            while from + t.clocks() <= now {
                // A duty set at the very cycle of an update comes after it.
                let compare = set.iter().rfind(|&&(at, _)| at < from || at == start && from == start).map_or(0, |s| s.1);
                let wanted = compare * (t.prescaler as u64 + 1);
                assert_eq!(high(&record, p.pin() as u8, from, from + t.clocks()), wanted, "seed {seed}, {p:?}, period at {from}");
                from += t.clocks();
            }
        }
    }
}

/// Without preload a duty acts inside the period that runs.
#[test]
fn an_immediate_duty() {
    let (mut b, mut record) = (Board::example(), Vec::new());
    let p = pilot().immediate();
    p.start(&mut b, TEN, duty(30), 100, &mut record).unwrap();
    p.set_duty(&mut b, duty(70), 101, &mut record).unwrap();
    b.poll_all(112, &mut record).unwrap();
    p.set_duty(&mut b, duty(10), 112, &mut record).unwrap();
    let edges: Vec<_> = record.iter().map(|e| e.cycle).collect();
    assert_eq!(edges, [100, 107, 110, 112]);
    // A preloading pilot in its place sets it back.
    pilot().set_duty(&mut b, duty(50), 113, &mut record).unwrap();
    b.poll_all(129, &mut record).unwrap();
    assert_eq!((high(&record, 0, 110, 120), high(&record, 0, 120, 130)), (2, 5));
}

/// The book's length, and how seldom is polled, leave no trace on the record.
#[test]
fn the_record_does_not_tell_the_book() {
    let run = |places: usize, every: u64| {
        let (mut b, mut record) = (Board::new(places), Vec::new());
        b.set_up(&Setup::example()).unwrap();
        b.enable(3, 3).unwrap();
        pilot().start(&mut b, TEN, duty(30), 100, &mut record).unwrap();
        for cycle in (100..2000).filter(|c| c % every == 0) {
            b.poll_all(cycle, &mut record).unwrap();
        }
        pilot().set_duty(&mut b, duty(70), 2005, &mut record).unwrap();
        pilot().stop(&mut b, 2503, &mut record).unwrap();
        (record, b.save())
    };
    let plain = run(1000, 1);
    assert_eq!(plain.0.last(), Some(&Entry::new(0, 0, 2503)));
    for (places, every) in [(4, 1), (4, 3000), (7, 13), (1000, 3000)] {
        assert!(run(places, every) == plain, "{places} places, polled every {every}");
    }
}

#[test]
fn start_and_stop() {
    let (mut b, mut record) = (Board::example(), Vec::new());
    // What another program left: downward, one-pulse, no updates, a compare, an inverted output, a running interrupt.
    for (reg, value) in [(Reg::Cr1, 0x1a), (Reg::Ccr(1), 77), (Reg::Ccer, 0x2), (Reg::Dier, 1), (Reg::Cnt, 5)] {
        b.write_reg(TIM2, reg, value, 0).unwrap();
    }
    pilot().start(&mut b, TEN, duty(30), 50, &mut record).unwrap();
    assert_eq!(b.line(28), board::Line::default(), "the update at the start is no interrupt");
    let cr1 = Cr1::from_bits(b.peek_reg(TIM2, Reg::Cr1, 50).unwrap());
    assert_eq!(cr1, Cr1::new().cen(true).arpe(true));
    assert_eq!(pilot().start(&mut b, TEN, duty(30), 55, &mut record), Err(PilotError::InUse));
    assert_eq!(record, [Entry::new(0, 1, 50), Entry::new(0, 0, 53)]);

    // Another period cannot join, the same can.
    let second = Pilot::new(TIM2, Channel::Ch4, 3, 1);
    assert_eq!(second.start(&mut b, Timing { prescaler: 0, reload: 8 }, duty(30), 56, &mut record), Err(PilotError::Busy));
    assert_eq!(second.start(&mut b, Timing { prescaler: 1, reload: 9 }, duty(30), 56, &mut record), Err(PilotError::Busy));
    second.start(&mut b, TEN, duty(100), 57, &mut record).unwrap();

    // The first stops, the timer goes on for the second; then it stops too.
    pilot().stop(&mut b, 61, &mut record).unwrap();
    assert_eq!(record[2..], [Entry::new(0, 1, 60), Entry::new(3, 1, 60), Entry::new(0, 0, 61)]);
    assert!(b.next().is_some());
    assert_eq!(pilot().stop(&mut b, 61, &mut record), Err(PilotError::Stopped));
    assert_eq!(pilot().set_duty(&mut b, duty(1), 61, &mut record), Err(PilotError::Stopped));
    second.stop(&mut b, 82, &mut record).unwrap();
    assert_eq!((record[5..].to_vec(), b.next()), (vec![Entry::new(3, 0, 82)], None));

    // And again, with no trace of the first time.
    record.clear();
    pilot().start(&mut b, TEN, duty(0), 90, &mut record).unwrap();
    second.start(&mut b, TEN, duty(20), 95, &mut record).unwrap();
    b.poll_all(109, &mut record).unwrap();
    assert_eq!(record, [Entry::new(3, 1, 100), Entry::new(3, 0, 102)]);
}

/// After one-pulse CEN is set and nothing counts: the pilot starts all the same.
#[test]
fn start_after_one_pulse() {
    let (mut b, mut record) = (Board::example(), Vec::new());
    for (reg, value) in [(Reg::Arr, 9), (Reg::Cr1, 9)] {
        b.write_reg(TIM2, reg, value, 0).unwrap();
    }
    b.poll_all(20, &mut record).unwrap();
    b.write_reg(TIM2, Reg::Cr1, 1, 20).unwrap();
    assert_eq!((b.peek_reg(TIM2, Reg::Cr1, 20), b.next()), (Ok(1), None));
    pilot().start(&mut b, TEN, duty(30), 30, &mut record).unwrap();
    b.poll_all(45, &mut record).unwrap();
    assert_eq!(record, [Entry::new(0, 1, 30), Entry::new(0, 0, 33), Entry::new(0, 1, 40), Entry::new(0, 0, 43)]);
    // A timer that stands has no pilot whose duty could change.
    b.write_reg(TIM2, Reg::Cr1, 0, 45).unwrap();
    assert_eq!(pilot().set_duty(&mut b, duty(60), 46, &mut record), Err(PilotError::Stopped));
    pilot().stop(&mut b, 47, &mut record).unwrap();
    assert!(!Ccer::from_bits(b.peek_reg(TIM2, Reg::Ccer, 47).unwrap()).is_on(Channel::Ch1));
}

#[test]
fn what_is_refused_writes_nothing() {
    let mut s = Setup::example();
    s.add_timer(TimerSpec::new(5).enable(3, 2)); // has signals, drives none
    s.add_timer(TimerSpec::new(4).channels(2).enable(3, 3));
    let on5 = s.add_pin(&[(1, Channel::Ch1.signal(5))]);
    let on4 = s.add_pin(&[(1, Channel::Ch3.signal(4))]);
    let mut b = Board::new(64);
    b.set_up(&s).unwrap();
    b.enable(3, 0b1111).unwrap();
    let wide = Timing { prescaler: 0, reload: 0x1_0000 };
    let full = Timing { prescaler: 0, reload: 0xffff };
    let no_signal = |pin, function| Err(PilotError::NoSignal { pin, function });
    for (p, t, d, wanted) in [
        (Pilot::new(TIM2, Channel::Ch1, 0, 2), TEN, duty(30), no_signal(0, 2)),
        (Pilot::new(TIM2, Channel::Ch2, 0, 1), TEN, duty(0), no_signal(0, 1)),
        (Pilot::new(TIM3, Channel::Ch1, 0, 1), TEN, duty(30), no_signal(0, 1)),
        (Pilot::new(TimerIndex(2), Channel::Ch1, on5, 1), TEN, duty(30), no_signal(on5, 1)),
        (Pilot::new(TimerIndex(3), Channel::Ch3, on4, 1), TEN, duty(30), no_signal(on4, 1)),
        (Pilot::new(TIM3, Channel::Ch1, 4, 1), wide, duty(30), Err(PilotError::TooWide)),
        (Pilot::new(TIM3, Channel::Ch1, 4, 1), Timing { prescaler: 0x1_0000, reload: 9 }, duty(30), Err(PilotError::TooWide)),
        (Pilot::new(TIM3, Channel::Ch1, 4, 1), full, duty(100), Err(PilotError::TooFull)),
    ] {
        let before = b.clone();
        assert_eq!(p.start(&mut b, t, d, 0, &mut Vec::new()), wanted, "{p:?}");
        assert!(b.state().same(before.state()), "{p:?}");
    }
    for p in [Pilot::new(TimerIndex(4), Channel::Ch1, 0, 1), Pilot::new(TIM2, Channel::Ch1, 10, 1)] {
        let e = p.start(&mut b, TEN, duty(30), 0, &mut Vec::new()).unwrap_err();
        assert!(matches!(e, PilotError::Refused(Error::NoSuchIndex(_))), "{e}");
    }
    // The widest reload takes every duty but the full one.
    let p = Pilot::new(TIM3, Channel::Ch1, 4, 1);
    p.start(&mut b, full, duty(99), 0, &mut Vec::new()).unwrap();
    assert_eq!(p.set_duty(&mut b, duty(100), 5, &mut Vec::new()), Err(PilotError::TooFull));
    b.enable(3, 0).unwrap();
    assert_eq!(pilot().start(&mut b, TEN, duty(30), 5, &mut Vec::new()), Err(PilotError::Gated));
    assert_eq!(p.set_duty(&mut b, duty(10), 5, &mut Vec::new()), Err(PilotError::Gated));
    assert_eq!(p.stop(&mut b, 5, &mut Vec::new()), Err(PilotError::Gated));
    let early = p.stop(&mut b, 4, &mut Vec::new());
    assert_eq!(early, Err(PilotError::Refused(Error::CycleAstray { cycle: 4, last: 5 })));
}

/// A pilot is its place alone: it goes on after a restore.
#[test]
fn a_restored_pilot_goes_on() {
    let (mut b, mut record) = (Board::example(), Vec::new());
    pilot().start(&mut b, TEN, duty(30), 100, &mut record).unwrap();
    let saved = b.save();
    let mut other = Board::new(8);
    other.restore(&saved).unwrap();
    let mut after = record.clone();
    for (b, record) in [(&mut b, &mut record), (&mut other, &mut after)] {
        pilot().set_duty(b, duty(80), 155, record).unwrap();
        pilot().stop(b, 199, record).unwrap();
    }
    assert_eq!(record, after);
    assert!(b.state().same(other.state()));
}
