//! The safe board: what its types add to the calls. What the calls do is compare's matter.

use board::ffi;
use board::{Board, Channel, ClockField, ClockTree, Delivered, Drive, Entry, Error, Index, Limit, Line, PinConfig, Reason, Reg, Setup, Source, TimerIndex, TimerSpec};

const TIM2: TimerIndex = TimerIndex(0);

#[test]
fn layout_is_the_librarys() {
    assert_eq!((ffi::words(), ffi::reals()), (5276, 264));
    let s = ffi::State::new();
    assert_eq!((s.words().len(), s.reals().len()), (ffi::words(), ffi::reals()));
    assert!(ffi::State::of(vec![0; 5276].into(), vec![0.0; 264].into()).is_some());
    assert!(ffi::State::of(vec![0; 5277].into(), vec![0.0; 264].into()).is_none());
    assert!(ffi::State::of(vec![0; 5276].into(), vec![0.0; 263].into()).is_none());
}

#[test]
fn boards_may_change_threads() {
    fn send<T: Send + Sync>(t: T) -> T {
        t
    }
    let mut b = send(Board::example_pilot(64));
    let events = std::thread::spawn(move || b.deliver(TIM2, 125).unwrap().events).join().unwrap();
    assert_eq!(events, 11);
}

#[test]
fn every_error_is_given() {
    let mut b = Board::example_pilot(4);
    let before = b.clone();
    let mut wrong = Setup::example();
    wrong.timers[0].width = 8;
    assert_eq!(b.set_up(&wrong), Err(Error::WrongBoard(Limit::Width { timer: TIM2, width: 8 })));
    assert_eq!(b.set_up(&Setup { pins: vec![], ..Setup::example() }), Err(Error::WrongBoard(Limit::Pins(0))));
    assert_eq!(b.set_up(&Setup { hz: 0.0, ..Setup::example() }), Err(Error::BadClock(ClockField::Hz)));
    assert_eq!(b.enable(9, 0), Err(Error::NoSuchIndex(Index::Word(9))));
    let absent = Error::NoSuchIndex(Index::Timer { index: TimerIndex(2), timers: 2 });
    assert_eq!(b.read_reg(TimerIndex(2), Reg::Cnt, 100), Err(absent));
    assert_eq!(b.booked(TimerIndex(2)), Err(absent));
    assert_eq!(b.level(8), Err(Error::NoSuchIndex(Index::Pin { pin: 8, pins: 8 })));
    assert_eq!(b.read(TIM2, 0x24, 3, 100), Err(Error::BadSize(3)));
    assert_eq!(b.set_clock_tree(&ClockTree { tim1: 0, ..ClockTree::flat(16e6) }, 100), Err(Error::BadClock(ClockField::Tim1)));
    assert_eq!(b.peek_reg(TIM2, Reg::Cnt, 99), Err(Error::CycleAstray { cycle: 99, last: 100 }));
    assert_eq!(b.time((1 << 62) + 1), Err(Error::CycleAstray { cycle: (1 << 62) + 1, last: 100 }));
    assert_eq!(b.write_reg(TIM2, Reg::Cnt, 11, 150), Err(Error::CounterAstray { offset: 0x24 }));
    assert_eq!(b.reset_pins(100), Err(Error::BookFull { places: 4, needed: 8 }));
    assert!(b.state().same(before.state()));
    assert_eq!(b.deliver(TIM2, 130).unwrap().complete(), Err(Error::Backlog));
    assert_eq!(Board::example_pilot(128).deliver(TIM2, 99), Err(Error::CycleAstray { cycle: 99, last: 100 }));

    let mut small = Board::new(3);
    let mut two = Setup::example();
    two.pins.truncate(2);
    small.set_up(&two).unwrap();
    small.enable(3, 1).unwrap();
    let before = small.clone();
    let full = Error::BookFull { places: 3, needed: 4 };
    assert_eq!(small.write_reg(TIM2, Reg::Cr1, 1, 0), Err(full));
    assert_eq!(small.drive_pin(0, Drive::High, 0), Err(full));
    assert!(small.state().same(before.state()));
    assert_eq!(small.reset_pins(0), Ok(&[][..])); // two pins, three places
}

#[test]
fn every_number_has_its_words() {
    let words = ["served", "wrong board", "no such post", "odd plug", "bad clock", "clock astray", "book full", "counter astray", "backlog", "shift reversed", "book out of order", "socket taken", "too wide", "cut short", "strange kind", "wrong length"];
    for (number, words) in (0..).zip(words) {
        assert_eq!(board::word(number), Some(words));
        assert_eq!(board::is_refusal(number), number != 0 && number != 8);
    }
    assert_eq!(board::word(16), None);
    let e = Error::Other(16);
    assert_eq!((e.number(), e.to_string().as_str(), e.is_refusal()), (16, "refused with 16", true));
}

#[test]
fn errors_in_words() {
    let pins = |n| Index::Pin { pin: n, pins: 8 };
    for (e, number, text) in [
        (Error::WrongBoard(Limit::Channels { timer: TimerIndex(1), channels: 5 }), 1, "wrong board: the timer at index 1 has 5 channels, not 0 to 4"),
        (Error::NoSuchIndex(pins(8)), 2, "no such post: there is no pin 8, the board has 8, from 0"),
        (Error::BadSize(3), 3, "odd plug: 3 bytes, not 1, 2 or 4"),
        (Error::BadClock(ClockField::Ppre2), 4, "bad clock: ppre2 is not 1 to 8,192"),
        (Error::CycleAstray { cycle: 5, last: 9 }, 5, "clock astray: cycle 5 is below 9, that of the last changing call"),
        (Error::CycleAstray { cycle: 1 << 63, last: 9 }, 5, "clock astray: cycle 9223372036854775808 is above 2^62"),
        (Error::BookFull { places: 3, needed: 4 }, 6, "book full: the book has 3 places, the call asks for 4"),
        (Error::CounterAstray { offset: 0x2c }, 7, "counter astray: this write of ARR would leave the counter above the active reload + 1"),
        (Error::Backlog, 8, "backlog: an event is still due, deliver again"),
        (Error::ShiftReversed { from: 2, to: 1 }, 9, "shift reversed: from 2 to 1"),
        (Error::TooWide { n: 8 }, 12, "too wide: pilots up to 8, not up to 7"),
    ] {
        assert_eq!((e.number(), e.to_string().as_str()), (number, text));
        assert!(text.starts_with(e.word()));
    }
}

/// [`Setup::limit`] and [`ClockTree::limit`] only explain. Of set-ups around each limit the library refuses exactly those that they explain.
#[test]
fn limits_are_the_librarys() {
    let mut seed = 1u64;
    let mut pick = |from: &[u32]| {
        seed = seed.wrapping_mul(6364136223846793005).wrapping_add(1442695040888963407);
        from[(seed >> 33) as usize % from.len()]
    };
    let mut board = Board::new(4);
    let mut met = std::collections::HashSet::new();
    let floats = [16e6, 0.0, -1.0, f64::NAN, f64::INFINITY, f64::MIN_POSITIVE, -0.0];
    for round in 0..20_000 {
        let mut s = Setup { lines: pick(&[0, 1, 255, 256, 257, u32::MAX, 8, 9, 10]), ..Setup::new(16e6, 3.3) };
        for i in 0..pick(&[0, 1, 2, 3, 7, 8, 9]) {
            s.timers.push(TimerSpec::new(i + 2));
        }
        s.pins = vec![[255; 16]; pick(&[0, 1, 2, 127, 128, 129]) as usize];
        // Half of them within the limits but for a field or two.
        if round % 2 == 0 {
            s = Setup { lines: s.lines.min(256), ..Setup::example() };
        }
        if let Some(t) = s.timers.first_mut() {
            match pick(&[0, 1, 2, 3, 4, 5, 6]) {
                0 => t.number = pick(&[0, 1, 3, 24, 25, u32::MAX]),
                1 => t.width = pick(&[0, 8, 15, 16, 17, 32, 64]),
                2 => t.channels = pick(&[0, 4, 5, u32::MAX]),
                3 => t.word = pick(&[0, 8, 9, u32::MAX]),
                4 => t.bit = pick(&[0, 31, 32, u32::MAX]),
                5 => t.irq = pick(&[0, 255, 256, u32::MAX]),
                _ => t.bus = pick(&[0, 1, 5, u32::MAX]),
            }
        }
        if round % 5 == 0 {
            s.vcc = floats[pick(&[0, 1, 2, 3, 4, 5, 6]) as usize];
        }
        if round % 7 == 0 {
            s.hz = floats[pick(&[0, 1, 2, 3, 4, 5, 6]) as usize];
        }
        let hz = s.hz.is_finite() && s.hz > 0.0;
        let wanted = s.limit().map(Error::WrongBoard).or((!hz).then_some(Error::BadClock(ClockField::Hz)));
        assert_eq!(board.set_up(&s).err(), wanted, "{s:?}");
        met.insert(s.limit().map(|l| std::mem::discriminant(&l)));

        let mut t = ClockTree::flat(16e6);
        let d = |n: &mut u32, value| *n = value;
        let divider = pick(&[0, 1, 8192, 8193, u32::MAX]);
        match round % 8 {
            0 => t.sysclk_hz = floats[divider as usize % 7],
            1 => t.hclk_hz = floats[divider as usize % 7],
            2 => d(&mut t.ppre1, divider),
            3 => d(&mut t.ppre2, divider),
            4 => d(&mut t.ppre3, divider),
            5 => d(&mut t.ppre4, divider),
            6 => d(&mut t.tim1, divider),
            _ => d(&mut t.tim2, divider),
        }
        assert_eq!(board.set_clock_tree(&t, 0).err(), t.limit().map(Error::BadClock), "{t:?}");
    }
    // Each limit but `Unknown`, and none.
    assert_eq!(met.len(), 11);
}

#[test]
fn a_backlog_keeps_its_entries() {
    let mut b = Board::example_pilot(4);
    let mut edges = Vec::new();
    let mut events = 0;
    let mut stops = 0;
    loop {
        let done = b.deliver(TIM2, 125).unwrap();
        edges.extend_from_slice(done.entries);
        events += done.events;
        if !done.backlog {
            break;
        }
        stops += 1;
    }
    assert!(stops > 0);
    let mut roomy = Board::example_pilot(64);
    assert_eq!(roomy.deliver(TIM2, 125), Ok(Delivered { events, backlog: false, entries: &edges }));
    let entry = |level, cycle| Entry::new(0, level, cycle);
    assert_eq!(edges, [entry(0, 103), entry(1, 110), entry(0, 113), entry(1, 120), entry(0, 123)]);
    assert_eq!(b.next(), roomy.next());

    let (mut drained, mut record) = (Board::example_pilot(4), Vec::new());
    assert_eq!(drained.drain(TIM2, 125, &mut record), Ok(events));
    assert_eq!(record, edges);
    assert!(drained.state().same(roomy.state()));
}

/// Two timers with different periods, polled seldom: the record is that of a delivery at each event.
#[test]
fn poll_all_is_every_delivery() {
    let mut seldom = Board::example_pilot(8);
    let tim3 = TimerIndex(1);
    seldom.set_pin(4, &board::PinConfig::alternate(1), 100).unwrap();
    for (reg, value) in [(Reg::Ccmr1, 0x60), (Reg::Ccer, 1), (Reg::Arr, 6), (Reg::Ccr(1), 2), (Reg::Cr1, 1)] {
        seldom.write_reg(tim3, reg, value, 100).unwrap();
    }
    let mut often = seldom.clone();
    let (mut polled, mut delivered) = (Vec::new(), Vec::new());
    assert_eq!(seldom.poll_all(99, &mut polled), Ok(0));
    let mut events = 0;
    for cycle in [130, 130, 131, 500] {
        events += seldom.poll_all(cycle, &mut polled).unwrap();
        assert!(seldom.next() > Some(cycle));
    }
    let mut singly = 0;
    while let Some(due) = often.next().filter(|&due| due <= 500) {
        for timer in often.timers() {
            if often.booked(timer) == Ok(Some(due)) {
                singly += often.drain(timer, due, &mut delivered).unwrap();
            }
        }
    }
    assert_eq!(events, singly);
    polled.sort_by_key(|e| (e.cycle, e.pin));
    delivered.sort_by_key(|e| (e.cycle, e.pin));
    assert_eq!(polled, delivered);
    assert!(polled.iter().any(|e| e.pin == 4) && polled.iter().any(|e| e.pin == 0));
    assert_eq!(seldom.next(), often.next());
}

#[test]
fn the_last_cycle_is_found() {
    let mut b = Board::example();
    assert_eq!((Board::new(4).last_cycle(), b.last_cycle()), (0, 0));
    for cycle in [1, 2, 3, 1 << 20, (1 << 40) + 17, (1 << 62) - 1, 1 << 62] {
        b.drive_pin(7, Drive::Low, cycle).unwrap();
        assert_eq!(b.last_cycle(), cycle);
    }
    assert_eq!(b.reset(TIM2, (1 << 62) + 1), Err(Error::CycleAstray { cycle: (1 << 62) + 1, last: 1 << 62 }));
    b.set_up(&Setup::example()).unwrap();
    assert_eq!(b.last_cycle(), 0);
}

#[test]
fn sizes_are_found() {
    let mut b = Board::new(4);
    for timers in 1..=8 {
        for pins in [1, 2, 64, 127, 128] {
            let timer = |i| TimerSpec::new(i + 1);
            let s = Setup { timers: (0..timers).map(timer).collect(), pins: vec![[0; 16]; pins as usize], ..Setup::new(1.0, 1.0) };
            b.set_up(&s).unwrap();
            assert_eq!((b.timers().count() as u32, b.pins()), (timers, pins));
        }
    }
}

/// The mode is each timer's own, and a saved board keeps it. In it a pulse's end clears CEN, so the same write fires again.
#[test]
fn manual_mode_is_each_timers_own() {
    for mask in [0u32, 1, 2, 0x55, 0x80, 0xfe, 0xff] {
        let timers = (0..8).map(|i| TimerSpec::new(i + 1).enable(0, i).manual(mask >> i & 1 != 0)).collect();
        let mut b = Board::new(4);
        b.set_up(&Setup { timers, pins: vec![[0; 16]], ..Setup::new(16e6, 3.3) }).unwrap();
        b.enable(0, 0xff).unwrap();
        let mut restored = Board::new(4);
        restored.restore(&b.save()).unwrap();
        for b in [&mut b, &mut restored] {
            for t in (0..8).map(TimerIndex) {
                b.write_reg(t, Reg::Arr, 9, 0).unwrap();
                b.write_reg(t, Reg::Cr1, 9, 0).unwrap();
            }
            for t in (0..8).map(TimerIndex) {
                let manual = mask >> t.0 & 1 != 0;
                b.deliver(t, 10).unwrap();
                assert_eq!((b.read_reg(t, Reg::Cr1, 10), b.booked(t)), (Ok(if manual { 8 } else { 9 }), Ok(None)), "{mask:x} {t:?}");
            }
            for t in (0..8).map(TimerIndex) {
                b.write_reg(t, Reg::Cr1, 9, 30).unwrap();
                assert_eq!(b.booked(t), Ok((mask >> t.0 & 1 != 0).then_some(40)), "{mask:x} {t:?}");
            }
        }
    }
}

/// To the exported call a bit of no timer says nothing, and without a bit it is the call without a mask.
#[test]
fn bits_of_no_timer() {
    let set_up = |manual: Option<u32>| {
        let (timers, table, mut s) = ([2, 32, 4, 1, 3, 0, 0, 3, 16, 4, 1, 3, 1, 0], [0; 16], ffi::State::new());
        let a = match manual {
            None => s.set_up(16e6, 3.3, 1, 0, &timers, &table),
            Some(mask) => s.set_up_manual(16e6, 3.3, 1, 0, mask, &timers, &table),
        };
        assert_eq!(a.number, 0);
        s
    };
    assert!(set_up(None).same(&set_up(Some(0))) && set_up(None).same(&set_up(Some(!3))));
    assert!(set_up(Some(2)).same(&set_up(Some(!1))) && !set_up(Some(2)).same(&set_up(Some(1))));
    // More timers than the mask has bits are too many, in manual mode or not.
    let timers = vec![TimerSpec::new(2).manual(true); 40];
    assert_eq!(Board::new(4).set_up(&Setup { timers, ..Setup::example() }), Err(Error::WrongBoard(Limit::Timers(40))));
}

/// The clock gate is seen whatever the registers hold, also when all of them are 0.
#[test]
fn gated_writes_are_told() {
    for clear in [false, true] {
        let mut b = Board::example();
        if clear {
            b.write_reg(TIM2, Reg::Arr, 0, 0).unwrap();
            assert!(Reg::ALL.iter().all(|&r| b.peek_reg(TIM2, r, 0) == Ok(0)));
        }
        assert_eq!(b.is_gated(TIM2, 0), Ok(false));
        b.enable(3, 0b10).unwrap();
        let before = b.clone();
        assert_eq!(b.is_gated(TIM2, 0), Ok(true));
        assert!(b.state().same(before.state()));
        assert_eq!(b.is_gated(TimerIndex(1), 0), Ok(false));
        let written = b.write_reg(TIM2, Reg::Cr2, 7, 5).unwrap();
        assert!(written.gated && written.entries.is_empty());
        assert_eq!((b.peek_reg(TIM2, Reg::Cr2, 5), b.last_cycle()), (Ok(0), 5));
        b.enable(3, 0b11).unwrap();
        assert!(!b.write_reg(TIM2, Reg::Cr2, 7, 5).unwrap().gated);
        assert_eq!(b.read_reg(TIM2, Reg::Cr2, 5), Ok(7));
        assert_eq!(b.is_gated(TimerIndex(2), 5), Err(Error::NoSuchIndex(Index::Timer { index: TimerIndex(2), timers: 2 })));
    }
}

#[test]
fn registers_by_name() {
    let offsets = [0, 4, 8, 0xc, 0x10, 0x14, 0x18, 0x1c, 0x20, 0x24, 0x28, 0x2c, 0x34, 0x38, 0x3c, 0x40];
    assert_eq!(Reg::ALL.map(Reg::offset), offsets);
    let names = "CR1 CR2 SMCR DIER SR EGR CCMR1 CCMR2 CCER CNT PSC ARR CCR1 CCR2 CCR3 CCR4";
    assert!(Reg::ALL.iter().map(Reg::to_string).eq(names.split(' ')));
    for offset in 0..0x500 {
        assert_eq!(Reg::at(offset), offsets.iter().position(|&o| o == offset & !3).map(|i| Reg::ALL[i]));
    }
    // A number that is no channel's is no register.
    let b = Board::example();
    for n in (0..=255).filter(|n| !(1..=4).contains(n)) {
        let mut other = b.clone();
        assert_eq!(Reg::at(Reg::Ccr(n).offset()), None);
        other.write_reg(TIM2, Reg::Ccr(n), u32::MAX, 0).unwrap();
        assert!(other.state().same(b.state()));
    }
    for (channel, i) in Channel::ALL.into_iter().zip(0..) {
        assert_eq!(channel.signal(3), board::signal(3, i));
        assert_eq!(channel.ccr(), Reg::Ccr(i as u8 + 1));
    }
}

/// Each builder changes its field alone, whatever else the register holds.
#[test]
fn fields_stay_apart() {
    use board::{Ccer, Ccmr, Cr1, OutputMode};
    for rest in [0, u32::MAX, 0x1234_5678] {
        let modes = [OutputMode::Frozen, OutputMode::Active, OutputMode::Inactive, OutputMode::Toggle, OutputMode::ForcedLow, OutputMode::ForcedHigh, OutputMode::Pwm1, OutputMode::Pwm2];
        for channel in Channel::ALL {
            let at = 8 * (channel as u32 % 2);
            for (mode, n) in modes.into_iter().zip(0..) {
                let v = Ccmr::from_bits(rest).mode(channel, mode).bits();
                // CCxS, OCxM and its fourth bit; nothing else.
                assert_eq!((v >> at & 3, v >> (at + 4) & 7, v >> (at + 16) & 1), (0, n, 0));
                assert_eq!((v ^ rest) & !(0x1_0073 << at), 0);
            }
            for on in [false, true] {
                let v = Ccmr::from_bits(rest).preload(channel, on).bits();
                assert_eq!((v >> (at + 3) & 1, (v ^ rest) & !(8 << at)), (on as u32, 0));
                let e = Ccer::from_bits(rest).on(channel, on);
                assert_eq!((e.is_on(channel), (e.bits() ^ rest) & !(1 << (4 * channel as u32))), (on, 0));
                let e = Ccer::from_bits(rest).inverted(channel, on);
                assert_eq!((e.is_inverted(channel), (e.bits() ^ rest) & !(2 << (4 * channel as u32))), (on, 0));
            }
        }
        let r = Cr1::from_bits(rest);
        for on in [false, true] {
            let all = [(r.cen(on), 1), (r.udis(on), 2), (r.urs(on), 4), (r.opm(on), 8), (r.dir(on), 16), (r.arpe(on), 128)];
            for (v, bit) in all {
                assert_eq!((v.bits() & bit != 0, (v.bits() ^ rest) & !bit), (on, 0));
            }
            let asked = |v: u32| [1, 2, 4, 8, 16, 128].map(|bit| v & bit != 0);
            assert_eq!([r.is_cen(), r.is_udis(), r.is_urs(), r.is_opm(), r.is_dir(), r.is_arpe()], asked(rest));
        }
    }
}

#[test]
fn queries() {
    let mut s = Setup { vcc: 5.0, lines: 8, ..Setup::example() };
    s.timers[0].irq = 5;
    let mut b = Board::new(128);
    b.set_up(&s).unwrap();
    b.enable(3, 1).unwrap();
    assert_eq!((b.booked(TIM2), b.next()), (Ok(None), None));
    assert_eq!(b.drive_pin(1, Drive::Analog(3.0), 7), Ok(&[Entry::new(1, 1, 7).by(Source::Outside)][..]));
    assert_eq!((b.level(1), b.volts(1)), (Ok(1), Ok(3.0)));
    assert_eq!(b.drive_pin(1, Drive::Analog(2.0), 7), Ok(&[][..]));
    assert_eq!(b.drive_pin(1, Drive::Analog(f64::NAN), 7), Ok(&[][..]));
    assert!(b.volts(1).unwrap().is_nan());
    assert_eq!(b.reset_pins(8), Ok(&[][..]));
    assert_eq!(b.drive_pin(1, Drive::Low, 9).unwrap().len(), 1);
    assert_eq!(b.time(16_000_000), Ok(1.0));
    b.set_clock_tree(&ClockTree { tim1: 2, ..ClockTree::flat(16e6) }, 10).unwrap();

    for (reg, value) in [(Reg::Dier, 1), (Reg::Arr, 0), (Reg::Cr1, 1)] {
        b.write_reg(TIM2, reg, value, 20).unwrap();
    }
    assert_eq!((b.booked(TIM2), b.next()), (Ok(Some(22)), Some(22)));
    assert_eq!(b.deliver(TIM2, 22).unwrap().events, 5); // the update, then four compares of 0
    assert_eq!(b.line(5), Line { high: true, pending: true });
    b.clear_pending(5);
    assert_eq!(b.line(5), Line { high: true, pending: false });
    assert_eq!(b.line(8), Line::default());
    assert_eq!(b.peek_reg(TIM2, Reg::Sr, 22), Ok(0x1f));
    b.enable(3, 0).unwrap();
    assert_eq!((b.read_reg(TIM2, Reg::Sr, 22), b.peek_reg(TIM2, Reg::Sr, 22)), (Ok(0), Ok(0x1f)));
    b.reset(TIM2, 23).unwrap();
    assert_eq!(b.next(), None);
}

/// One signal goes to one pin: another pin is refused until the first has left it, and the same pin is not.
#[test]
fn a_taken_socket() {
    let mut setup = Setup::example();
    let other = setup.add_pin(&[(1, setup.pins[0][1])]);
    let mut b = Board::new(64);
    b.set_up(&setup).unwrap();
    b.set_pin(0, &PinConfig::alternate(1), 5).unwrap();
    let before = b.clone();
    let taken = Error::SocketTaken { pin: other };
    assert_eq!(b.set_pin(other, &PinConfig::alternate(1), 5), Err(taken));
    assert!(b.state().same(before.state()));
    assert_eq!(taken.to_string(), "socket taken: another pin routes the signal that this setting of pin 8 selects");
    assert_eq!(b.set_pin(other, &PinConfig::alternate(1), 4), Err(Error::CycleAstray { cycle: 4, last: 5 }));
    b.set_pin(0, &PinConfig::alternate(1), 6).unwrap();
    b.set_pin(0, &PinConfig::default(), 7).unwrap();
    b.set_pin(other, &PinConfig::alternate(1), 8).unwrap();
}

/// Document 02, F-5: who holds a level, in the query and in the entries. examples/sources.calls has every case.
#[test]
fn levels_have_sources() {
    let mut b = Board::example();
    let seen = |b: &Board| (b.level(6).unwrap(), b.source(6).unwrap());
    assert_eq!(seen(&b), (0, Source::Held));
    let up = PinConfig { pullup: true, ..PinConfig::default() };
    assert_eq!(b.set_pin(6, &up, 0), Ok(&[Entry::new(6, 1, 0).by(Source::Pull)][..]));
    assert_eq!(seen(&b), (1, Source::Pull));
    // The same level by another source is no entry.
    assert_eq!(b.drive_pin(6, Drive::High, 0), Ok(&[][..]));
    assert_eq!(seen(&b), (1, Source::Outside));
    assert_eq!(b.drive_pin(6, Drive::Low, 0), Ok(&[Entry::new(6, 0, 0).by(Source::Outside)][..]));
    // Volts between the thresholds hold the level, whatever the pulls.
    assert_eq!(b.drive_pin(6, Drive::Analog(1.5), 0), Ok(&[][..]));
    assert_eq!(seen(&b), (0, Source::Held));
    // The chip wins, and is the source also where the outside agrees.
    let out = PinConfig { mode: board::Mode::Output, out: true, ..PinConfig::default() };
    assert_eq!(b.set_pin(6, &out, 0), Ok(&[Entry::new(6, 1, 0)][..]));
    b.drive_pin(6, Drive::High, 0).unwrap();
    assert_eq!(seen(&b), (1, Source::Chip));
    // A pin reset leaves what the outside settles, else what is held.
    b.reset_pins(0).unwrap();
    assert_eq!(seen(&b), (1, Source::Outside));
    b.drive_pin(6, Drive::Nothing, 0).unwrap();
    assert_eq!(seen(&b), (1, Source::Held));
    assert_eq!(b.source(8), Err(Error::NoSuchIndex(Index::Pin { pin: 8, pins: 8 })));
}

/// Why a pin is low: what is asked of a pin of the pilot, and its refusals. Nothing changes.
#[test]
fn a_low_pin_is_explained() {
    let mut b = Board::example_pilot(64);
    let before = b.clone();
    assert_eq!(b.why(8, 0), Err(Error::NoSuchIndex(Index::Pin { pin: 8, pins: 8 })));
    assert_eq!(b.why(0, 99), Err(Error::CycleAstray { cycle: 99, last: 100 }));
    assert_eq!((b.why(0, 102), b.why(0, 103), b.why(1, 103)), (Ok(Reason::High), Err(Error::Backlog), Ok(Reason::Input)));
    assert!(b.state().same(before.state()));
    b.deliver(TIM2, 103).unwrap();
    assert_eq!((b.why(0, 109), b.last_cycle()), (Ok(Reason::Count), 103));
    b.write_reg(TIM2, Reg::Ccer, 0, 104).unwrap();
    assert_eq!(b.why(0, 104), Ok(Reason::Off));
    b.set_pin(0, &PinConfig::default(), 104).unwrap();
    assert_eq!(b.why(0, 1000), Ok(Reason::Input));
}
