//! A fixed number of random calls, for the gate, and the safe board beside the raw one.

use board::{Board as Safe, ClockTree, Drive, Error, Index, Mode, PinConfig, Setup, TimerIndex, TimerSpec};
use compare::run::{CALLS, NUMBERS};
use compare::{list, manual_list, report, Port, Stats};
use oracle::gen::Gen;
use oracle::{Answer, Board, Call, Entry};

/// Lists of the gate.
const LISTS: u64 = 3_000;
/// Those with timers in manual mode.
const MANUAL: u64 = 500;

#[test]
fn random_lists() {
    let mut port = Port::new();
    let mut stats = Stats::default();
    for seed in 0..LISTS {
        if let Err(f) = list(&mut port, seed, CALLS, &mut stats) {
            panic!("{}", report(&mut port, *f));
        }
    }
    // Every number must have been met, else equality says little.
    let met = NUMBERS.map(|n| stats.answers.iter().map(|a| a[n]).sum::<u64>());
    assert!(met.iter().all(|&n| n > 100), "{met:?}");
    // And every reason of a low pin; 6 is proved never to be.
    let reasons = stats.reasons;
    assert!((0..11).all(|r| if r == 6 { reasons[r] == 0 } else { reasons[r] > 100 }) && stats.behind > 100, "{reasons:?}, {} with 8", stats.behind);
}

/// Timers in manual mode: whole lists, the end of a pulse in front of the published Rust (oracle/src/board.rs); lists without one-pulse and reload 0, the Rust alone.
#[test]
fn random_lists_in_manual_mode() {
    let mut port = Port::new();
    let mut stats = Stats::default();
    for seed in 0..MANUAL {
        if let Err(f) = manual_list(&mut port, seed, CALLS, &mut stats) {
            panic!("{}", report(&mut port, *f));
        }
    }
    assert!(stats.pulses > 1_000 && stats.again > 200, "{} pulses, {} again", stats.pulses, stats.again);
    assert!(stats.blocked > 1_000, "{} calls of a blocked timer", stats.blocked);
}

/// The safe board gives what the oracle gives, lent a book of its places, and says of each refusal what it is about.
#[test]
fn safe_board() {
    let mut told = [0; 12];
    for (seed, places, manual) in [(1, 4, false), (2, 7, false), (3, 128, true), (4, 1000, false), (5, 3, false)] {
        let gen = Gen::new(seed);
        let (mut gen, mut oracle, mut safe) = (if manual { gen.with_manual(seed) } else { gen }, Board::new(), Safe::new(places));
        let mut known = Known { places, ..Known::default() };
        for _ in 0..20_000 {
            let mut call = gen.step().0;
            if let Some(book) = book_of(&mut call) {
                *book = places as u64;
            }
            let wanted = oracle.call(&call);
            let mut error = None;
            match play(&mut safe, &call, &mut error) {
                Some(answer) => assert_eq!(answer, wanted, "{call}"),
                // What the types leave no room for is a set-up that is refused.
                None => assert_eq!(wanted.number, 1, "{call}"),
            }
            if let Some(e) = error {
                explained(&call, e, &known);
                told[e.number() as usize] += 1;
            }
            match (wanted.number, &call) {
                (0, Call::Setup(s)) => known = Known { places, last: 0, timers: s.timers.len() as u32, pins: s.pins },
                (0 | 8, call) => known.last = cycle_of(call).unwrap_or(known.last),
                _ => {}
            }
        }
    }
    // A number that never came up is not explained either; set-up's limits are rust/tests' matter.
    assert!(told[1..8].iter().chain(&told[11..]).all(|&n| n > 20), "{told:?}");
}

/// What the calls have made of a board.
#[derive(Default)]
struct Known {
    places: usize,
    last: u64,
    timers: u32,
    pins: u32,
}

/// What an error names is what the call and the board have.
fn explained(call: &Call, e: Error, &Known { places, last, timers, pins }: &Known) {
    match (e, call) {
        (Error::WrongBoard(limit), Call::Setup(_)) => assert_ne!(limit, board::Limit::Unknown, "{call}"),
        (Error::BadClock(field), Call::Setup(_)) => assert_eq!(field, board::ClockField::Hz, "{call}"),
        (Error::BadClock(field), Call::Clock { .. }) => assert!(!matches!(field, board::ClockField::Hz | board::ClockField::Unknown), "{call}"),
        (Error::NoSuchIndex(Index::Word(word)), Call::Enable { word: given, .. }) => assert!(word == *given && word > 8, "{call}"),
        (Error::NoSuchIndex(Index::Pin { pin, pins: told }), _) => assert!(Some(pin) == pin_of(call) && told == pins && pin >= pins, "{call}"),
        (Error::NoSuchIndex(Index::Timer { index, timers: told }), _) => {
            assert!(Some(index.0) == timer_of(call) && told == timers && index.0 >= timers, "{call}")
        }
        (Error::BadSize(size), Call::Read { size: given, .. } | Call::Write { size: given, .. }) => {
            assert!(size == *given && ![1, 2, 4].contains(&size), "{call}")
        }
        (Error::CycleAstray { cycle, last: told }, _) => {
            let given = cycle_of(call).or(asked_cycle(call));
            assert!(Some(cycle) == given && told == last && (cycle < last || cycle > 1 << 62), "{call}: {e}, {last}")
        }
        (Error::BookFull { places: told, needed }, _) => {
            let wanted = if matches!(call, Call::ResetPins { .. }) { pins as usize } else { 4 };
            assert!((told, needed) == (places, wanted) && places < wanted, "{call}")
        }
        (Error::SocketTaken { pin }, Call::Pin { pin: given, .. }) => assert!(pin == *given && pin < pins, "{call}"),
        (Error::CounterAstray { offset }, Call::Write { offset: given, .. }) => {
            assert!(offset == *given && [0x00, 0x24, 0x2c].contains(&(offset & !3)), "{call}")
        }
        _ => panic!("{call}: {e:?}"),
    }
}

/// The cycle of a call that changes the board.
fn cycle_of(call: &Call) -> Option<u64> {
    match *call {
        Call::Clock { cycle, .. }
        | Call::Pin { cycle, .. }
        | Call::Drive { cycle, .. }
        | Call::ResetPins { cycle, .. }
        | Call::Write { cycle, .. }
        | Call::Reset { cycle, .. }
        | Call::Deliver { cycle, .. } => Some(cycle),
        _ => None,
    }
}

/// The cycle of one that does not.
fn asked_cycle(call: &Call) -> Option<u64> {
    match *call {
        Call::Read { cycle, .. } | Call::Peek { cycle, .. } | Call::Time { cycle } | Call::Why { cycle, .. } => Some(cycle),
        _ => None,
    }
}

fn timer_of(call: &Call) -> Option<u32> {
    match *call {
        Call::Read { timer, .. }
        | Call::Write { timer, .. }
        | Call::Peek { timer, .. }
        | Call::Reset { timer, .. }
        | Call::Deliver { timer, .. }
        | Call::Booked { timer } => Some(timer),
        _ => None,
    }
}

fn pin_of(call: &Call) -> Option<u32> {
    match *call {
        Call::Pin { pin, .. } | Call::Drive { pin, .. } | Call::Level { pin } | Call::Volts { pin } | Call::Why { pin, .. } => Some(pin),
        _ => None,
    }
}

fn book_of(call: &mut Call) -> Option<&mut u64> {
    match call {
        Call::Pin { book, .. }
        | Call::Drive { book, .. }
        | Call::ResetPins { book, .. }
        | Call::Write { book, .. }
        | Call::Reset { book, .. }
        | Call::Deliver { book, .. } => Some(book),
        _ => None,
    }
}

fn bits(x: f64) -> u64 {
    if x.is_nan() { oracle::board::NAN } else { x.to_bits() }
}

fn answer(r: Result<(u64, &[board::Entry]), Error>) -> Answer {
    let entry = |e: &board::Entry| Entry { pin: e.pin as u16, level: e.level, cycle: e.cycle, source: e.source as u8 };
    match r {
        Ok((value, entries)) => Answer { number: 0, value, entries: entries.iter().map(entry).collect() },
        Err(e) => Answer { number: e.number(), value: 0, entries: Vec::new() },
    }
}

/// A call through the safe board, and its error; `None` if its types cannot say it.
fn play(b: &mut Safe, call: &Call, error: &mut Option<Error>) -> Option<Answer> {
    let error = std::cell::RefCell::new(error);
    let keep = |e: Error| {
        **error.borrow_mut() = Some(e);
        e
    };
    let plain = |r: Result<u64, Error>| Some(answer(r.map(|v| (v, &[][..])).map_err(keep)));
    let noted = |r: Result<&[board::Entry], Error>| Some(answer(r.map(|e| (0, e)).map_err(keep)));
    match *call {
        Call::Setup(ref s) => {
            if s.len != s.pins.wrapping_mul(16) || s.pins > 1000 {
                return None;
            }
            let spec = |t: &oracle::TimerSpec| TimerSpec::new(t.number).width(t.width).channels(t.channels).bus(t.bus).enable(t.word, t.bit).irq(t.irq);
            let mut table = vec![0; s.len as usize];
            s.signals.iter().for_each(|&(i, signal)| table[i as usize] = signal);
            let mut pins = vec![[0; 16]; s.pins as usize];
            for (i, &signal) in table.iter().enumerate() {
                pins[i / 16][i % 16] = u8::try_from(signal).ok()?;
            }
            let timers = s.timers.iter().zip(0..).map(|(t, i)| spec(t).manual(s.manual >> i & 1 != 0)).collect();
            plain(b.set_up(&Setup { hz: f64::from_bits(s.hz), vcc: f64::from_bits(s.vcc), lines: s.lines, timers, pins }).map(|()| 0))
        }
        Call::Clock { sys, hclk, dividers: [ppre1, ppre2, ppre3, ppre4, tim1, tim2], cycle } => {
            let tree = ClockTree { sysclk_hz: f64::from_bits(sys), hclk_hz: f64::from_bits(hclk), ppre1, ppre2, ppre3, ppre4, tim1, tim2 };
            plain(b.set_clock_tree(&tree, cycle).map(|()| 0))
        }
        Call::Enable { word, value } => plain(b.enable(word, value).map(|()| 0)),
        Call::Pin { pin, mode, open_drain, out, pullup, pulldown, function, cycle, .. } => {
            let mode = [Mode::Input, Mode::Output, Mode::Alternate, Mode::Analog].get(mode as usize).copied().unwrap_or_default();
            let yes = |n: u32| n != 0;
            let c = PinConfig { mode, open_drain: yes(open_drain), out: yes(out), pullup: yes(pullup), pulldown: yes(pulldown), function: function as u8 };
            noted(b.set_pin(pin, &c, cycle))
        }
        Call::Drive { pin, kind, volts, cycle, .. } => {
            let drive = [Drive::Nothing, Drive::Low, Drive::High, Drive::Analog(f64::from_bits(volts))][kind as usize];
            noted(b.drive_pin(pin, drive, cycle))
        }
        Call::ResetPins { cycle, .. } => noted(b.reset_pins(cycle)),
        Call::Read { timer, offset, size, cycle } => plain(b.read(TimerIndex(timer), offset, size, cycle).map(u64::from)),
        Call::Write { timer, offset, size, value, cycle, .. } => noted(b.write(TimerIndex(timer), offset, size, value, cycle)),
        Call::Peek { timer, offset, cycle } => plain(b.peek(TimerIndex(timer), offset, cycle).map(u64::from)),
        Call::Reset { timer, cycle, .. } => noted(b.reset(TimerIndex(timer), cycle)),
        Call::Deliver { timer, cycle, .. } => {
            let done = b.deliver(TimerIndex(timer), cycle);
            let backlog = done.is_ok_and(|d| d.backlog);
            let a = answer(done.map(|d| (d.events, d.entries)).map_err(keep));
            Some(Answer { number: if backlog { 8 } else { a.number }, ..a })
        }
        Call::Booked { timer } => plain(b.booked(TimerIndex(timer)).map(|c| c.unwrap_or(u64::MAX))),
        Call::Next => plain(Ok(b.next().unwrap_or(u64::MAX))),
        Call::Level { pin } => plain(b.level(pin).and_then(|level| Ok(u64::from(level) + 2 * b.source(pin)? as u64))),
        Call::Volts { pin } => plain(b.volts(pin).map(bits)),
        Call::Line { irq } => {
            let l = b.line(irq);
            plain(Ok(l.high as u64 + 2 * l.pending as u64))
        }
        Call::Time { cycle } => plain(b.time(cycle).map(bits)),
        Call::Why { pin, cycle } => plain(b.why(pin, cycle).map(|r| r.number().into())),
        Call::Clear { irq } => {
            b.clear_pending(irq);
            plain(Ok(0))
        }
    }
}
