//! The rows. Both sides of a row make the same calls at the same cycles, turn after turn.

use std::hint::black_box;

use mcs_sim::arm::bus::Mmio;
use mcs_sim::arm::sys::PinCfg;
use mcs_sim::pins::ExtDrive;

use crate::sides::{instances, table, Port, Rust, HZ, LINES, PINS, TIMERS, VCC};
use crate::table::Row;

const CR1: u32 = 0x00;
const DIER: u32 = 0x0c;
const CCMR1: u32 = 0x18;
const CCMR2: u32 = 0x1c;
const CCER: u32 = 0x20;
const CNT: u32 = 0x24;
const PSC: u32 = 0x28;
const ARR: u32 = 0x2c;
const CCR1: u32 = 0x34;
const EGR: u32 = 0x14;

/// Calls in a turn.
const CALLS: u64 = 20_000;
/// What a delivery handles at most.
const EVENTS: u64 = 100_001;
/// A pilot's period in cycles: 1 kHz.
const PERIOD: u64 = 16_000;

/// What a program writes for four pilots on timer 2.
fn pilots(prescaler: u32) -> [(u32, u32); 11] {
    [
        (PSC, prescaler),
        (ARR, 999),
        (CCMR1, 0x6060),
        (CCMR2, 0x6060),
        (CCR1, 100),
        (CCR1 + 4, 300),
        (CCR1 + 8, 500),
        (CCR1 + 12, 700),
        (CCER, 0x1111),
        (EGR, 1),
        (CR1, 1),
    ]
}

/// A board of the published Rust with four running pilots on pins 0 to 3.
pub fn rust(prescaler: u32) -> Rust {
    let mut b = Rust::new(&instances(), &table());
    b.sys.enr[3] = u32::MAX;
    for pin in 0..4 {
        b.sys.pcfg[pin] = PinCfg { mode: 2, ..PinCfg::default() };
        b.sys.select_af(pin, 1);
        b.sys.refresh_pin(pin, 0);
    }
    for (offset, value) in pilots(prescaler) {
        b.at(0, 0, |t, cx| t.write(offset, 4, value, cx));
    }
    b.sys.changed.clear();
    b
}

/// The same board of the port.
pub fn port(prescaler: u32, places: usize) -> Port {
    let mut b = Port::new(places);
    assert_eq!(b.state.enable(3, u32::MAX).number, 0);
    for pin in 0..4 {
        assert_eq!(b.lend(|s, book| s.set_pin(book, pin, 2, 0, 0, 0, 0, 1, 0)).number, 0);
    }
    for (offset, value) in pilots(prescaler) {
        assert_eq!(b.lend(|s, book| s.write(book, 0, offset, 4, value, 0)).number, 0);
    }
    b
}

pub fn calls() -> Vec<Row> {
    vec![
        read_cnt(),
        write("write CCR1", CCR1, [300, 301]),
        write("write DIER", DIER, [0, 1]),
        write("write CR1", CR1, [0x81, 0x01]),
        deliver_half(),
        deliver_many(),
        drive_pin(),
        set_pin(),
        set_up(),
        ninety_boards(),
    ]
}

fn read_cnt() -> Row {
    let (mut r, p) = (rust(15), port(15, 64));
    let (mut now, mut then) = (0, 0);
    Row {
        name: "read CNT",
        operations: CALLS,
        rust: Box::new(move || {
            let mut sum = 0;
            for _ in 0..CALLS {
                now += 37;
                sum += r.at(0, now, |t, cx| t.read(black_box(CNT), 4, cx)) as u64;
            }
            sum
        }),
        port: Box::new(move || {
            let mut sum = 0;
            for _ in 0..CALLS {
                then += 37;
                sum += p.state.read(0, black_box(CNT), 4, then).value;
            }
            sum
        }),
    }
}

fn write(name: &'static str, offset: u32, values: [u32; 2]) -> Row {
    let (mut r, mut p) = (rust(15), port(15, 64));
    let (mut now, mut then) = (0, 0);
    Row {
        name,
        operations: CALLS,
        rust: Box::new(move || {
            let mut sum = 0;
            for i in 0..CALLS {
                now += 37;
                r.sys.changed.clear();
                r.at(0, now, |t, cx| t.write(black_box(offset), 4, values[i as usize % 2], cx));
                sum += r.sys.changed.len() as u64;
            }
            sum
        }),
        port: Box::new(move || {
            let mut sum = 0;
            for i in 0..CALLS {
                then += 37;
                sum += p.lend(|s, book| s.write(book, 0, black_box(offset), 4, values[i as usize % 2], then)).count as u64;
            }
            sum
        }),
    }
}

fn deliver_half() -> Row {
    let (mut r, mut p) = (rust(15), port(15, 64));
    let (mut now, mut then) = (0, 0);
    Row {
        name: "delivery, half an event due on average",
        operations: CALLS,
        rust: Box::new(move || {
            let mut sum = 0;
            for _ in 0..CALLS {
                now += PERIOD / 10; // five events in a period
                r.sys.changed.clear();
                r.at(0, now, |t, cx| t.on_event(0, cx));
                sum += r.sys.changed.iter().map(|e| e.2).sum::<u64>();
            }
            sum
        }),
        port: Box::new(move || {
            let mut sum = 0;
            for _ in 0..CALLS {
                then += PERIOD / 10;
                sum += p.lend(|s, book| {
                    let a = s.deliver(book, 0, then);
                    book.cycles[..a.count as usize].iter().sum::<u64>()
                });
            }
            sum
        }),
    }
}

fn deliver_many() -> Row {
    const FAR: u64 = 1 << 61;
    let (mut r, mut p) = (rust(0), port(0, 4 * EVENTS as usize + 4));
    Row {
        name: "delivery of 100,001 events, four pilots: an event",
        operations: EVENTS,
        rust: Box::new(move || {
            r.sys.changed.clear();
            r.at(0, FAR, |t, cx| t.on_event(0, cx));
            r.sys.changed.last().map_or(0, |e| e.2) + r.sys.changed.len() as u64
        }),
        port: Box::new(move || {
            p.lend(|s, book| {
                let a = s.deliver(book, 0, FAR);
                assert_eq!((a.number, a.value), (8, EVENTS));
                book.cycles[a.count as usize - 1] + a.count as u64
            })
        }),
    }
}

fn drive_pin() -> Row {
    let (mut r, mut p) = (rust(15), port(15, 64));
    let (mut now, mut then) = (0, 0);
    Row {
        name: "drive a pin from outside",
        operations: CALLS,
        rust: Box::new(move || {
            let mut sum = 0;
            for i in 0..CALLS {
                now += 1;
                r.sys.changed.clear();
                r.sys.pins[20].ext = if i % 2 == 0 { ExtDrive::High } else { ExtDrive::Low };
                r.sys.update_pin(black_box(20), now);
                sum += r.sys.changed.len() as u64;
            }
            sum
        }),
        port: Box::new(move || {
            let mut sum = 0;
            for i in 0..CALLS {
                then += 1;
                let kind = if i % 2 == 0 { 2 } else { 1 };
                sum += p.lend(|s, book| s.drive_pin(book, black_box(20), kind, 0.0, then)).count as u64;
            }
            sum
        }),
    }
}

/// By turns on a channel of timer 3 and a plain output that is high.
fn set_pin() -> Row {
    let (mut r, mut p) = (rust(15), port(15, 64));
    let (mut now, mut then) = (0, 0);
    Row {
        name: "set a pin",
        operations: CALLS,
        rust: Box::new(move || {
            let mut sum = 0;
            for i in 0..CALLS {
                now += 1;
                r.sys.changed.clear();
                let pin = black_box(4);
                r.sys.pcfg[pin] = PinCfg { mode: 1 + (i % 2) as u8, odr: 1, ..PinCfg::default() };
                r.sys.select_af(pin, 1);
                r.sys.refresh_pin(pin, now);
                sum += r.sys.changed.len() as u64;
            }
            sum
        }),
        port: Box::new(move || {
            let mut sum = 0;
            for i in 0..CALLS {
                then += 1;
                sum += p.lend(|s, book| s.set_pin(book, black_box(4), 1 + (i % 2) as u32, 0, 1, 0, 0, 1, then)).count as u64;
            }
            sum
        }),
    }
}

fn set_up() -> Row {
    const SET_UPS: u64 = 50;
    let (instances, signals) = (instances(), table());
    let mut r = Rust::new(&instances, &signals);
    let (mut p, timers, entries) = (port(15, 64), TIMERS.concat(), table());
    Row {
        name: "set up: 4 timers, 32 pins",
        operations: SET_UPS,
        rust: Box::new(move || {
            for _ in 0..SET_UPS {
                r = black_box(Rust::new(black_box(&instances), &signals));
            }
            r.tree().tim1 as u64
        }),
        port: Box::new(move || {
            let served = |s: &mut Port| s.state.set_up(HZ, VCC, PINS as u32, LINES, black_box(&timers), &entries).number == 0;
            (0..SET_UPS).all(|_| served(&mut p)) as u64
        }),
    }
}

/// Every millisecond, on each board: a delivery and a look at the counter.
fn ninety_boards() -> Row {
    let mut r: Vec<Rust> = (0..90).map(|_| rust(15)).collect();
    let mut p: Vec<Port> = (0..90).map(|_| port(15, 64)).collect();
    let (mut now, mut then) = (0, 0);
    Row {
        name: "90 boards, one second polled every ms: the whole",
        operations: 1,
        rust: Box::new(move || {
            let mut sum = 0;
            for _ in 0..1000 {
                now += PERIOD;
                for b in &mut r {
                    b.sys.changed.clear();
                    b.at(0, now, |t, cx| t.on_event(0, cx));
                    sum += b.sys.changed.len() as u64 + b.at(0, now, |t, cx| t.read(CNT, 4, cx)) as u64;
                }
            }
            sum
        }),
        port: Box::new(move || {
            let mut sum = 0;
            for _ in 0..1000 {
                then += PERIOD;
                for b in &mut p {
                    sum += b.lend(|s, book| s.deliver(book, 0, then)).count as u64 + b.state.read(0, CNT, 4, then).value;
                }
            }
            sum
        }),
    }
}
