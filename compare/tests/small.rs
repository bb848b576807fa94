//! The test desk's run (document 02, F-9): every small pilot on a board, through late deliveries. Each answer is the published Rust's; and the record of
//! those that demand 3 speaks of, mode 6 and upward, is held to its bound by counting, in every window.

use board::{OutputMode, SmallPilot, SmallPilots};
use compare::Port;
use oracle::rng::Rng;
use oracle::{small, Board, Call, Entry, Setup, TimerSpec};

const START: u64 = 100;

/// A place for every entry of the last delivery.
const ROOM: u64 = 4096;

/// What a run met.
#[derive(Debug, Default)]
struct Figures {
    pilots: u64,
    calls: u64,
    backlogs: u64,
    entries: u64,
    /// Of those in mode 6, upward: how many, their windows, and the windows in which no smaller bound would do.
    bounded: u64,
    windows: u64,
    reached: u64,
}

fn write(offset: u32, value: u32, cycle: u64) -> Call {
    Call::Write { timer: 0, offset, size: 4, value, cycle, book: 4 }
}

fn deliver(cycle: u64, book: u64) -> Call {
    Call::Deliver { timer: 0, cycle, book }
}

/// TIM2 behind a divider, its channel 1 on pin 0, with the pilot's setting; the last call starts it.
fn started(p: &SmallPilot, divider: u32) -> Vec<Call> {
    let (hz, dir) = (16e6f64.to_bits(), (p.down as u32) << 4);
    let tim2 = TimerSpec { number: 2, width: 32, channels: 4, bus: 1, word: 3, bit: 0, irq: 0 };
    let set_up = Setup { hz, vcc: 3.3f64.to_bits(), pins: 1, lines: 8, timers: vec![tim2], len: 16, signals: vec![(1, 194)], manual: 0 };
    vec![
        Call::Setup(set_up),
        Call::Clock { sys: hz, hclk: hz, dividers: [1, 1, 1, 1, divider, 1], cycle: 0 },
        Call::Enable { word: 3, value: 1 },
        Call::Pin { pin: 0, mode: 2, open_drain: 0, out: 0, pullup: 0, pulldown: 0, function: 1, cycle: 0, book: 4 },
        write(0x00, dir, 0),
        write(0x28, p.prescaler, 0),
        write(0x2c, p.reload, 0),
        write(0x34, p.compare, 0),
        write(0x14, 1, 0),
        write(0x18, (p.mode as u32) << 4, 0),
        write(0x20, 1, 0),
        write(0x00, dir | 1, START),
    ]
}

/// Deliveries up to the last cycle, as late as it comes, with books that are often too short, and calls between that a steady pilot may get.
fn late(rng: &mut Rng, period: u64, last: u64) -> Vec<Call> {
    let mut calls = Vec::new();
    let mut cycle = START;
    loop {
        cycle += rng.below(3 * period + 8);
        if cycle >= last {
            calls.push(deliver(last, ROOM));
            return calls;
        }
        let book = rng.pick(&[0, 4, 5, 7, 16, ROOM]);
        calls.push(deliver(cycle, book));
        calls.push(match rng.below(5) {
            0 => Call::Read { timer: 0, offset: 0x24, size: 4, cycle },
            1 => Call::Read { timer: 0, offset: 0x10, size: 2, cycle },
            2 => write(0x10, 0, cycle),
            3 => write(0x0c, rng.small(4), cycle),
            _ => Call::Booked { timer: 0 },
        });
    }
}

/// Both sides make a call; the answer is one.
fn both(port: &mut Port, rust: &mut Board, call: &Call, f: &mut Figures) -> oracle::Answer {
    let answer = rust.call(call);
    assert_eq!(port.call(call), Ok(answer.clone()), "{call}");
    f.calls += 1;
    f.backlogs += (answer.number == 8) as u64;
    f.entries += answer.entries.len() as u64;
    answer
}

/// Document 01's reading of a record: the level at a cycle is that of the last entry at or before it, in order, else the one before all. The high
/// cycles before each cycle.
fn highs(before: u8, entries: &[Entry], end: u64) -> Vec<u64> {
    let mut levels = vec![before; end as usize];
    for e in entries {
        levels[e.cycle as usize..].fill(e.level);
    }
    let mut sums = vec![0];
    levels.iter().for_each(|&l| sums.push(sums.last().unwrap() + l as u64));
    sums
}

/// Demand 3: "H × P and W × D at most D × (P − D) apart", in every window from the first update to the last full delivery.
fn hold(p: &SmallPilot, step: u64, sums: &[u64], last: u64, f: &mut Figures) {
    let (period, high) = (step * (p.reload as u64 + 1), step * p.compare.min(p.reload + 1) as u64);
    let bound = high * (period - high);
    f.bounded += 1;
    for from in START + period..=last {
        for to in from..=last + 1 {
            let h = sums[to as usize] - sums[from as usize];
            let apart = (h * period).abs_diff((to - from) * high);
            assert!(apart <= bound, "{p:?}, a step of {step}: {h} high cycles from {from} to {to}");
            f.windows += 1;
            f.reached += (apart == bound && bound > 0) as u64;
        }
    }
}

fn every_pilot(n: u32, span: u64) -> Figures {
    let (mut port, mut f, last) = (Port::new(), Figures::default(), START + span);
    let pilots = SmallPilots::new(n).unwrap();
    assert_eq!(pilots.clone().map(|p| [p.reload, p.prescaler, p.compare, p.mode as u32, p.down as u32]).collect::<Vec<_>>(), small::pilots(n));
    for (k, p) in pilots.enumerate() {
        for divider in [1, 3] {
            let mut rng = Rng::new(k as u64 * 4 + divider as u64);
            let mut rust = Board::new();
            port.restart();
            for call in started(&p, divider) {
                let answer = both(&mut port, &mut rust, &call, &mut f);
                assert_eq!(answer.number, 0, "{call}");
            }
            // The query gives level + 2 × source.
            let before = (both(&mut port, &mut rust, &Call::Level { pin: 0 }, &mut f).value % 2) as u8;
            let step = (p.prescaler as u64 + 1) * divider as u64;
            let mut entries = Vec::new();
            let mut number = 0;
            for call in late(&mut rng, step * (p.reload as u64 + 1), last) {
                let answer = both(&mut port, &mut rust, &call, &mut f);
                number = answer.number;
                entries.extend(answer.entries);
            }
            assert_eq!(number, 0, "{p:?}: the last delivery");
            if p.mode == OutputMode::Pwm1 && !p.down {
                assert!(p.has_bound());
                hold(&p, step, &highs(before, &entries, last + 1), last, &mut f);
            }
            f.pilots += 1;
        }
    }
    f
}

#[test]
fn every_pilot_up_to_3() {
    let f = every_pilot(3, 600);
    assert_eq!((f.pilots, f.bounded), (2 * 320, 2 * 80));
    // A record that is never late, empty or at the bound would show little.
    assert!(f.entries > 20_000 && f.backlogs > 1000 && f.reached > 100_000, "{f:?}");
}

/// Not for the gate: `cargo test --release --offline --test small -- --ignored --nocapture` prints what it met.
#[test]
#[ignore]
fn every_pilot_up_to_7() {
    let f = every_pilot(7, 1500);
    assert_eq!((f.pilots, f.bounded), (2 * 2304, 2 * 576));
    println!("{f:?}");
}
