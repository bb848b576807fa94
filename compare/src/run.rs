//! One random list: every call on both, and at intervals everything that can be asked of a board.

use oracle::gen::Gen;
use oracle::rng::Rng;
use oracle::{Board, Call};

use crate::port::{Fault, Port};

/// Calls from one seed.
pub const CALLS: u64 = 1_000;
/// Calls between two full looks.
const INTERVAL: u64 = 50;

pub const KINDS: [&str; 19] = [
    "setup", "clock", "enable", "pin", "drive", "reset-pins", "read", "write", "peek", "reset", "deliver", "booked", "next", "level",
    "volts", "line", "time", "clear", "why",
];

/// The numbers that the board's calls answer.
pub const NUMBERS: [usize; 10] = [0, 1, 2, 3, 4, 5, 6, 7, 8, 11];

/// What the runs reached.
#[derive(Clone, Debug, Default)]
pub struct Stats {
    pub lists: u64,
    pub calls: u64,
    /// Peeks and queries of the full looks, beside the calls.
    pub looks: u64,
    pub events: u64,
    pub entries: u64,
    /// Pulses that ended in manual mode, and those of them that were a timer's second one or a later one.
    pub pulses: u64,
    pub again: u64,
    /// Calls that left a manual timer running and blocked by a reload of 0.
    pub blocked: u64,
    /// Queries why that were told a reason, by reason, and those answered 8.
    pub reasons: [u64; 11],
    pub behind: u64,
    /// By call and number.
    pub answers: [[u64; 12]; KINDS.len()],
}

/// A list from the first board whose last call fails.
#[derive(Clone, Debug)]
pub struct Failure {
    pub seed: u64,
    pub calls: Vec<Call>,
    pub fault: Fault,
}

/// The list of a seed: `n` calls, then a full look.
pub fn list(port: &mut Port, seed: u64, n: u64, stats: &mut Stats) -> Result<(), Box<Failure>> {
    list_of(port, Gen::new(seed), seed, n, stats)
}

/// The same with timers in manual mode: where the seed is odd without one-pulse and reload 0, and held to the published Rust alone.
pub fn manual_list(port: &mut Port, seed: u64, n: u64, stats: &mut Stats) -> Result<(), Box<Failure>> {
    let gen = Gen::new(seed).with_manual(seed);
    list_of(port, if seed.is_multiple_of(2) { gen } else { gen.as_published() }, seed, n, stats)
}

fn list_of(port: &mut Port, mut gen: Gen, seed: u64, n: u64, stats: &mut Stats) -> Result<(), Box<Failure>> {
    port.restart();
    let mut fired = [false; 8];
    let mut rng = Rng::new(!seed);
    let mut calls = Vec::new();
    for i in 1..=n {
        let (call, oracle) = gen.step();
        calls.push(call);
        let call = &calls[calls.len() - 1];
        let answer = match port.call(call) {
            Ok(answer) => answer,
            Err(fault) => return Err(Box::new(Failure { seed, calls, fault })),
        };
        if answer != oracle {
            return Err(Box::new(Failure { seed, calls, fault: Fault::Answer { oracle, port: answer } }));
        }
        stats.answers[kind(call)][answer.number as usize] += 1;
        stats.entries += answer.entries.len() as u64;
        stats.events += if matches!(call, Call::Deliver { .. }) { answer.value } else { 0 };
        match *call {
            Call::Setup(_) if answer.number == 0 => fired = [false; 8],
            // A delivery that handled events found the timer running.
            Call::Deliver { timer, cycle, .. } if answer.value > 0 => {
                let (t, b) = (timer as usize, gen.board());
                if b.is_manual(t) && !b.view(t, cycle).running {
                    stats.pulses += 1;
                    stats.again += std::mem::replace(&mut fired[t], true) as u64;
                }
            }
            _ => {}
        }
        if let Call::Write { timer, cycle, .. } | Call::Deliver { timer, cycle, .. } = *call {
            let (t, b) = (timer as usize, gen.board());
            if answer.number == 0 && b.is_manual(t) {
                let v = b.view(t, cycle);
                stats.blocked += (v.running && v.reload == 0) as u64;
            }
        }
        if i % INTERVAL == 0 || i == n {
            if let Err(asked) = look(&mut gen, port, &mut rng, stats) {
                let (call, fault) = *asked;
                calls.extend(call);
                return Err(Box::new(Failure { seed, calls, fault }));
            }
        }
    }
    stats.lists += 1;
    stats.calls += n;
    Ok(())
}

/// Everything that can be asked of a board; what differs comes back as a call of its own.
fn look(gen: &mut Gen, port: &mut Port, rng: &mut Rng, stats: &mut Stats) -> Result<(), Box<(Option<Call>, Fault)>> {
    for call in questions(gen.board(), rng) {
        let oracle = gen.ask(&call);
        match port.ask(&call) {
            Ok(answer) if answer == oracle => {
                stats.looks += 1;
                match (&call, answer.number) {
                    (Call::Why { .. }, 0) => stats.reasons[answer.value as usize] += 1,
                    (Call::Why { .. }, 8) => stats.behind += 1,
                    _ => {}
                }
            }
            Ok(answer) => return Err(Box::new((Some(call), Fault::Answer { oracle, port: answer }))),
            Err(fault) => return Err(Box::new((Some(call), fault))),
        }
    }
    // One look for all of them; which one it was does not matter to a list.
    port.unchanged().map_err(|fault| Box::new((None, fault)))
}

/// Every register of every timer, every pin, line and booking, and time; of each also the first that is not there.
fn questions(board: &Board, rng: &mut Rng) -> Vec<Call> {
    let (timers, pins, lines) = (board.specs().len() as u32, board.pins() as u32, board.lines());
    let now = board.last();
    let ahead = 1 << rng.below(40);
    let later = (now + rng.below(ahead)).min(1 << 62);
    let mut calls = vec![Call::Next, Call::Time { cycle: now }, Call::Time { cycle: later }];
    for timer in 0..=timers {
        calls.extend((0..=0x44).step_by(4).map(|offset| Call::Peek { timer, offset, cycle: now }));
        calls.push(Call::Peek { timer, offset: 0x24, cycle: later });
        calls.push(Call::Booked { timer });
    }
    calls.extend((0..=pins).flat_map(|pin| [Call::Level { pin }, Call::Volts { pin }, Call::Why { pin, cycle: now }, Call::Why { pin, cycle: later }]));
    calls.extend((0..=lines).map(|irq| Call::Line { irq }));
    calls
}

/// The place of a call in `KINDS`.
pub fn kind(call: &Call) -> usize {
    match call {
        Call::Setup(_) => 0,
        Call::Clock { .. } => 1,
        Call::Enable { .. } => 2,
        Call::Pin { .. } => 3,
        Call::Drive { .. } => 4,
        Call::ResetPins { .. } => 5,
        Call::Read { .. } => 6,
        Call::Write { .. } => 7,
        Call::Peek { .. } => 8,
        Call::Reset { .. } => 9,
        Call::Deliver { .. } => 10,
        Call::Booked { .. } => 11,
        Call::Next => 12,
        Call::Level { .. } => 13,
        Call::Volts { .. } => 14,
        Call::Line { .. } => 15,
        Call::Time { .. } => 16,
        Call::Clear { .. } => 17,
        Call::Why { .. } => 18,
    }
}
