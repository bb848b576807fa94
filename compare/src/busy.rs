//! A busy server (document 02, F-13), on the library: a delivery cut into random pieces with few places beside one with many, from the same board.

use std::fmt::{self, Display, Formatter};

use board::ffi::{Book, State};
use oracle::board::LIMIT;
use oracle::gen::Gen;
use oracle::rng::Rng;
use oracle::{Board, Call, Entry};

use crate::port::{Port, MOST};

/// Calls between two tries.
const INTERVAL: u64 = 10;
/// Calls from one seed.
pub const CALLS: u64 = 500;
/// A delivery that takes more pieces than this is not tried.
const PIECES: usize = 400;

/// What the tries reached.
#[derive(Clone, Debug, Default)]
pub struct Stats {
    pub tries: u64,
    pub pieces: u64,
    /// Pieces that stopped for places.
    pub stopped: u64,
    pub events: u64,
    pub entries: u64,
    /// Tries in which a line rose.
    pub rises: u64,
    /// Tries of timers in manual mode.
    pub manual: u64,
    /// Pieces that stopped at the last cycle with another board than the whole leaves: without the condition on the last one the boards differ.
    pub other: u64,
}

/// From the board that `calls` lead to, `pieces` (cycle and places) do not leave what one delivery at the last cycle leaves.
#[derive(Debug)]
pub struct Failure {
    pub seed: u64,
    pub calls: Vec<Call>,
    pub timer: u32,
    pub pieces: Vec<(u64, usize)>,
    pub what: String,
}

impl Display for Failure {
    fn fmt(&self, f: &mut Formatter) -> fmt::Result {
        writeln!(f, "seed {}: {}", self.seed, self.what)?;
        for call in &self.calls {
            writeln!(f, "{call}")?;
        }
        for (cycle, places) in &self.pieces {
            writeln!(f, "deliver {} {cycle} {places}", self.timer)?;
        }
        Ok(())
    }
}

/// What a delivery answers: number, events and entries.
fn deliver(state: &mut State, timer: u32, cycle: u64, places: usize) -> (u32, u64, Vec<Entry>) {
    let (mut pins, mut levels, mut cycles, mut sources) = (vec![0; places], vec![0; places], vec![0; places], vec![0; places]);
    let a = state.deliver(&mut Book { pins: &mut pins, levels: &mut levels, cycles: &mut cycles, sources: &mut sources }, timer, cycle);
    let entry = |i: usize| Entry { pin: pins[i] as u16, level: levels[i], cycle: cycles[i], source: sources[i] };
    (a.number, a.value, (0..a.count as usize).map(entry).collect())
}

/// A cycle up to which some events are due, often many.
fn until(board: &Board, t: usize, rng: &mut Rng) -> u64 {
    let last = board.last();
    let booked = Some(board.booked(t)).filter(|&b| b != u64::MAX).unwrap_or(last);
    let steps = rng.pick(&[1, 3, 10, 40, 200, 1000]);
    let ahead = board.view(t, last).tick.saturating_mul(steps);
    booked.max(last).saturating_add(rng.below(ahead.max(1))).min(LIMIT)
}

/// Tries on the boards of a seed's list, manual mode in every second list.
pub fn list(seed: u64, stats: &mut Stats) -> Result<(), Box<Failure>> {
    let gen = Gen::new(seed);
    let mut gen = if seed.is_multiple_of(2) { gen } else { gen.with_manual(seed) };
    let (mut port, mut rng, mut calls) = (Port::new(), Rng::new(!seed), Vec::new());
    for i in 1..=CALLS {
        let (call, _) = gen.step();
        port.call(&call).unwrap_or_else(|f| panic!("{call}: {f}"));
        calls.push(call);
        let timers = gen.board().specs().len() as u64;
        if i % INTERVAL == 0 && timers > 0 {
            let t = rng.below(timers) as usize;
            let cycle = until(gen.board(), t, &mut rng);
            if let Err((pieces, what)) = cut(port.state(), gen.board(), t, cycle, &mut rng, stats) {
                return Err(Box::new(Failure { seed, calls, timer: t as u32, pieces, what }));
            }
        }
    }
    Ok(())
}

/// One delivery up to `cycle`, whole and in pieces.
fn cut(state: &State, board: &Board, t: usize, cycle: u64, rng: &mut Rng, stats: &mut Stats) -> Result<(), (Vec<(u64, usize)>, String)> {
    let timer = t as u32;
    let mut whole = state.clone();
    let (number, value, entries) = deliver(&mut whole, timer, cycle, MOST as usize);
    if number != 0 {
        return Ok(()); // more events than one delivery handles: nothing is claimed
    }
    let (mut parts, mut events, mut joined) = (state.clone(), 0, Vec::new());
    let (mut pieces, mut now, mut differs) = (Vec::new(), board.last(), false);
    loop {
        // Towards the last cycle, and there again until nothing is due.
        now = if rng.one_in(4) { cycle } else { now + rng.below(cycle - now + 1) };
        let most = rng.pick(&[1, 4, 12, 60]);
        let places = 4 + rng.below(most) as usize;
        pieces.push((now, places));
        let (number, value, book) = deliver(&mut parts, timer, now, places);
        events += value;
        joined.extend(book);
        match number {
            0 if now == cycle => break,
            0 => {}
            8 => {
                stats.stopped += 1;
                differs |= now == cycle && !parts.same(&whole);
            }
            _ => return Err((pieces, format!("a piece was answered {number}"))),
        }
        if pieces.len() > PIECES {
            return Ok(());
        }
    }
    stats.tries += 1;
    stats.pieces += pieces.len() as u64;
    stats.events += value;
    stats.entries += entries.len() as u64;
    stats.other += differs as u64;
    stats.manual += board.is_manual(t) as u64;
    let irq = board.specs()[t].irq;
    stats.rises += (state.line(irq).value & 1 == 0 && whole.line(irq).value & 1 == 1) as u64;
    if joined != entries {
        return Err((pieces, format!("{} entries joined, {} of the whole", joined.len(), entries.len())));
    }
    if events != value {
        return Err((pieces, format!("{events} events in pieces, {value} of the whole")));
    }
    if !parts.same(&whole) {
        let word = parts.words().iter().zip(whole.words()).position(|(a, b)| a != b);
        return Err((pieces, format!("the boards differ in word {word:?}")));
    }
    Ok(())
}
