//! The fixed sample of /samples: short lists, chosen so that between them every call gives every number it can, every
//! register is read and written, and so on. Replayed wherever no Rust is at hand.

use std::collections::BTreeMap;
use std::fmt::Write as _;
use std::path::Path;
use std::{fs, io};

use crate::gen::Gen;
use crate::{Answer, Call};

const LISTS: usize = 40;
const CALLS: usize = 100;
/// Seeds to choose from.
const SEEDS: u64 = 10_000;
/// Bytes of a list with its answers.
const LONGEST: usize = 24_000;

/// A list with its answers, as text.
pub struct Sample {
    pub calls: String,
    pub answers: String,
    /// What it shows.
    shows: Vec<usize>,
}

/// Writes the lists to DIR/01.calls and so on. Only the first meets the first board: each other begins with a set-up
/// that is served, so that all of them may also be replayed as one list.
pub fn write(dir: &Path) -> io::Result<()> {
    fs::create_dir_all(dir)?;
    for (i, s) in (1..).zip(choose()) {
        fs::write(dir.join(format!("{i:02}.calls")), s.calls)?;
        fs::write(dir.join(format!("{i:02}.answers")), s.answers)?;
    }
    Ok(())
}

/// The chosen lists: each time the one that shows most of what was seldom shown.
pub fn choose() -> Vec<Sample> {
    let mut names = BTreeMap::new();
    let mut from: Vec<Sample> = (1..=SEEDS).filter_map(|seed| sample(seed, true, &mut names)).collect();
    let first = (1..=SEEDS).filter_map(|seed| sample(seed, false, &mut names)).next();
    let mut chosen: Vec<Sample> = first.into_iter().collect();
    let mut shown = vec![0u64; names.len()];
    // The numbers come first.
    let mut weight = vec![1_000_000; names.len()];
    names.iter().filter(|(name, _)| name.starts_with('!')).for_each(|(_, &x)| weight[x] *= 100);
    while chosen.len() < LISTS {
        for &x in chosen.last().iter().flat_map(|s| &s.shows) {
            shown[x] += 1;
        }
        let worth = |s: &Sample| s.shows.iter().map(|&x| weight[x] / (1 + shown[x]).pow(3)).sum::<u64>();
        let Some(best) = (0..from.len()).max_by_key(|&i| worth(&from[i])) else { break };
        chosen.push(from.swap_remove(best));
    }
    chosen
}

fn sample(seed: u64, from_set_up: bool, names: &mut BTreeMap<String, usize>) -> Option<Sample> {
    let mut gen = Gen::new(seed);
    let mut s = Sample { calls: String::new(), answers: String::new(), shows: Vec::new() };
    let mut n = 0;
    while n < CALLS {
        let (call, answer) = gen.step();
        let begins = matches!((&call, answer.number), (Call::Setup(_), 0));
        if n == 0 && from_set_up != begins {
            // The first list must meet the first board, the others must not.
            if !from_set_up {
                return None;
            }
            continue;
        }
        for name in shows(&call, &answer) {
            let next = names.len();
            let x = *names.entry(name).or_insert(next);
            if !s.shows.contains(&x) {
                s.shows.push(x);
            }
        }
        n += 1;
        let _ = writeln!(s.calls, "{call}");
        let _ = writeln!(s.answers, "{answer}");
        if s.calls.len() + s.answers.len() > LONGEST {
            return None;
        }
    }
    Some(s)
}

/// What a call and its answer show.
fn shows(call: &Call, answer: &Answer) -> Vec<String> {
    let text = call.to_string();
    let word = text.split(' ').next().unwrap_or_default();
    let served = matches!(answer.number, 0 | 8);
    let mut v = vec![format!("!{word} {}", answer.number)];
    if served && !answer.entries.is_empty() {
        v.push(format!("{word} makes {}", answer.entries.len().min(6)));
    }
    match *call {
        Call::Setup(ref s) if served => {
            v.push(format!("!setup of {} timers", s.timers.len()));
            v.push(format!("!setup of {} lines", if s.lines > 239 { s.lines } else { s.lines.min(1) }));
            v.push(format!("!setup of {} pins", if s.pins > 63 { s.pins } else { s.pins / 32 }));
            v.extend(s.timers.iter().map(|t| format!("timer of {} {}", t.width, t.channels)));
        }
        // Offsets beyond the registers are all alike.
        Call::Read { offset, size, .. } if served => v.push(format!("read {} {size} {}", offset.min(0x44), answer.value != 0)),
        Call::Write { offset, size, .. } if served => v.push(format!("write {} {size}", offset.min(0x44))),
        Call::Peek { offset, .. } if served => v.push(format!("peek {} {}", offset.min(0x44), answer.value != 0)),
        Call::Pin { mode, open_drain, .. } if served => v.push(format!("pin {} {}", mode.min(4), open_drain != 0)),
        Call::Drive { kind, .. } if served => v.push(format!("drive {kind}")),
        Call::Deliver { .. } if served => {
            v.push(format!("deliver {} of {}", answer.number, answer.value.min(6)));
            if answer.value > 100_000 {
                v.push(format!("!deliver {} of all", answer.number));
            }
        }
        Call::Booked { .. } | Call::Next => v.push(format!("{word} {}", answer.value == u64::MAX)),
        Call::Level { .. } | Call::Line { .. } => v.push(format!("{word} {}", answer.value)),
        Call::Volts { .. } => v.push(format!("volts {}", f64::from_bits(answer.value).is_nan())),
        _ => {}
    }
    v
}
