//! The duty report beside a plain Rust loop over the entries. The published Rust has no such report.

use std::hint::black_box;

use board::ffi::{self, FIGURES};
use board::{Entry, PINS};

use crate::table::Row;

/// Entries in a turn: a pilot on each of four pins, 1 kHz at 16 MHz.
const ENTRIES: u64 = 100_000;
const PERIOD: u64 = 16_000;

/// What a server would write: a pin's level, since when, and its figures so far.
#[derive(Clone, Copy, Default)]
struct Pin {
    level: u8,
    last: u64,
    since: u64,
    high: u64,
    edges: u64,
}

/// The plain loop; `None` for a refusal.
fn plain(from: u64, to: u64, entries: &[Entry]) -> Option<[u64; FIGURES]> {
    if to < from {
        return None;
    }
    let mut pins = [Pin { since: from, ..Pin::default() }; PINS];
    for e in entries {
        let p = pins.get_mut(e.pin as usize)?;
        if e.level > 1 || e.cycle < p.last {
            return None;
        }
        p.last = e.cycle;
        if e.level == p.level {
            continue;
        }
        if e.cycle <= from {
            p.level = e.level;
        } else if e.cycle < to {
            p.high += if p.level == 1 { e.cycle - p.since } else { 0 };
            p.since = e.cycle;
            p.edges += 1;
            p.level = e.level;
        }
    }
    let mut figures = [0; FIGURES];
    for (p, f) in pins.iter().zip(figures.chunks_exact_mut(3)) {
        let high = p.high + if p.level == 1 { to - p.since } else { 0 };
        f.copy_from_slice(&[high, to - from - high, p.edges]);
    }
    Some(figures)
}

fn sum(figures: &[u64; FIGURES]) -> u64 {
    figures.iter().enumerate().map(|(i, &f)| f.wrapping_mul(i as u64 + 1)).fold(0, u64::wrapping_add)
}

pub fn rows() -> Vec<Row> {
    let entry = |i: u64| {
        let (pin, edge) = (i % 4, i / 4);
        let cycle = edge / 2 * PERIOD + if edge % 2 == 0 { 0 } else { 1_600 * (1 + 2 * pin) };
        Entry::new(pin as u8, 1 - (edge % 2) as u8, cycle)
    };
    let entries: Vec<Entry> = (0..ENTRIES).map(entry).collect();
    let pins: Vec<u8> = entries.iter().map(|e| e.pin).collect();
    let levels: Vec<u8> = entries.iter().map(|e| e.level).collect();
    let cycles: Vec<u64> = entries.iter().map(|e| e.cycle).collect();
    let (from, to) = (10 * PERIOD, ENTRIES / 8 * PERIOD - 7);
    vec![Row {
        name: "duty report: an entry",
        operations: ENTRIES,
        rust: Box::new(move || sum(&plain(black_box(from), to, black_box(&entries)).expect("in order"))),
        port: Box::new(move || {
            let mut figures = [0; FIGURES];
            let s = ffi::report(&mut figures, &[0; 4], black_box(from), to, black_box(&pins), &levels, &cycles);
            assert_eq!(s.number, 0);
            sum(&figures)
        }),
    }]
}
