//! docs/DECISIONS.md, "What a server does that wants no 10": on random lists that keep to it no entry's cycle is below that of its pin's
//! entry before it; on lists that deliver before each call and write anywhere in a step some are.

use oracle::calls::parse;
use oracle::rng::Rng;
use oracle::Board;

const STEP: u64 = 10;
const CALLS: usize = 40;

/// Timer 2 with two channels and their pins: compares, modes and direction at random, a step of `psc` + 1 cycles.
fn set_up(rng: &mut Rng, psc: u64) -> Vec<String> {
    let board = "setup 0x416e848000000000 0x4014000000000000 2 8 1 2 32 2 1 3 0 5 32 1 194 17 195";
    let mut list = vec![board.to_string(), "enable 3 1".to_string()];
    list.extend((0..2).map(|pin| format!("pin {pin} 2 0 0 0 0 1 0 4")));
    let (modes, up_or_down) = (rng.pick(&[0x3030, 0x6030, 0x3060, 0x3031, 0x7030]), rng.pick(&[1, 0x11]));
    let (compare, other, count) = (rng.below(8), rng.below(8), rng.below(5));
    let counter = [(0x28, psc), (0x2c, rng.pick(&[4, 6, 9])), (0x14, 1)];
    let channels = [(0x18, modes), (0x20, 0x11), (0x34, compare), (0x38, other), (0x24, count), (0, up_or_down)];
    list.extend(counter.into_iter().chain(channels).map(|(offset, v)| format!("write 0 {offset} 4 {v} 0 4")));
    list
}

/// A register and a value for it.
fn written(rng: &mut Rng) -> (u64, u64) {
    let offset = rng.pick(&[0, 0, 0x14, 0x18, 0x18, 0x18, 0x20, 0x24, 0x2c, 0x2c, 0x34, 0x34, 0x38]);
    let value = match offset {
        0 => rng.pick(&[1, 1, 0x11, 0x11, 0, 9, 0x91, 0x81]),
        0x14 => rng.below(8),
        0x18 => rng.pick(&[0x3030, 0x4030, 0x5030, 0x3050, 0x3040, 0x6030, 0x3160, 0x3031, 0x7070, 0x3838, 0x3830]),
        0x20 => rng.pick(&[0x11, 0x13, 0x31, 0x10]),
        _ => rng.below(12),
    };
    (offset, value)
}

/// How many entries of a random list stand behind a later one of their pin, and how many there are. Writes come at multiples of `every`.
fn astray(seed: u64, psc: u64, every: u64) -> (u64, u64) {
    let (mut rng, mut board, mut cycle) = (Rng::new(seed), Board::new(), 0u64);
    let mut list = set_up(&mut rng, psc);
    for _ in 0..CALLS {
        cycle += rng.below(12);
        let pin = rng.below(2);
        if rng.one_in(4) {
            let level = rng.below(2);
            list.push(format!("deliver 0 {cycle} 1000"));
            list.push(format!("pin {pin} 1 0 {level} 0 0 1 {cycle} 4"));
            list.push(format!("pin {pin} 2 0 0 0 0 1 {cycle} 4"));
        } else {
            cycle = cycle.next_multiple_of(every);
            let (offset, v) = written(&mut rng);
            list.push(format!("deliver 0 {cycle} 1000"));
            list.push(format!("write 0 {offset} 4 {v} {cycle} 4"));
        }
    }
    list.push(format!("deliver 0 {} 1000", cycle + STEP));
    let (mut last, mut behind, mut all) = ([0; 2], 0, 0);
    for line in list {
        let answer = board.call(&parse(line.as_bytes()).unwrap().unwrap());
        assert!(answer.number == 0 || answer.number == 7, "{line}: {}", answer.number);
        for e in answer.entries {
            all += 1;
            behind += (e.cycle < last[e.pin as usize]) as u64;
            last[e.pin as usize] = e.cycle;
        }
    }
    (behind, all)
}

fn sum(psc: u64, every: u64) -> (u64, u64) {
    (0..2_000).map(|seed| astray(seed, psc, every)).fold((0, 0), |a, b| (a.0 + b.0, a.1 + b.1))
}

#[test]
fn delivered_and_written_where_a_step_begins() {
    for (psc, every) in [(0, 1), (STEP - 1, STEP)] {
        let (behind, all) = sum(psc, every);
        assert!(behind == 0 && all > 20_000, "{behind} of {all}");
    }
}

#[test]
fn written_inside_a_step() {
    let (behind, all) = sum(STEP - 1, 1);
    assert!(behind > 20, "{behind} of {all}");
}
