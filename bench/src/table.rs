//! Rows and their timing: the two sides take turns, the best of many turns counts.

use std::time::{Duration, Instant};

/// A side's turn: all of the row's operations, and a sum over what they gave, which must be the other side's too.
pub type Turn = Box<dyn FnMut() -> u64>;

/// The same work on both sides.
pub struct Row {
    pub name: &'static str,
    /// Operations in a turn.
    pub operations: u64,
    pub rust: Turn,
    pub port: Turn,
}

/// Turns and time for each row, at least.
const TURNS: u32 = 15;
const TIME: Duration = Duration::from_millis(1500);

/// Times the rows whose names contain `only` and prints them; false if the two sides of one differ.
pub fn print(title: &str, rows: Vec<Row>, only: &str) -> bool {
    println!("\n| {title} | Rust ns | port ns | port / Rust |\n|---|---:|---:|---:|");
    let mut equal = true;
    for mut row in rows.into_iter().filter(|r| r.name.contains(only)) {
        let (mut rust, mut port) = (f64::INFINITY, f64::INFINITY);
        let start = Instant::now();
        let mut turns = 0;
        while turns < TURNS || start.elapsed() < TIME {
            let (r, sum) = timed(&mut row.rust, row.operations);
            let (p, other) = timed(&mut row.port, row.operations);
            // The first turn warms up.
            if turns > 0 {
                (rust, port) = (rust.min(r), port.min(p));
            }
            if sum != other {
                println!("{}: the two sides differ, {sum} and {other}", row.name);
                equal = false;
                break;
            }
            turns += 1;
        }
        println!("| {} | {} | {} | {:.2} |", row.name, ns(rust), ns(port), port / rust);
    }
    equal
}

fn timed(turn: &mut Turn, operations: u64) -> (f64, u64) {
    let start = Instant::now();
    let sum = turn();
    (start.elapsed().as_nanos() as f64 / operations as f64, sum)
}

fn ns(x: f64) -> String {
    if x < 1000.0 { format!("{x:.1}") } else { format!("{x:.0}") }
}
