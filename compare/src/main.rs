//! `compare COUNT [SEED]`: at least COUNT random calls through the library and the oracle, from fresh seeds or from SEED on.
//! `compare machine COUNT [SEED]`: the same with the library and RM0440's machine; prints the table of the cases met.
//! `compare manual COUNT [SEED]`, `compare manual machine COUNT [SEED]`: the same with timers in manual mode.
//! `compare duty COUNT [SEED]`: COUNT random books through the duty report and a counter.
//! `compare busy COUNT [SEED]`: deliveries in random pieces beside whole ones, on the boards of COUNT random calls.

use std::collections::hash_map::RandomState;
use std::hash::{BuildHasher, Hasher};
use std::process::ExitCode;
use std::time::{Duration, Instant};

use compare::run::{CALLS, KINDS, NUMBERS};
use compare::{list, manual_list, report, Port, Stats};
use oracle::follow::{report as report_cases, Table};

fn main() -> ExitCode {
    let mut words = std::env::args().skip(1).peekable();
    let duty = words.next_if(|w| w == "duty").is_some();
    let busy = words.next_if(|w| w == "busy").is_some();
    let manual = words.next_if(|w| w == "manual").is_some();
    let machine = words.next_if(|w| w == "machine").is_some();
    let args: Option<Vec<u64>> = words.map(|a| a.parse().ok()).collect();
    let (count, seed) = match args.as_deref() {
        Some(&[count]) => (count, fresh()),
        Some(&[count, seed]) => (count, seed),
        _ => {
            eprintln!("usage: compare [duty | busy | [manual] [machine]] COUNT [SEED]");
            return ExitCode::FAILURE;
        }
    };
    if duty {
        return books(count, seed);
    }
    if busy {
        return pieces(count.div_ceil(compare::busy::CALLS), seed);
    }
    let lists = count.div_ceil(CALLS);
    println!("{lists} lists of {CALLS} calls, seeds {seed} to {}", seed.wrapping_add(lists).wrapping_sub(1));
    let mut port = Port::new();
    let start = Instant::now();
    let mut told = start;
    if machine {
        let mut tables = [Table::default(), Table::default()];
        for i in 0..lists {
            let list = if manual { compare::machine::manual_list } else { compare::machine::list };
            if let Err(failure) = list(&mut port, seed.wrapping_add(i), &mut tables) {
                println!("{failure}");
                return ExitCode::FAILURE;
            }
            if told.elapsed() > Duration::from_secs(30) {
                told = Instant::now();
                println!("{} calls, all equal so far", tables[0].calls + tables[1].calls);
            }
        }
        println!("\n{}\n{:.1} s", report_cases(&tables[0], &tables[1]), start.elapsed().as_secs_f64());
        return ExitCode::SUCCESS;
    }
    let mut stats = Stats::default();
    for i in 0..lists {
        let list = if manual { manual_list } else { list };
        if let Err(failure) = list(&mut port, seed.wrapping_add(i), CALLS, &mut stats) {
            println!("{}", report(&mut port, *failure));
            return ExitCode::FAILURE;
        }
        if told.elapsed() > Duration::from_secs(30) {
            told = Instant::now();
            println!("{} calls, all equal so far", stats.calls);
        }
    }
    print(&stats, start.elapsed());
    ExitCode::SUCCESS
}

fn pieces(lists: u64, seed: u64) -> ExitCode {
    println!("{lists} lists of {} calls, seeds {seed} to {}", compare::busy::CALLS, seed.wrapping_add(lists).wrapping_sub(1));
    let mut s = compare::busy::Stats::default();
    for i in 0..lists {
        if let Err(failure) = compare::busy::list(seed.wrapping_add(i), &mut s) {
            println!("{failure}");
            return ExitCode::FAILURE;
        }
    }
    println!("{} deliveries in {} pieces, {} of them stopped for places: {} events, {} entries, all equal;", s.tries, s.pieces, s.stopped, s.events, s.entries);
    println!("{} raised a line, {} in manual mode; {} differed from the whole where a piece at the last cycle was answered 8", s.rises, s.manual, s.other);
    ExitCode::SUCCESS
}

fn books(count: u64, seed: u64) -> ExitCode {
    println!("{count} books, seeds {seed} to {}", seed.wrapping_add(count).wrapping_sub(1));
    let mut stats = compare::duty::Stats::default();
    let start = Instant::now();
    for i in 0..count {
        if let Err(failure) = compare::duty::book(seed.wrapping_add(i), &mut stats) {
            println!("{failure}");
            return ExitCode::FAILURE;
        }
    }
    let [served, reversed, out_of_order] = stats.numbers;
    println!("{} books, {} entries, {} edges, all equal at once and in pieces;", stats.books, stats.entries, stats.edges);
    println!("{served} served, {reversed} with 9, {out_of_order} with 10. {:.1} s", start.elapsed().as_secs_f64());
    ExitCode::SUCCESS
}

/// A seed that no run has had.
fn fresh() -> u64 {
    RandomState::new().build_hasher().finish() >> 16
}

fn print(s: &Stats, took: Duration) {
    println!("\n{:>12}{}", "", NUMBERS.map(|n| format!("{n:>11}")).concat());
    for (name, numbers) in KINDS.iter().zip(&s.answers) {
        let cell = |n: &u64| if *n == 0 { format!("{:>11}", ".") } else { format!("{n:>11}") };
        println!("{name:>12}{}", NUMBERS.map(|n| cell(&numbers[n])).concat());
    }
    println!("\n{} calls in {} lists, {} events, {} entries, all equal;", s.calls, s.lists, s.events, s.entries);
    println!("{} peeks and queries besides, all equal;", s.looks);
    println!("of them why, by reason from 0 to 10: {:?}, and {} with 8;", s.reasons, s.behind);
    println!("{} pulses ended in manual mode, {} of them a timer's second or later. {:.1} s", s.pulses, s.again, took.as_secs_f64());
}
