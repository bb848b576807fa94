//! Random lists of one or two timers through the library, with RM0440's timer as a machine (`oracle::silicon`) beside it:
//! equal on all lists by the port's rules (the Rust's, and those of manual mode), and by the manual's outside the named cases.

use std::fmt::Write;

use oracle::follow::{Follow, Table};
use oracle::gen::Gen;
use oracle::Call;

use crate::port::Port;
use crate::run::CALLS;
use crate::shrink::shrink_by;

/// The list of a seed: with late calls where it is odd, else in time. Where it fails, the list made small, in
/// docs/CALLS.md's format.
pub fn list(port: &mut Port, seed: u64, tables: &mut [Table; 2]) -> Result<(), String> {
    list_of(port, Gen::few_timers(seed, seed.is_multiple_of(2)), seed, tables)
}

/// The same with timers in manual mode.
pub fn manual_list(port: &mut Port, seed: u64, tables: &mut [Table; 2]) -> Result<(), String> {
    list_of(port, Gen::few_timers(seed, seed.is_multiple_of(2)).with_manual(seed), seed, tables)
}

fn list_of(port: &mut Port, mut gen: Gen, seed: u64, tables: &mut [Table; 2]) -> Result<(), String> {
    let table = &mut tables[seed as usize % 2];
    let calls: Vec<Call> = (0..CALLS).map(|_| gen.step().0).collect();
    let Some((i, fault)) = fails(port, &calls, table) else {
        table.lists += 1;
        return Ok(());
    };
    let mut text = format!("seed {seed}, call {}: {fault}\n\n", i + 1);
    let small = shrink_by(&mut |calls| fails(port, calls, &mut Table::default()).map(|(i, _)| i), calls);
    let fault = fails(port, &small, &mut Table::default());
    port.restart();
    for (i, call) in small.iter().enumerate() {
        let answer = port.ask(call).map_or_else(|f| f.to_string(), |a| a.to_string());
        let _ = match &fault {
            Some((at, fault)) if *at == i => writeln!(text, "{call} # {answer} # {fault}"),
            _ => writeln!(text, "{call} # {answer}"),
        };
    }
    Err(text)
}

/// The first call of a list where the library and the machine part, and how.
pub fn fails(port: &mut Port, calls: &[Call], table: &mut Table) -> Option<(usize, String)> {
    port.restart();
    let mut follow = Follow::new();
    calls.iter().enumerate().find_map(|(i, call)| {
        let answer = match port.ask(call) {
            Ok(answer) => answer,
            Err(fault) => return Some((i, fault.to_string())),
        };
        // A fault in a question shows as an answer that is not the machine's.
        let ask = &mut |q: &Call| port.ask(q).unwrap_or(oracle::Answer { number: u8::MAX, value: u64::MAX, entries: Vec::new() });
        follow.step(call, &answer, ask, table).err().map(|fault| (i, fault))
    })
}
