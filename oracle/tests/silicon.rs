//! The machine of `silicon` beside the published Rust itself; compare/ has it beside the library.

use std::fs;
use std::path::Path;

use oracle::calls::parse;
use oracle::follow::{Follow, Table};
use oracle::gen::Gen;
use oracle::silicon::cases;
use oracle::{Board, Call};

#[test]
fn random_lists() {
    let mut table = Table::default();
    for seed in 1_000..1_060 {
        let (mut gen, mut follow) = (Gen::few_timers(seed, seed % 2 == 0), Follow::new());
        for k in 0..1_000 {
            let (call, answer) = gen.step();
            if let Err(fault) = follow.step(&call, &answer, &mut |q| gen.ask(q), &mut table) {
                panic!("seed {seed}, call {k}: {call} # {answer} # {fault}");
            }
        }
    }
}

/// Lists of any kind, with short books, far cycles and pins set at will, as far as a machine can be stepped through them.
#[test]
fn wild_lists() {
    let mut table = Table::default();
    for seed in 2_000..2_025 {
        let (mut gen, mut follow) = (Gen::new(seed), Follow::new());
        for k in 0..1_000 {
            let (call, answer) = gen.step();
            if let Err(fault) = follow.step(&call, &answer, &mut |q| gen.ask(q), &mut table) {
                panic!("seed {seed}, call {k}: {call} # {answer} # {fault}");
            }
        }
    }
}

/// The list of each line of docs/DIFFERENCES.md that the machine knows meets its case, and the manual's rule gives another state.
#[test]
fn lists_meet_their_cases() {
    let dir = Path::new(env!("CARGO_MANIFEST_DIR")).join("../docs/differences");
    for name in cases::NAMES {
        let list = fs::read_to_string(dir.join(format!("{name}.calls"))).unwrap_or_else(|e| panic!("{name}: {e}"));
        let (mut board, mut follow, mut table) = (Board::new(), Follow::new(), Table::default());
        let mut calls: Vec<Call> = list.lines().filter_map(|l| parse(l.as_bytes()).unwrap()).collect();
        // What a read at the end saw of steps that are not delivered is compared by delivering them.
        let end = calls.iter().map(|c| if let Call::Read { cycle, .. } | Call::Peek { cycle, .. } = *c { cycle } else { 0 }).max();
        calls.extend(end.filter(|&c| c > 0).map(|cycle| Call::Deliver { timer: 0, cycle, book: 1_000 }));
        for call in calls {
            let answer = board.call(&call);
            if let Err(fault) = follow.step(&call, &answer, &mut |q| board.call(q), &mut table) {
                panic!("{name}: {call} # {answer} # {fault}");
            }
        }
        // The second match of match-again's list sets a flag that is set: the delivery's count alone shows it.
        let [met, differs] = table.met.get(name).copied().unwrap_or_default();
        assert!(met > 0 && (differs > 0 || name == "match-again"), "{name}: {:?}", table.met);
    }
}
