//! Manual mode (document 02, F-2, F-6 and F-11): lists with known answers through the library, the oracle's board and the machine.

use compare::machine::fails;
use compare::Port;
use oracle::calls::parse;
use oracle::follow::Table;
use oracle::{Board, Call};

fn calls(text: &str) -> Vec<Call> {
    text.lines().filter_map(|l| parse(l.as_bytes()).unwrap_or_else(|e| panic!("{l}: {e}"))).collect()
}

/// The answers to a list, the same of the library and of the oracle; the machine has followed it, over so many pulses.
fn answers(list: &str, pulses: u64) -> Vec<String> {
    let (calls, mut port, mut board, mut table) = (calls(list), Port::new(), Board::new(), Table::default());
    assert_eq!(fails(&mut port, &calls, &mut table), None);
    assert_eq!(table.pulses, pulses);
    port.restart();
    let mut answer = |call: &Call| {
        let told = port.call(call).unwrap_or_else(|f| panic!("{call}: {f}"));
        assert_eq!(told, board.call(call), "{call}");
        told.to_string()
    };
    calls.iter().map(&mut answer).collect()
}

/// Readings 18 to 24, and 25 below: each question of their lists has its answer. Those of the other readings are of requests to come.
#[test]
fn readings() {
    let mut asked = 0;
    for list in include_str!("../../oracle/tests/manual-mode.calls").split("\n\n").filter(|l| (18..25).any(|n| l.starts_with(&format!("# {n} ")))) {
        let lines = list.lines().filter(|l| !l.starts_with('#'));
        for (line, answer) in lines.zip(answers(list, 0)) {
            if let Some((_, wanted)) = line.split_once('#') {
                asked += 1;
                assert_eq!(answer, wanted.trim(), "{list}\n{line}");
            }
        }
    }
    assert_eq!(asked, 16);
}

/// Timer 2 in manual mode, one channel, 1 cycle a step.
const SET_UP: &str = "setup 0x416e848000000000 0x400a666666666666 1 8 1 2 32 1 1 3 0 0 16 1 194 manual 1\nenable 3 1\n";

/// The lines' answers behind `#`, of the library, the oracle and the machine.
fn told(list: &str) {
    let list = format!("{SET_UP}{list}");
    for (line, answer) in list.lines().zip(answers(&list, 0)) {
        if let Some((_, wanted)) = line.split_once('#') {
            assert_eq!(answer, wanted.trim(), "{line}");
        }
    }
}

/// Reading 13 edge-aligned, and 25: a blocked counter keeps its number, books nothing, and ends no pulse.
#[test]
fn blocked() {
    for cr1 in [1, 9] {
        told(&format!(
            "write 0 0x34 4 9 0 4\nwrite 0 0x2c 4 4 0 4\nwrite 0 0 4 {cr1} 0 4\nwrite 0 0x2c 4 0 2 4\npeek 0 0x24 50 # 0 2 0\n\
             booked 0 # 0 18446744073709551615 0\nnext # 0 18446744073709551615 0\ndeliver 0 50 4 # 0 0 0\npeek 0 0 50 # 0 {cr1} 0\n\
             write 0 0x24 4 0 50 4 # 0 0 0\nwrite 0 0x2c 4 4 60 4 # 0 0 0\nbooked 0 # 0 65 0"
        ));
    }
}

/// Reading 25: UDIS goes before one-pulse. The wrap is an event, CEN stays, the next event is booked; clearing UDIS lets the next update end the pulse. With
/// the mode off the Rust's stop remains.
#[test]
fn update_disable() {
    let list = "write 0 0x34 4 99 0 4\nwrite 0 0x2c 4 9 0 4\nwrite 0 0 4 11 0 4\ndeliver 0 10 4\npeek 0 0 10\nbooked 0\npeek 0 0x24 13\nwrite 0 0 4 9 13 4\ndeliver 0 20 4\npeek 0 0 20\nbooked 0";
    let asked = |list: &str, pulses| answers(list, pulses)[5..].join(", ");
    assert_eq!(asked(&format!("{SET_UP}{list}"), 1), "0 1 0, 0 11 0, 0 20 0, 0 3 0, 0 0 0, 0 1 0, 0 8 0, 0 18446744073709551615 0");
    let off = SET_UP.replace(" manual 1", "");
    assert_eq!(asked(&format!("{off}{list}"), 0), "0 1 0, 0 11 0, 0 18446744073709551615 0, 0 0 0, 0 0 0, 0 0 0, 0 9 0, 0 18446744073709551615 0");
}

/// A stop and a start while it is blocked, a change of the clock, and EGR's update, which works.
#[test]
fn blocked_calls() {
    told(
        "write 0 0x28 4 9 0 4\nwrite 0 0x2c 4 9 0 4\nwrite 0 0x14 4 1 0 4\nwrite 0 0 4 1 0 4\nwrite 0 0x2c 4 0 25 4\n\
         clock 0x416e848000000000 0x416e848000000000 1 1 1 1 2 1 33\npeek 0 0x24 40 # 0 2 0\nwrite 0 0 4 0 44 4\nwrite 0 0 4 1 51 4\n\
         booked 0 # 0 18446744073709551615 0\nwrite 0 0x2c 4 9 57 4\npeek 0 0x24 76 # 0 2 0\npeek 0 0x24 77 # 0 3 0\nbooked 0 # 0 217 0\n\
         write 0 0x2c 4 0 80 4\nwrite 0 0x10 4 0 80 4\nwrite 0 0x14 4 1 83 4\npeek 0 0x10 83 # 0 1 0\npeek 0 0x24 83 # 0 0 0\nbooked 0 # 0 18446744073709551615 0",
    );
}

/// The post's program that holds its timer: nothing is booked, a delivery handles no event. Without manual mode an update comes at each step.
#[test]
fn held() {
    let list = include_str!("../../examples/held.calls");
    assert_eq!(answers(list, 0), include_str!("../../examples/held.answers").lines().collect::<Vec<_>>());
}

/// The lock actuator: three pulses, and CEN is 0 after each.
#[test]
fn actuator() {
    let list = include_str!("../../examples/actuator.calls");
    let told = answers(list, 3);
    assert_eq!(told, include_str!("../../examples/actuator.answers").lines().collect::<Vec<_>>());
    let ends = calls(list).into_iter().zip(&told).filter(|(call, answer)| matches!(call, Call::Deliver { .. }) && answer.contains("0:0@"));
    assert_eq!(ends.count(), 3);
    // Without manual mode the first pulse is the only one.
    let plain = answers(&list.replace(" manual 1", ""), 0);
    assert_eq!(plain.iter().map(|a| a.matches('@').count()).sum::<usize>(), 2);
}
