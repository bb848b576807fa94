//! Two timers on one interrupt (document 02, F-7): the library beside the oracle's board, whose shared lines follow every timer's latest `set_line`.

use compare::Port;
use oracle::calls::parse;
use oracle::{Board, Call};

/// The answers to a list, the same of the library and of the oracle.
fn answers(list: &str) -> Vec<String> {
    let calls = list.lines().filter_map(|l| parse(l.as_bytes()).unwrap_or_else(|e| panic!("{l}: {e}")));
    let (mut port, mut board) = (Port::new(), Board::new());
    let mut answer = |call: Call| {
        let told = port.call(&call).unwrap_or_else(|f| panic!("{call}: {f}"));
        assert_eq!(told, board.call(&call), "{call}");
        told.to_string()
    };
    calls.map(&mut answer).collect()
}

/// The cabinet board's list, and what its lines show.
#[test]
fn cabinet() {
    let list = include_str!("../../examples/cabinet.calls");
    let told = answers(list);
    assert_eq!(told, include_str!("../../examples/cabinet.answers").lines().collect::<Vec<_>>());
    let calls = list.lines().filter(|l| !l.starts_with('#'));
    let lines = calls.zip(&told).filter(|(call, _)| call.starts_with("line 5")).map(|(_, answer)| answer.as_str());
    assert_eq!(lines.collect::<Vec<_>>(), ["0 0 0", "0 3 0", "0 3 0", "0 1 0", "0 1 0", "0 1 0", "0 0 0", "0 3 0", "0 3 0", "0 2 0"]);
}

/// Every way of two timers on one line: requests made, taken back, cleared and reset, in lists of four steps.
#[test]
fn every_short_list() {
    let steps = ["write 0 0xc 4 1 0 4", "write 0 0xc 4 0 0 4", "write 1 0xc 4 1 0 4", "write 1 0xc 4 0 0 4", "reset 0 0 4", "reset 1 0 4", "clear 7", "write 0 0x10 4 0 0 4", "write 1 0x14 4 1 0 4"];
    let begin = "setup 0x416e848000000000 0x400a666666666666 1 8 8 1 16 0 1 3 0 7 2 16 0 1 3 0 7 3 16 0 1 3 0 1 4 16 0 1 3 0 2 5 16 0 1 3 0 3 6 16 0 1 3 0 4 7 16 0 1 3 0 5 8 16 0 1 3 0 8 16
enable 3 1
write 0 0x14 4 1 0 4
write 1 0x14 4 1 0 4
";
    let n = steps.len();
    for k in 0..n * n * n * n {
        let chosen = [k, k / n, k / n / n, k / n / n / n].map(|i| steps[i % n]);
        answers(&format!("{begin}{}", chosen.map(|s| format!("{s}\nline 7\n")).concat()));
    }
}
