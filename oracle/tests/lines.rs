//! Two timers on one interrupt (document 02, F-7): the line follows the latest request of each timer that names it, and pends on a rise alone.

mod common;
use common::expect;

use oracle::{Board, Call, TimerSpec};

/// Reading 32: a timer reset takes back that timer's request alone; manual or not.
#[test]
fn reading_32() {
    expect(
        "setup 0x416e848000000000 0x400a666666666666 1 8 2 2 32 1 1 3 0 5 3 16 1 1 3 0 5 16 manual 2
enable 3 1
write 0 0xc 4 1 0 4
write 0 0x14 4 1 0 4
line 5 # 0 3 0
reset 1 0 4
line 5 # 0 3 0
reset 0 0 4
line 5 # 0 2 0",
    );
}

/// Three timers: the line falls with the last request, a second and a third request are no rise, and clearing the pending flag makes none.
#[test]
fn three_timers() {
    expect(
        "setup 0x416e848000000000 0x400a666666666666 1 6 3 2 32 0 1 3 0 5 3 16 0 1 3 0 5 4 16 0 1 3 0 5 16
enable 3 1
write 0 0xc 4 1 0 4
write 1 0xc 4 1 0 4
write 2 0xc 4 1 0 4
write 2 0x14 4 1 0 4
line 5 # 0 3 0
clear 5
write 0 0x14 4 1 0 4
line 5 # 0 1 0
write 1 0x14 4 1 0 4
line 5 # 0 1 0
write 2 0x10 4 0 0 4
line 5 # 0 1 0
write 0 0xc 4 0 0 4
line 5 # 0 1 0
write 1 0x10 4 0 0 4
line 5 # 0 0 0
write 0 0xc 4 1 0 4
line 5 # 0 3 0",
    );
}

/// At and above the line count there is no line to share; a set-up starts all low.
#[test]
fn no_line() {
    expect(
        "setup 0x416e848000000000 0x400a666666666666 1 5 2 2 32 0 1 3 0 5 3 16 0 1 3 0 5 16
enable 3 1
write 0 0xc 4 1 0 4
write 0 0x14 4 1 0 4
line 5 # 0 0 0
setup 0x416e848000000000 0x400a666666666666 1 6 2 2 32 0 1 3 0 5 3 16 0 1 3 0 5 16
line 5 # 0 0 0
enable 3 1
write 0 0xc 4 1 0 4
write 0 0x14 4 1 0 4
line 5 # 0 3 0
setup 0x416e848000000000 0x400a666666666666 1 6 2 2 32 0 1 3 0 5 3 16 0 1 3 0 5 16
line 5 # 0 0 0
enable 3 1
write 1 0xc 4 0 0 4
line 5 # 0 0 0",
    );
}

/// Which timers share: equal numbers below the line count.
#[test]
fn shared() {
    let timer = |number, irq| TimerSpec { number, width: 16, channels: 0, bus: 1, word: 3, bit: 0, irq };
    let timers = vec![timer(2, 3), timer(3, 4), timer(4, 3), timer(5, 9), timer(6, 9)];
    let mut b = Board::new();
    let s = oracle::Setup { hz: 1f64.to_bits(), vcc: 1f64.to_bits(), pins: 1, lines: 9, timers, len: 16, ..Default::default() };
    assert_eq!(b.call(&Call::Setup(s)).number, 0);
    assert_eq!((0..5).map(|t| b.is_shared(t)).collect::<Vec<_>>(), [true, false, true, false, false]);
}
