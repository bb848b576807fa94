//! Why a pin is low (document 02, F-12): the lists of readings 26 to 28, and each reason once.

mod common;
use common::expect;

/// One channel, manual mode, 1 cycle a step: the readings' board.
const A: &str = "setup 0x416e848000000000 0x400a666666666666 1 8 1 2 32 1 1 3 0 0 16 1 194 manual 1 # 0 0 0
enable 3 1 # 0 0 0
";

/// 26: reason 9 asks the counter's side too. A write of CR1 turns the stopped timer without driving: the side is high then, the pin still low.
#[test]
fn counter_side() {
    expect(&format!(
        "{A}pin 0 2 0 0 0 0 1 0 4
         write 0 0x18 4 0x60 0 4
         write 0 0x20 4 1 0 4
         write 0 0x34 4 3 0 4 # 0 0 1 0:1@0/1
         write 0 0x24 4 3 0 4 # 0 0 1 0:0@0/1
         why 0 0 # 0 9 0
         write 0 0 4 0x10 0 4
         why 0 0 # 0 10 0"
    ));
}

/// The other way to 10: a write of CCR counts past an update that is due, and the event is lost with its drive. In edge mode such a write drives.
/// A write of CR1 does not.
#[test]
fn lost_update() {
    expect(&format!(
        "{A}pin 0 2 0 0 0 0 1 0 4
         write 0 0x18 4 0x60 0 4
         write 0 0x20 4 1 0 4
         write 0 0x2c 4 9 0 4
         write 0 0x34 4 3 0 4
         write 0 0 4 1 0 4
         deliver 0 3 4 # 0 1 1 0:0@3/1
         why 0 9 # 0 9 0
         why 0 10 # 8 0 0
         write 0 0 4 5 11 4
         level 0 # 0 2 0
         why 0 11 # 0 10 0
         deliver 0 13 4
         why 0 13 # 0 9 0"
    ));
}

/// 27: whose backlog. A timer that does not drive, a channel that the timer lacks, a receive line, a timer that is not there, another mode: never 8.
#[test]
fn backlog() {
    expect(
        "setup 0x416e848000000000 0x400a666666666666 1 8 2 2 32 1 1 3 0 0 5 32 1 1 3 0 0 16 1 194 2 242 3 195 4 17 5 210 # 0 0 0
         enable 3 1
         write 0 0x2c 4 9 0 4
         write 0 0 4 1 0 4
         write 1 0x2c 4 9 0 4
         write 1 0 4 1 0 4
         pin 0 2 0 0 0 0 1 0 4
         why 0 9 # 0 7 0
         why 0 10 # 8 0 0
         pin 0 2 0 0 0 0 2 0 4
         why 0 10 # 0 5 0
         pin 0 2 0 0 0 0 3 0 4
         why 0 10 # 0 5 0
         pin 0 2 0 0 0 0 4 0 4
         why 0 10 # 0 5 0
         pin 0 2 0 0 0 0 5 0 4
         why 0 10 # 0 5 0
         pin 0 0 0 0 0 0 1 0 4
         why 0 10 # 0 1 0",
    );
}

/// 27: 8 comes before every reason, also of a pin that is high.
#[test]
fn backlog_first() {
    expect(&format!(
        "{A}pin 0 2 0 0 0 0 1 0 4
         write 0 0x18 4 0x60 0 4
         write 0 0x20 4 1 0 4
         write 0 0x2c 4 9 0 4
         write 0 0x34 4 3 0 4 # 0 0 1 0:1@0/1
         write 0 0 4 1 0 4
         why 0 2 # 0 0 0
         why 0 3 # 8 0 0
         booked 0 # 0 3 0
         deliver 0 3 4 # 0 1 1 0:0@3/1
         why 0 3 # 0 9 0"
    ));
}

/// 27: due is the next event's own cycle. A write of ARR with ARPE counts past the update at 5 and books nothing: the booking stays in the past.
#[test]
fn stale_booking() {
    expect(&format!(
        "{A}pin 0 2 0 0 0 0 1 0 4
         write 0 0x34 4 9 0 4
         write 0 0x2c 4 4 0 4
         write 0 0 4 0x81 0 4
         why 0 5 # 8 0 0
         write 0 0x2c 4 5 6 4
         booked 0 # 0 5 0
         why 0 9 # 0 7 0
         why 0 10 # 8 0 0"
    ));
}

/// 28: odd pins, and that a query answered 0 or 8 does not move the cycle of the last changing call.
#[test]
fn odd_pins() {
    expect(&format!(
        "{A}pin 0 7 0 1 0 0 1 0 4
         why 0 0 # 0 1 0
         pin 0 1 1 1 0 0 1 0 4
         why 0 0 # 0 4 0
         pin 0 2 0 0 0 0 1 0 4
         write 0 0x20 4 1 0 4
         write 0 0x18 4 0x61 0 4
         why 0 99 # 0 7 0
         write 0 0xc 4 0 5 4 # 0 0 0
         write 0 0x18 4 0x60 5 4
         write 0 0x2c 4 9 5 4
         write 0 0 4 1 5 4
         why 0 99 # 8 0 0
         write 0 0xc 4 0 5 4 # 0 0 0"
    ));
}

/// The refusals: 2 before 5 before 8.
#[test]
fn refusals() {
    expect(&format!(
        "why 0 0 # 2 0 0
         {A}pin 0 2 0 0 0 0 1 7 4
         write 0 0 4 1 7 4
         why 1 0 # 2 0 0
         why 0 6 # 5 0 0
         why 0 4611686018427387905 # 5 0 0
         why 0 4611686018427387904 # 8 0 0"
    ));
}

/// Each reason but 6, which F-4 rules out (examples/why.calls).
#[test]
fn each_reason() {
    let list = include_str!("../../examples/why.calls");
    let wanted: Vec<&str> = include_str!("../../examples/why.answers").lines().collect();
    assert_eq!(common::play(list), wanted);
    let asked = list.lines().filter(|l| !l.starts_with('#')).zip(&wanted).filter(|(l, _)| l.starts_with("why"));
    let reasons: Vec<&str> = asked.filter_map(|(_, a)| a.strip_prefix("0 ")?.strip_suffix(" 0")).collect();
    assert_eq!(reasons, ["1", "2", "4", "0", "3", "5", "7", "8", "0", "9", "10"]);
}
