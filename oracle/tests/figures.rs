//! The lists of docs/CALLS.md and docs/BOARD.md and document 01's bench figures, through calls.

mod common;
use common::{expect, play, with, BOARD};

#[test]
fn example_of_the_format() {
    let doc = include_str!("../../docs/CALLS.md");
    let block = doc.split("```").nth(1).expect("CALLS.md has one example");
    assert!(block.lines().filter(|l| l.contains("# ")).count() == 13);
    expect(block);
}

/// The answer of each call stands behind `# `, a remark behind two spaces.
#[test]
fn lists_of_the_board_page() {
    let page = include_str!("../../docs/BOARD.md");
    let lists: Vec<&str> = page.split("```").skip(1).step_by(2).collect();
    assert_eq!(lists.len(), 6);
    for list in lists {
        let bare = |line: &str| {
            let (call, answer) = line.split_once("# ").unwrap_or_else(|| panic!("no answer: {line}"));
            format!("{call}# {}\n", answer.split("  ").next().unwrap())
        };
        expect(&list.trim().lines().map(bare).collect::<String>());
    }
}

#[test]
fn counter_upward() {
    expect(&with(
        "write 0 0 4 1 100 4 # 0
         read 0 0x24 4 100 # 0 0 0
         read 0 0x24 4 109 # 0 9 0
         read 0 0x24 4 110 # 0 0 0
         read 0 0x24 4 125 # 0 5 0",
    ));
}

#[test]
fn counter_with_step_8() {
    let reads = "write 0 0 4 1 0 4 # 0
         read 0 0x24 4 79 # 0 9 0
         read 0 0x24 4 80 # 0 0 0";
    let divider = "clock 0x416e848000000000 0x416e848000000000 1 1 1 1 8 1 0 # 0\n";
    expect(&with(&format!("{divider}{reads}")));
    let prescaler = "write 0 0x28 4 7 0 4 # 0\nwrite 0 0x14 4 1 0 4 # 0\n";
    expect(&with(&format!("{prescaler}{reads}")));
}

#[test]
fn counter_downward() {
    expect(&with(
        "write 0 0x24 4 4 0 4 # 0
         write 0 0 4 0x11 0 4 # 0
         read 0 0x24 4 4 # 0 0 0
         read 0 0x24 4 5 # 0 9 0
         read 0 0x24 4 14 # 0 0 0
         read 0 0x24 4 15 # 0 9 0",
    ));
}

/// The pilot's edges, the count of high cycles, and the bound met exactly.
#[test]
fn pilot_edges() {
    let list = with(
        "pin 0 2 0 0 0 0 1 0 4
         write 0 0x18 4 0x60 0 4
         write 0 0x34 4 3 0 4
         write 0 0x20 4 1 0 4 # 0 0 1 0:1@0/1
         write 0 0 4 1 100 4 # 0 0 0
         level 0 # 0 3 0
         deliver 0 119 64 # 0 6 3 0:0@103/1 0:1@110/1 0:0@113/1",
    );
    expect(&list);
    let last = play(&list).pop().unwrap();
    let edges: Vec<(u64, u64)> = last.split(' ').skip(3).map(edge).collect();
    let level = |c: u64| edges.iter().rfind(|e| e.1 <= c).map_or(1, |e| e.0);
    let high = |from: u64, to: u64| (from..=to).map(level).sum::<u64>();
    let (p, d) = (10, 3);
    for (from, to, h) in [(110, 112, 3), (113, 119, 0)] {
        assert_eq!(high(from, to), h);
        assert_eq!((h * p).abs_diff((to - from + 1) * d), 21);
    }
    assert_eq!(d * (p - d), 21);
}

fn edge(word: &str) -> (u64, u64) {
    let (pin_level, cycle) = word.split_once('/').unwrap().0.split_once('@').unwrap();
    (pin_level.split_once(':').unwrap().1.parse().unwrap(), cycle.parse().unwrap())
}

/// At CR2, which keeps all 32 bits.
#[test]
fn lanes_at_offset_3() {
    expect(&with(
        "write 0 4 4 0xaabbccdd 0 4 # 0
         read 0 7 2 0 # 0 170 0
         read 0 7 1 0 # 0 170 0
         read 0 5 2 0 # 0 48076 0
         read 0 7 4 0 # 0 2864434397 0
         write 0 4 4 0 0 4 # 0
         write 0 7 2 0x1234 0 4 # 0
         read 0 4 4 0 # 0 872415232 0", // 34000000
    ));
    assert_eq!((0xaa, 0xbbcc, 0xaabbccddu32, 0x34000000), (170, 48076, 2864434397, 872415232));
}

/// The channel's signal moves its pin, its neighbours do not.
#[test]
fn signal_numbers() {
    for (number, ccmr, mode, ccer, signal) in [(2, "0x18", "0x50", "1", 194), (4, "0x1c", "0x5000", "0x1000", 229)] {
        let s = (signal - 1, signal, signal + 1);
        expect(&format!(
            "setup 0x416e848000000000 0x4014000000000000 3 8 1 {number} 16 4 1 3 0 5 48 0 {} 16 {} 32 {}
             enable 3 1
             pin 0 2 0 0 0 0 0 0 4
             pin 1 2 0 0 0 0 0 0 4
             pin 2 2 0 0 0 0 0 0 4
             write 0 {ccmr} 4 {mode} 5 4
             write 0 0x20 4 {ccer} 7 4 # 0 0 1 1:1@7/1
             level 0 # 0 2 0
             level 1 # 0 3 0
             level 2 # 0 2 0",
            s.0, s.1, s.2
        ));
    }
}

#[test]
fn clock_change_keeps_the_part_step() {
    expect(&with(
        "clock 0x416e848000000000 0x416e848000000000 1 1 1 1 8 1 0 # 0
         write 0 0 4 1 0 4 # 0
         read 0 0x24 4 13 # 0 1 0
         clock 0x416e848000000000 0x416e848000000000 1 1 1 1 4 1 13 # 0
         read 0 0x24 4 13 # 0 2 0
         read 0 0x24 4 15 # 0 2 0
         read 0 0x24 4 16 # 0 3 0",
    ));
}

#[test]
fn time_rounds_to_even() {
    let two53 = 1u64 << 53;
    let (low, high) = ((two53 as f64).to_bits(), ((two53 + 4) as f64).to_bits());
    expect(&format!(
        "setup 0x3ff0000000000000 0x3ff0000000000000 1 0 1 2 16 0 1 0 0 0 16
         time {} # 0 {low} 0
         time {} # 0 {high} 0",
        two53 + 1,
        two53 + 3
    ));
}

#[test]
fn thresholds_at_5_volts() {
    let v = |x: f64| x.to_bits();
    expect(&format!(
        "{BOARD}drive 0 3 {} 1 4 # 0 0 1 0:1@1/2
         drive 0 3 {} 2 4 # 0 0 0
         level 0 # 0 9 0
         volts 0 # 0 {} 0
         drive 0 3 {} 3 4 # 0 0 1 0:0@3/2
         drive 0 3 {} 4 4 # 0 0 0
         level 0 # 0 8 0",
        v(3.0), v(2.0), v(2.0), v(1.5), v(2.0)
    ));
}

#[test]
fn status_written() {
    expect(&with(
        "write 0 0x14 4 0x1f 0 4 # 0
         read 0 0x10 4 0 # 0 31 0
         write 0 0x10 4 0xfffffffe 0 4 # 0
         read 0 0x10 4 0 # 0 30 0",
    ));
}

#[test]
fn counter_at_reload_plus_one() {
    expect(&with(
        "write 0 0 4 1 100 4 # 0
         write 0 0x24 4 11 150 4 # 7 0 0
         booked 0 # 0 110 0
         write 0 0x24 4 10 150 4 # 0 0 0
         booked 0 # 0 150 0
         read 0 0x24 4 150 # 0 0 0",
    ));
    expect(&with(
        "write 0 0x24 4 11 150 4 # 0 0 0
         read 0 0x24 4 150 # 0 11 0
         write 0 0x24 4 10 150 4 # 0 0 0
         booked 0 # 0 18446744073709551615 0",
    ));
}

/// 100,001 events are the most; with nothing due behind them the answer is 0.
#[test]
fn deliveries_of_100001_events() {
    let start = "setup 0x416e848000000000 0x4014000000000000 1 8 1 6 16 0 1 3 0 5 16\nenable 3 1\nwrite 0 0x2c 4 9 0 4\nwrite 0 0 4 1 0 4\n";
    expect(&format!("{start}deliver 0 1000010 4 # 0 100001 0\nbooked 0 # 0 1000020 0\n"));
    expect(&format!("{start}deliver 0 1000020 4 # 8 100001 0\nbooked 0 # 0 1000020 0\ndeliver 0 1000020 4 # 0 1 0"));
}
