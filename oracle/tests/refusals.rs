//! Every refusal at its limit, the order among them, and that a refused call changes nothing.

mod common;
use common::{expect, play, with, BOARD};
use oracle::gen::Gen;
use oracle::{Board, Call};

const HZ: &str = "0x416e848000000000";
const V5: &str = "0x4014000000000000";

#[test]
fn the_blank_board() {
    expect(
        "read 0 0 4 0 # 2 0 0
         write 0 0 3 0 0 0 # 2
         deliver 0 0 0 # 2
         booked 0 # 2
         level 0 # 2
         volts 0 # 2
         pin 0 0 0 0 0 0 0 0 4 # 2
         drive 0 0 0 0 4 # 2
         enable 9 1 # 2
         enable 8 1 # 0
         next # 0 18446744073709551615 0
         line 0 # 0 0 0
         clear 0 # 0 0 0
         time 3 # 0 4613937818241073152 0
         reset-pins 5 0 # 0 0 0
         time 4 # 5 0 0
         clock 0x3ff0000000000000 0x3ff0000000000000 1 1 1 1 1 1 5 # 0 0 0",
    );
}

/// Set-up at each limit: served inside, 1 outside, 4 only when nothing else is wrong.
#[test]
fn set_up() {
    let setup = |hz: &str, vcc: &str, pins: &str, lines: &str, timers: &str, table: &str| format!("setup {hz} {vcc} {pins} {lines} {timers} {table}");
    let one = "1 2 32 4 1 3 0 5";
    let of = |n: u32| (1..=n).map(|i| format!(" {i} 16 4 1 3 0 5")).fold(n.to_string(), |s, t| s + &t);
    let timer = |spec: &str| setup(HZ, V5, "1", "8", &format!("1 {spec}"), "16");
    let cases = [
        (setup(HZ, V5, "1", "0", one, "16"), 0),
        (setup(HZ, V5, "128", "256", &of(8), "2048 2047 255"), 0),
        (setup(HZ, V5, "0", "0", one, "0"), 1),
        (setup(HZ, V5, "129", "0", one, "2064"), 1),
        (setup(HZ, V5, "268435457", "0", one, "16"), 1), // 16 times that is 16 in 32 bits
        (setup(HZ, V5, "1", "257", one, "16"), 1),
        (setup(HZ, V5, "1", "0", "0", "16"), 1),
        (setup(HZ, V5, "1", "0", &of(9), "16"), 1),
        (setup(HZ, V5, "1", "0", one, "15"), 1),
        (setup(HZ, V5, "1", "0", one, "17"), 1),
        (setup(HZ, V5, "1", "0", one, "4294967295"), 1),
        (setup(HZ, V5, "1", "0", one, "16 15 255"), 0),
        (setup(HZ, V5, "1", "0", one, "16 15 256"), 1),
        (setup(HZ, V5, "1", "0", one, "16 15 65730"), 1),
        (setup(HZ, V5, "1", "0", one, "16 15 256 15 255"), 0),
        (setup(HZ, V5, "1", "0", one, "16 15 255 15 256"), 1),
        (timer("0 32 4 1 3 0 5"), 1),
        (timer("1 32 4 1 3 0 5"), 0),
        (timer("24 32 4 1 3 0 5"), 0),
        (timer("25 32 4 1 3 0 5"), 1),
        (timer("258 32 4 1 3 0 5"), 1),
        (timer("2 31 4 1 3 0 5"), 1),
        (timer("2 272 4 1 3 0 5"), 1),
        (timer("2 16 0 1 3 0 5"), 0),
        (timer("2 16 5 1 3 0 5"), 1),
        (timer("2 16 260 1 3 0 5"), 1),
        (timer("2 16 4 4294967295 8 31 4294967295"), 0),
        (timer("2 16 4 1 9 0 5"), 1),
        (timer("2 16 4 1 0 32 5"), 1),
        (setup(HZ, V5, "1", "0", "2 3 16 4 1 3 0 5 3 16 4 1 3 1 6", "16"), 1),
        (setup(HZ, V5, "1", "0", "2 3 16 4 1 3 0 5 4 16 4 1 3 0 5", "16"), 0),
        (setup(HZ, "0", "1", "0", one, "16"), 1),
        (setup(HZ, "0x8000000000000000", "1", "0", one, "16"), 1),
        (setup(HZ, "1", "1", "0", one, "16"), 0),
        (setup(HZ, "0x7fefffffffffffff", "1", "0", one, "16"), 0),
        (setup(HZ, "0x7ff0000000000000", "1", "0", one, "16"), 1),
        (setup(HZ, "0x7ff8000000000000", "1", "0", one, "16"), 1),
        (setup(HZ, "0xc014000000000000", "1", "0", one, "16"), 1),
        (setup("0", V5, "1", "0", one, "16"), 4),
        (setup("0x8000000000000000", V5, "1", "0", one, "16"), 4),
        (setup("1", V5, "1", "0", one, "16"), 0),
        (setup("0x7fefffffffffffff", V5, "1", "0", one, "16"), 0),
        (setup("0x7ff0000000000000", V5, "1", "0", one, "16"), 4),
        (setup("0xfff8000000000001", V5, "1", "0", one, "16"), 4),
        (setup("0", V5, "0", "0", one, "16"), 1),
    ];
    for (line, number) in cases {
        expect(&format!("{line} # {number} 0 0"));
        // Refused, it leaves the board handed in; served, it replaces it and its cycle.
        let (time, cr2) = if number == 0 { (0, 0) } else { (5, 194) };
        expect(&format!("{BOARD}write 0 4 4 194 77 4\n{line}\ntime 5 # {time}\npeek 0 4 77 # 0 {cr2} 0"));
    }
}

#[test]
fn clock_tree() {
    let ok = "1 1 1 1 1 1";
    for d in 0..6 {
        for (value, number) in [(0u32, 4), (1, 0), (8192, 0), (8193, 4), (65537, 4), (u32::MAX, 4)] {
            let mut words: Vec<String> = ok.split(' ').map(str::to_string).collect();
            words[d] = value.to_string();
            expect(&format!("{BOARD}clock {HZ} {HZ} {} 0 # {number} 0 0", words.join(" ")));
        }
    }
    for bad in ["0", "0x8000000000000000", "0x7ff0000000000000", "0x7ff8000000000000", "0xc014000000000000"] {
        expect(&format!("{BOARD}clock {bad} {HZ} {ok} 0 # 4\nclock {HZ} {bad} {ok} 0 # 4\nclock {bad} {HZ} {ok} 4611686018427387905 # 4"));
    }
    expect(&format!("{BOARD}clock 1 1 {ok} 4611686018427387904 # 0\nclock 1 1 {ok} 4611686018427387903 # 5\nclock 1 1 {ok} 4611686018427387905 # 5"));
}

/// Index, size, cycle, places, counter: the lowest number that applies (11 has its place in `socket_taken`).
#[test]
fn the_lowest_number() {
    expect(&with(
        "write 0 0 4 1 100 4 # 0
         write 1 0x24 3 11 99 3 # 2
         write 0 0x24 3 11 99 3 # 3
         write 0 0x24 4 11 99 3 # 5
         write 0 0x24 4 11 150 3 # 6
         write 0 0x24 4 11 150 4 # 7
         read 1 0 3 99 # 2
         read 0 0 3 99 # 3
         read 0 0 0 100 # 3
         read 0 0 256 100 # 3
         read 0 0 260 100 # 3
         read 0 0 4 99 # 5
         peek 1 0 99 # 2
         peek 0 0 99 # 5
         reset 1 99 3 # 2
         reset 0 99 3 # 5
         reset 0 100 3 # 6
         deliver 256 99 3 # 2
         deliver 0 99 3 # 5
         deliver 0 4611686018427387905 3 # 5
         deliver 0 100 3 # 6
         pin 2 0 0 0 0 0 0 99 3 # 2
         pin 0 0 0 0 0 0 0 99 3 # 5
         pin 0 0 0 0 0 0 0 100 3 # 6
         drive 2 0 0 99 3 # 2
         drive 65536 0 0 99 3 # 2
         drive 0 0 0 99 3 # 5
         drive 0 0 0 100 3 # 6
         reset-pins 99 1 # 5
         reset-pins 100 1 # 6
         time 99 # 5
         time 4611686018427387905 # 5
         time 4611686018427387904 # 0
         booked 1 # 2
         level 2 # 2
         volts 2 # 2
         enable 9 0 # 2
         enable 259 0 # 2
         line 4294967295 # 0 0 0
         clear 4294967295 # 0 0 0
         reset-pins 100 2 # 0",
    ));
}

/// Reads, peeks and queries look ahead without moving time; a gated write and a delivery of nothing move it.
#[test]
fn what_moves_time() {
    expect(&format!(
        "{BOARD}read 0 0 4 50 # 0
         peek 0 0 50 # 0
         time 50 # 0
         write 0 4 4 1 10 4 # 0
         enable 3 0 # 0
         write 0 4 4 2 20 3 # 6
         write 0 4 4 2 20 4 # 0
         read 0 4 4 20 # 0 0 0
         peek 0 4 20 # 0 1 0
         time 19 # 5
         deliver 0 30 4 # 0 0 0
         time 29 # 5
         reset 0 40 4 # 0
         time 39 # 5
         time 40 # 0"
    ));
    // A backlog moves it too.
    expect(&with("pin 0 2 0 0 0 0 1 0 4\nwrite 0 0x18 4 0x30 0 4\nwrite 0 0x20 4 1 0 4\nwrite 0 0x34 4 3 0 4\nwrite 0 0 4 1 0 4\ndeliver 0 50 4 # 8 1 1 0:1@3/1\ntime 49 # 5\ntime 50 # 0"));
}

/// Counter astray by way of CR1, CNT and ARR, and what is next to it and served.
#[test]
fn counter_astray() {
    expect(&with(
        "write 0 0x24 4 11 0 4 # 0
         write 0 0 4 1 0 4 # 7
         write 0 0 1 1 0 4 # 7
         write 0 0 4 0x81 0 4 # 7
         write 0 0 4 0x11 0 4 # 0
         write 0 0x24 4 500 1 4 # 0
         write 0 0 4 1 2 4 # 0
         read 0 0x24 4 2 # 0 8 0
         write 0 0x2c 4 6 2 4 # 7
         write 0 0x2c 4 7 2 4 # 0
         write 0 0x2c 4 1 3 4 # 0
         booked 0 # 0 4 0",
    ));
    // The counter wraps at the undelivered update: it is the counter at the call that counts.
    expect(&with("write 0 0 4 1 0 4\nwrite 0 0x2c 4 1 5 4 # 7\nwrite 0 0x2c 4 1 11 4 # 0"));
    // With ARPE the written reload waits; gated, nothing is looked at; stopped by one-pulse, nothing runs.
    expect(&with("write 0 0 4 0x81 0 4\nwrite 0 0x2c 4 1 5 4 # 0\nread 0 0x24 4 8 # 0 8 0"));
    expect(&with("write 0 0 4 1 0 4\nenable 3 0\nwrite 0 0x24 4 11 5 4 # 0\npeek 0 0x24 5 # 0 5 0"));
    expect(&with("write 0 0 4 9 0 4\ndeliver 0 10 4\nwrite 0 0x24 4 11 11 4 # 0\nwrite 0 0 4 1 12 4 # 0\nwrite 0 0 4 0 13 4 # 0\nwrite 0 0 4 1 14 4 # 7"));
    // A partial write is judged after the merge, and by the bits kept.
    expect(&with("write 0 0x2c 4 0x1ff 0 4\nwrite 0 0x24 4 0x101 0 4\nwrite 0 0 4 1 0 4\nwrite 0 0x25 1 2 0 4 # 7\nwrite 0 0x24 1 0xff 0 4 # 0\nread 0 0x24 4 0 # 0 511 0"));
    expect("setup 0x416e848000000000 0x4014000000000000 1 8 1 3 16 0 1 3 0 5 16\nenable 3 1\nwrite 0 0x2c 4 9 0 4\nwrite 0 0 4 0x11 0 4 # 0\nread 0 0 4 0 # 0 1 0\nwrite 0 0x24 4 0x1000b 0 4 # 7\nwrite 0 0x24 4 0x1000a 0 4 # 0");
}

/// 7 is given exactly where the Rust's own sum would go below 0: every refused write, made all the same, panics
/// (and no served one does, or the other tests would).
#[test]
fn seven_is_exactly_what_the_rust_cannot_do() {
    std::panic::set_hook(Box::new(|_| {})); // these panics are wanted, and many
    let mut tried = 0;
    for seed in 300..304 {
        let mut gen = Gen::new(seed);
        let list: Vec<_> = (0..8_000).map(|_| gen.step()).collect();
        for (i, (call, _)) in list.iter().enumerate().filter(|(_, (_, a))| a.number == 7) {
            let &Call::Write { timer, offset, size, value, cycle, .. } = call else { panic!() };
            let mut board = Board::new();
            list[..i].iter().for_each(|(c, _)| drop(board.call(c)));
            let write = std::panic::AssertUnwindSafe(|| board.write_unchecked(timer as usize, offset, size as u8, value, cycle));
            let panicked = std::panic::catch_unwind(write).is_err();
            if !panicked {
                let _ = std::panic::take_hook();
                panic!("seed {seed}: {call} was refused, and the Rust can do it");
            }
            tried += 1;
        }
    }
    let _ = std::panic::take_hook();
    assert!(tried > 50, "{tried}");
}

/// Socket taken: a non-zero signal that another pin routes, whatever the signal is, and what is next to it and served.
#[test]
fn socket_taken() {
    // Function 1 is channel 1 of timer 2 on three pins, function 2 a UART's receive signal, function 3 a signal of nothing here.
    let board = format!("setup {HZ} {V5} 3 8 1 2 32 1 1 3 0 5 48 1 194 17 194 33 194 2 17 18 17 3 201 19 201 4 195\nenable 3 1\n");
    let on = |lines: &str| expect(&format!("{board}{lines}"));
    // Refused at any pin but its own, until the pin leaves or the pins are reset; function 17 is 1.
    on("pin 0 2 0 0 0 0 1 5 4 # 0
        pin 1 2 0 0 0 0 1 5 4 # 11 0 0
        pin 2 2 1 1 1 1 17 5 4 # 11 0 0
        pin 0 2 0 0 0 0 1 5 4 # 0
        pin 0 2 1 0 0 0 17 5 4 # 0
        pin 0 2 0 0 0 0 4 6 4 # 0
        pin 1 2 0 0 0 0 1 6 4 # 0
        pin 0 2 0 0 0 0 1 6 4 # 11 0 0
        pin 1 0 0 0 0 0 1 6 4 # 0
        pin 0 2 0 0 0 0 1 6 4 # 0
        reset-pins 7 3 # 0
        pin 2 2 0 0 0 0 1 7 4 # 0
        pin 0 2 0 0 0 0 1 7 4 # 11 0 0");
    // The order: index, cycle, socket, places.
    on("pin 0 2 0 0 0 0 1 5 4
        pin 3 2 0 0 0 0 1 4 0 # 2
        pin 1 2 0 0 0 0 1 4 0 # 5
        pin 1 2 0 0 0 0 1 5 0 # 11
        pin 1 2 0 0 0 0 3 5 0 # 6
        time 4 # 5
        time 5 # 0");
    // Every signal but 0, input signals and signals of no timer of the board; only alternate mode selects one.
    on("pin 0 2 0 0 0 0 2 5 4 # 0
        pin 1 2 0 0 0 0 2 5 4 # 11
        pin 0 2 0 0 0 0 3 5 4 # 0
        pin 1 2 0 0 0 0 3 5 4 # 11
        pin 1 0 0 0 0 0 3 5 4 # 0
        pin 1 1 0 0 0 0 3 5 4 # 0
        pin 1 3 0 0 0 0 3 5 4 # 0
        pin 1 258 0 0 0 0 3 5 4 # 0
        pin 0 2 0 0 0 0 9 5 4 # 0
        pin 1 2 0 0 0 0 9 5 4 # 0");
    // A set-up starts free.
    on(&format!("pin 0 2 0 0 0 0 1 5 4\n{board}pin 1 2 0 0 0 0 1 0 4 # 0"));
}

/// 11 in random lists: given often, and each time the Rust would have taken the signal from the pin that has it.
#[test]
fn eleven_is_what_the_rust_would_take_away() {
    let mut tried = 0;
    let selected = |b: &Board| (0..b.pins()).filter(|&p| b.signal(p) != 0).count();
    let routed = |b: &Board| (0..b.pins()).filter(|&p| b.signal(p) != 0 && b.routed(b.signal(p)) == Some(p)).count();
    for seed in 400..404 {
        let mut gen = Gen::new(seed);
        let list: Vec<_> = (0..4_000).map(|_| gen.step()).collect();
        for (i, (call, _)) in list.iter().enumerate().filter(|(_, (_, a))| a.number == 11) {
            let &Call::Pin { pin, mode, function, cycle, .. } = call else { panic!() };
            let mut board = Board::new();
            list[..i].iter().for_each(|(c, _)| drop(board.call(c)));
            // Each pin that selects a signal routes it; after the setting, made all the same, one of them does not.
            assert_eq!(routed(&board), selected(&board), "seed {seed}: {call}");
            board.set_unchecked(pin as usize, mode as u8, (function % 16) as u8, cycle);
            assert_eq!(routed(&board) + 1, selected(&board), "seed {seed}: {call}");
            tried += 1;
        }
    }
    assert!(tried > 100, "{tried}");
}

/// What a probe can see of a board: every query, every register, and time.
fn probe(board: &mut Board) -> Vec<oracle::Answer> {
    let (cycle, mut calls) = (board.last(), vec![Call::Next]);
    for timer in 0..board.specs().len() as u32 {
        calls.push(Call::Booked { timer });
        for offset in (0..0x48).step_by(4) {
            calls.push(Call::Peek { timer, offset, cycle });
            calls.push(Call::Peek { timer, offset, cycle: cycle.saturating_add(3).min(oracle::board::LIMIT) });
            calls.push(Call::Read { timer, offset, size: 4, cycle });
        }
    }
    calls.extend((0..board.pins() as u32).flat_map(|pin| [Call::Level { pin }, Call::Volts { pin }]));
    calls.extend((0..board.lines()).map(|irq| Call::Line { irq }));
    calls.extend([Call::Time { cycle }, Call::Time { cycle: cycle.wrapping_sub(1) }]);
    calls.iter().map(|c| board.call(c)).collect()
}

#[test]
fn a_refused_call_shows_nothing() {
    let mut refused = [0; 12];
    for seed in 100..103 {
        let (mut gen, mut board) = (Gen::new(seed), Board::new());
        for _ in 0..20_000 {
            let (call, answer) = gen.step();
            if matches!(answer.number, 0 | 8) {
                board.call(&call);
                continue;
            }
            let before = probe(&mut board);
            assert_eq!(board.call(&call), oracle::Answer { number: answer.number, value: 0, entries: vec![] });
            assert!(probe(&mut board) == before, "{call}");
            refused[answer.number as usize] += 1;
        }
    }
    assert!([1, 2, 3, 4, 5, 6, 7, 11].iter().all(|&n| refused[n] > 0), "{refused:?}");
}

/// With the refused calls left out, all other answers stay the same.
#[test]
fn a_refused_call_has_no_later_effect() {
    for seed in 200..210 {
        let mut gen = Gen::new(seed);
        let list: Vec<_> = (0..20_000).map(|_| gen.step()).collect();
        let mut board = Board::new();
        for (call, answer) in list.iter().filter(|(_, a)| matches!(a.number, 0 | 8)) {
            assert!(&board.call(call) == answer, "{call}");
        }
    }
}

/// Lines from 240 on are lines like the others; at and above the count they are low and not pending.
#[test]
fn lines_up_to_256() {
    for (lines, irq, seen) in [(256, 255, 3), (256, 240, 3), (255, 255, 0), (241, 240, 3), (240, 240, 0), (240, 239, 3), (0, 0, 0), (256, 256, 0)] {
        let after = seen & 1;
        expect(&format!(
            "setup {HZ} {V5} 1 {lines} 1 2 32 4 1 3 0 {irq} 16
             enable 3 1
             write 0 0xc 4 1 0 4
             write 0 0x14 4 1 0 4
             line {irq} # 0 {seen} 0
             clear {irq} # 0 0 0
             line {irq} # 0 {after} 0
             write 0 0x10 4 0 0 4
             line {irq} # 0 0 0"
        ));
    }
    assert_eq!(play("line 4294967295"), ["0 0 0"]);
}
