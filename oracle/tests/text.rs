//! The text format: calls written and read back, and every way a line can be malformed.

mod common;
use common::play;
use oracle::calls::{parse, read, Aside, Line, Malformed};
use oracle::gen::Gen;

#[test]
fn calls_read_back() {
    for seed in 0..6 {
        let gen = Gen::new(seed);
        let mut gen = if seed < 5 { gen } else { gen.with_manual(seed) };
        for _ in 0..20_000 {
            let (call, _) = gen.step();
            let line = call.to_string();
            assert_eq!(parse(line.as_bytes()), Ok(Some(call)), "{line}");
        }
    }
}

#[test]
fn generator_and_reader_agree() {
    let mut gen = Gen::new(7);
    let (calls, answers): (Vec<String>, Vec<String>) = (0..20_000).map(|_| gen.step()).map(|(c, a)| (c.to_string(), a.to_string())).unzip();
    assert!(play(&calls.join("\n")) == answers);
    let again: Vec<String> = { let mut g = Gen::new(7); (0..20_000).map(|_| g.step().0.to_string()).collect() };
    assert!(again == calls);
}

#[test]
fn malformed_lines() {
    use Malformed::*;
    let cases: &[(&str, Malformed)] = &[
        ("jump", UnknownWord),
        ("Next", UnknownWord),
        ("12", UnknownWord),
        ("next 1", Surplus),
        ("next x", Surplus),
        ("level", Missing),
        ("level 1 2", Surplus),
        ("level -1", NotANumber),
        ("level +1", NotANumber),
        ("level 1_0", NotANumber),
        ("level 1.0", NotANumber),
        ("level 1a", NotANumber),
        ("level 0x", NotANumber),
        ("level 0xg", NotANumber),
        ("level x1", NotANumber),
        ("level 1\r2", NotANumber),
        ("level \r\r", NotANumber),
        ("level 4294967296", TooLarge),
        ("level 0x100000000", TooLarge),
        ("level 99999999999999999999", TooLarge),
        ("level 99999999999999999999z", NotANumber),
        ("time 18446744073709551616", TooLarge),
        ("time 0x10000000000000000", TooLarge),
        ("drive 0 4 0 0 0", TooLarge),
        ("drive 0 3 0 0", Missing),
        ("drive 0 3 0 0 0 0", Surplus),
        ("drive 4294967296 4", TooLarge),
        ("read 0 0 x 4294967296", NotANumber),
        ("write 0 0 4 4294967296 0 4", TooLarge),
        ("deliver 0 0", Missing),
        ("clock 0 0 1 1 1 1 1 1", Missing),
        ("clock 0 0 1 1 1 1 1 1 0 0", Surplus),
        ("pilot 1", Missing),
        ("pilot 1 2 3", Surplus),
        ("pilot 1 4294967296", TooLarge),
        ("pilot 4294967296 0", TooLarge),
        ("pilot -1 0", NotANumber),
        ("pilots 1 0", UnknownWord),
        ("record 2 32 4 1 3 0 5 0", Missing),
        ("record 2 32 4 1 3 0 5 0 14 0", Surplus),
        ("record 2 32 4 1 3 0 5 0 18446744073709551616", TooLarge),
        ("record 2 32 4 1 3 0 -5 0 14", NotANumber),
        ("unrecord", Missing),
        ("unrecord 0", NotANumber),
        ("unrecord 0g", NotANumber),
        ("unrecord 0x00", NotANumber),
        ("unrecord --", NotANumber),
        ("unrecord - -", Surplus),
        ("unrecord1 00 1", Surplus),
        ("unrecord2 00", UnknownWord),
        ("setup 0 0 1 0", Missing),
        ("setup 0 0 1 0 0", Missing),
        ("setup 0 0 1 0 4294967295 1 2 3", Missing),
        ("setup 0 0 1 0 4294967296", TooLarge),
        ("setup 0 0 1 0 1 2 32 4 1 3 0", Missing),
        ("setup 0 0 1 0 1 2 32 4 1 3 0 0", Missing),
        ("setup 0 0 1 0 0 16 1", Missing),
        ("setup 0 0 1 0 0 16 16 1", TooLarge),
        ("setup 0 0 1 0 0 16 16", TooLarge),
        ("setup 0 0 1 0 0 16 1 4294967296", TooLarge),
        ("setup 0 0 1 0 0 0 0 1", TooLarge),
        ("setup 0 0 1 0 0 16 1 x", NotANumber),
        ("setup 0 0 1 0 0 16 manual 1", TooLarge),
        ("setup 0 0 1 0 1 2 32 4 1 3 0 0 16 manual 2", TooLarge),
        ("setup 0 0 1 0 1 2 32 4 1 3 0 0 16 manual 4294967296", TooLarge),
        ("setup 0 0 1 0 1 2 32 4 1 3 0 0 16 manual", Missing),
        ("setup 0 0 1 0 1 2 32 4 1 3 0 0 16 manual x", NotANumber),
        ("setup 0 0 1 0 1 2 32 4 1 3 0 0 16 manua 1", NotANumber),
        ("setup 0 0 1 0 1 2 32 4 1 3 0 0 16 1 manual 1", NotANumber),
        ("setup 0 0 1 0 1 2 32 4 1 3 0 0 manual 1", NotANumber),
        ("setup 0 0 1 0 1 2 32 4 1 3 0 0 16 manual 1 1", Surplus),
    ];
    for &(line, reason) in cases {
        assert_eq!(parse(line.as_bytes()), Err(reason), "{line:?}");
    }
}

#[test]
fn accepted_lines() {
    for line in ["", "   ", "\t", "\r", "# setup", "  # x\r", "#"] {
        assert_eq!(parse(line.as_bytes()), Ok(None), "{line:?}");
    }
    for line in ["level 10", " level\t10 ", "level 0xA", "level 0Xa\r", "level 0x0000000000000000000a#c", "level 00000000000000000000000010 # c"] {
        assert_eq!(parse(line.as_bytes()), Ok(Some(oracle::Call::Level { pin: 10 })), "{line:?}");
    }
    assert!(parse(b"level 1 \xff").is_err());
    assert!(parse(b"setup 0 0 1 0 0 4294967295 4294967294 4294967295").is_ok());
    let mask = |line: String| match parse(line.as_bytes()) {
        Ok(Some(oracle::Call::Setup(s))) => s.manual,
        other => panic!("{line}: {other:?}"),
    };
    let timers = |n: usize| format!("setup 0 0 1 0 {n}{} 16", " 0".repeat(7 * n));
    assert_eq!([mask(timers(1)), mask(timers(1) + " manual 1"), mask(timers(8) + " 1 194 manual 0xa5")], [0, 1, 0xa5]);
    // As many timers as the mask has bits, and more, are the board's to refuse.
    assert_eq!([mask(timers(32) + " manual 4294967295"), mask(timers(33) + " manual 4294967295"), mask(timers(0) + " manual 0")], [u32::MAX, u32::MAX, 0]);
}

/// A line that asks the board nothing, and leaves it as it was.
#[test]
fn asides() {
    assert_eq!(read(b" pilot 0x1 47 # last"), Ok(Some(Line::Aside(Aside::Pilot { n: 1, k: 47 }))));
    assert_eq!(Aside::Pilot { n: 1, k: 47 }.to_string(), "pilot 1 47");
    assert_eq!(parse(b"pilot 1 47"), Ok(None));
    for line in ["record 2 32 4 1 3 0 18446744073709551615 7 99", "unrecord 0c00ff", "unrecord1 00", "unrecord -", "unrecord1 -"] {
        let Ok(Some(Line::Aside(aside))) = read(line.as_bytes()) else { panic!("{line}") };
        assert_eq!(aside.to_string(), line);
    }
    assert_eq!(read(b"unrecord 0C0a"), read(b"unrecord 0c0A"));
    let list = "next\npilot 1 47\npilot 1 48\npilot 8 0\npilot 8 4294967295\nnext";
    let next = "0 18446744073709551615 0";
    assert_eq!(play(list), [next, "0 0 0 1 1 2 7 1", "0 0 0 0 0 0 0 0", "12 0 0", "12 0 0", next]);
}

/// The malformed line is the last thing told, with its number among all lines.
#[test]
fn a_malformed_line_ends_the_run() {
    assert_eq!(play("next\n\n# c\r\nnext\nlevel\nnext\n"), ["0 18446744073709551615 0", "0 18446744073709551615 0", "line 5: missing number"]);
    assert_eq!(play("foo"), ["line 1: unknown word"]);
    assert_eq!(play("level 1 2"), ["line 1: surplus number"]);
    assert_eq!(play("level z"), ["line 1: not a number"]);
    assert_eq!(play("level 4294967296"), ["line 1: number too large"]);
    assert!(play("").is_empty());
}

/// docs/DIFFERENCES.md, nan-payload: the published Rust keeps what the port and the oracle's answers do not show.
#[test]
fn rust_keeps_payloads() {
    use mcs_sim::pins::{ExtDrive, Pin};
    for bits in [0xfff8_0000_0000_0001u64, 0x7ff8_0000_0000_0000, 0x7ff0_0000_0000_0001] {
        let mut pin = Pin { ext: ExtDrive::Analog, ext_volts: f64::from_bits(bits), ..Pin::default() };
        pin.resolve(5.0);
        assert_eq!(pin.volts.to_bits(), bits);
    }
}
