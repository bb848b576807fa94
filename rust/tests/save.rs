//! Saved boards: what comes back, what is turned away, and that any content is a board.

use board::ffi;
use board::{Board, ClockTree, Drive, PinConfig, Reg, RestoreError, Setup, Source, TimerIndex};

/// FNV-1a, as `save` has it.
fn sum(bytes: &[u8]) -> u64 {
    bytes.iter().fold(0xcbf2_9ce4_8422_2325, |h, &b| (h ^ b as u64).wrapping_mul(0x100_0000_01b3))
}

/// The bytes with a right check sum.
fn sealed(mut bytes: Vec<u8>) -> Vec<u8> {
    let n = bytes.len() - 8;
    let s = sum(&bytes[..n]);
    bytes[n..].copy_from_slice(&s.to_le_bytes());
    bytes
}

/// A board with something everywhere: two timers that run, one downward, a clock change inside a step, drives, pulls, pending lines.
fn busy() -> Board {
    let mut b = Board::example_pilot(64);
    b.set_clock_tree(&ClockTree { tim1: 3, ..ClockTree::flat(8e6) }, 101).unwrap();
    b.set_pin(5, &PinConfig { pullup: true, open_drain: true, ..PinConfig::alternate(1) }, 101).unwrap();
    b.drive_pin(6, Drive::Analog(2.5), 102).unwrap();
    for (reg, value) in [(Reg::Ccmr1, 0x7868), (Reg::Ccer, 0x31), (Reg::Arr, 99), (Reg::Ccr(2), 40), (Reg::Dier, 0x1f), (Reg::Cr1, 0x91)] {
        b.write_reg(TimerIndex(1), reg, value, 103).unwrap();
    }
    b.poll_all(1000, &mut Vec::new()).unwrap();
    b
}

#[test]
fn what_is_saved_comes_back() {
    for b in [Board::new(4), Board::example(), busy()] {
        let bytes = b.save();
        let mut other = Board::new(17);
        other.restore(&bytes).unwrap();
        assert!(other.state().same(b.state()));
        assert_eq!((other.save(), other.places()), (bytes, 17));
    }
    let mut nan = Board::example();
    nan.drive_pin(7, Drive::Analog(f64::NAN), 0).unwrap();
    let mut other = Board::new(4);
    other.restore(&nan.save()).unwrap();
    assert!(other.state().same(nan.state()));
}

/// A board goes on after a restore as it would have without.
#[test]
fn it_goes_on() {
    let (mut b, mut other) = (busy(), Board::new(64));
    other.restore(&b.save()).unwrap();
    assert_eq!((other.last_cycle(), other.next()), (b.last_cycle(), b.next()));
    let (mut here, mut there) = (Vec::new(), Vec::new());
    for cycle in [1001, 1500, 9000] {
        b.poll_all(cycle, &mut here).unwrap();
        other.poll_all(cycle, &mut there).unwrap();
    }
    assert!(!here.is_empty() && here == there);
    assert!(b.state().same(other.state()));
}

#[test]
fn what_is_no_board_is_turned_away() {
    let bytes = busy().save();
    let mut b = Board::example();
    let before = b.clone();
    // A changed byte is seen, and by what it is.
    for i in (0..24).chain((24..bytes.len()).step_by(61)).chain(bytes.len() - 8..bytes.len()) {
        for flip in [1, 0x80, 0xff] {
            let mut bad = bytes.clone();
            bad[i] ^= flip;
            let e = b.restore(&bad).unwrap_err();
            match i {
                0..8 => assert_eq!(e, RestoreError::Magic),
                8..12 => assert!(matches!(e, RestoreError::Version { wanted: 1, .. })),
                12..20 => assert!(matches!(e, RestoreError::Layout { wanted: (5276, 264), .. })),
                _ => assert_eq!(e, RestoreError::Checksum),
            }
        }
    }
    let wanted = bytes.len();
    for given in (0..wanted).step_by(7).chain([wanted - 1, wanted + 1, wanted + 8]) {
        let mut bad = bytes.clone();
        bad.resize(given, 0);
        let e = if given < 8 { RestoreError::Magic } else { RestoreError::Length { given, wanted } };
        assert_eq!(b.restore(&bad), Err(e));
    }
    assert!(b.state().same(before.state()));
    let told = |e: RestoreError| e.to_string();
    assert_eq!(told(RestoreError::Version { given: 2, wanted: 1 }), "a board saved by version 2, this is version 1");
    assert_eq!(told(RestoreError::Length { given: 3, wanted }), format!("3 bytes, a saved board has {wanted}"));
}

/// A line's level and pending flag stand where they stood before document 02's F-7, so a board that was saved before, without wishes, shows the same
/// lines. The next request of a timer decides its line; with one timer a line it goes on as it would have.
#[test]
fn older_boards_keep_their_lines() {
    // Of the library's words the lines are those from 860 on; the bits above the two low ones are the timers' wishes.
    let (mut b, mut older) = (busy(), Board::new(64));
    let mut bytes = b.save();
    let mut wishes = 0;
    for word in bytes[24 + 860 * 8..24 + 1116 * 8].chunks_mut(8) {
        wishes += (word[0] & !3).count_ones() + word[1].count_ones();
        word[0] &= 3;
        word[1] = 0;
    }
    assert_eq!(wishes, 1);
    older.restore(&sealed(bytes)).unwrap();
    let lines = |b: &Board| (0..256).map(|irq| b.line(irq)).collect::<Vec<_>>();
    assert_eq!(lines(&older), lines(&b));
    let high = (0..256).find(|&irq| b.line(irq).high).expect("a line that is high");
    for (reg, value) in [(Reg::Sr, 0), (Reg::Egr, 1), (Reg::Dier, 0), (Reg::Dier, 1)] {
        for b in [&mut b, &mut older] {
            b.clear_pending(high);
            b.write_reg(TimerIndex(1), reg, value, 1000).unwrap();
        }
        assert_eq!(lines(&older), lines(&b), "{reg:?}");
    }
    assert!(older.state().same(b.state()));
}

/// The layout is the library's, and a saved board knows it by the version alone. If this fails, an older board may be read as another one: then raise
/// `VERSION` in src/save.rs. Put the new sum here.
#[test]
fn layout_is_that_of_the_version() {
    assert_eq!(sum(&busy().save()), 17531236090584759671);
}

/// A board that was saved before levels had sources (document 02, F-5) had nothing above the level's bit, and its sum was the one below: its levels
/// come back, only held until their pins are resolved again. So the version is the same.
#[test]
fn a_board_saved_before_sources() {
    let b = busy();
    let mut bytes = b.save();
    for pin in 0..128 {
        let place = 24 + 8 * (1116 + 16 * pin + 14);
        bytes[place] &= 1;
    }
    let bytes = sealed(bytes);
    assert_eq!(sum(&bytes), 12640892323269385090);
    let mut other = Board::new(64);
    other.restore(&bytes).unwrap();
    for pin in 0..8 {
        assert_eq!((other.level(pin), other.source(pin)), (b.level(pin), Ok(Source::Held)));
    }
    assert_eq!(b.source(0), Ok(Source::Chip));
    // The pilot's next edge says it again.
    other.poll_all(1010, &mut Vec::new()).unwrap();
    assert_eq!(other.source(0), Ok(Source::Chip));
}

/// "Every content of the arrays is a board": random contents, and contents one word off a good one, take every call.
#[test]
fn any_content_takes_every_call() {
    let mut seed = 3u64;
    let mut next = || {
        seed ^= seed << 13;
        seed ^= seed >> 7;
        seed ^= seed << 17;
        seed
    };
    let good = busy().save();
    for round in 0..400 {
        let mut bytes = good.clone();
        let words = ffi::words() + ffi::reals();
        let word = |i: usize| 24 + 8 * i..32 + 8 * i;
        match round % 4 {
            0 => (0..words).for_each(|i| bytes[word(i)].copy_from_slice(&next().to_le_bytes())),
            1 => (0..words).for_each(|i| bytes[word(i)].copy_from_slice(&u64::MAX.to_le_bytes())),
            _ => {
                for _ in 0..1 + next() % 50 {
                    let i = (next() % words as u64) as usize;
                    let value = if next() % 2 == 0 { next() } else { next() % 300 };
                    bytes[word(i)].copy_from_slice(&value.to_le_bytes());
                }
            }
        }
        let mut b = Board::new(64);
        b.restore(&sealed(bytes)).unwrap();
        let cycle = if next() % 2 == 0 { b.last_cycle() } else { next() >> 2 };
        for i in 0..9 {
            let t = TimerIndex(i);
            for reg in Reg::ALL {
                let _ = (b.read_reg(t, reg, cycle), b.peek_reg(t, reg, cycle));
                let _ = b.write_reg(t, reg, next() as u32, cycle).map(|w| w.gated);
            }
            let _ = (b.deliver(t, cycle).map(|d| d.events), b.deliver(t, cycle + 1000).map(|d| d.events), b.booked(t));
            let _ = (b.line(i), b.enable(i, u32::MAX));
        }
        for pin in 0..130 {
            let _ = (b.level(pin), b.volts(pin).map(f64::to_bits));
            let _ = b.set_pin(pin, &PinConfig::alternate(next() as u8), cycle + 1000).map(<[_]>::len);
            let _ = b.drive_pin(pin, Drive::Analog(f64::from_bits(next())), cycle + 1000).map(<[_]>::len);
        }
        let _ = (b.next(), b.pins(), b.timers().count(), b.time(cycle).map(f64::to_bits));
        let _ = (b.set_clock_tree(&ClockTree::flat(1e6), cycle + 2000), b.reset(TimerIndex(0), cycle + 2000).map(<[_]>::len));
        b.set_up(&Setup::example()).unwrap();
        let mut fresh = Board::new(64);
        fresh.set_up(&Setup::example()).unwrap();
        assert!(b.state().same(fresh.state()), "a set-up leaves nothing of it");
    }
}
