//! The duty report: what the types add, and document 02's sentences on small shifts. Random books are compare's matter.

use board::ffi;
use board::{Disorder, Duty, Entry, Error, PINS, PinReport, Report, Shift};

fn e(pin: u8, level: u8, cycle: u64) -> Entry {
    Entry::new(pin, level, cycle)
}

/// The report in one piece, checked to be the one of one entry at a time and of one book.
fn report(levels: [u32; 4], from: u64, to: u64, entries: &[Entry]) -> Result<Report, Error> {
    let (mut whole, mut single) = (Shift::new(levels, from, to), Shift::new(levels, from, to));
    whole.feed(entries);
    entries.iter().for_each(|e| single.feed(std::slice::from_ref(e)));
    assert_eq!(whole.report(), single.report());
    let pins: Vec<_> = entries.iter().map(|e| e.pin).collect();
    let highs: Vec<_> = entries.iter().map(|e| e.level).collect();
    let cycles: Vec<_> = entries.iter().map(|e| e.cycle).collect();
    assert_eq!(whole.report(), Report::of_book(levels, from, to, &pins, &highs, &cycles));
    whole.report()
}

fn figures(r: &Report, pin: u8) -> (u64, u64, u64) {
    let p = r.pin(pin).unwrap();
    assert_eq!(p.pin, pin);
    (p.high, p.low, p.edges)
}

#[test]
fn without_entries() {
    let r = report([1, 0, 0, 0x8000_0000], 10, 15, &[]).unwrap();
    assert_eq!((figures(&r, 0), figures(&r, 1), figures(&r, 127)), ((5, 0, 0), (0, 5, 0), (5, 0, 0)));
    assert_eq!(r.high_pins(), 2);
    assert_eq!(r.pin(128), None);
}

#[test]
fn entries_at_the_ends() {
    // Before and at from: for the level. At to and behind: for nothing.
    let r = report([0; 4], 10, 20, &[e(0, 1, 9), e(1, 1, 10), e(2, 1, 11), e(3, 1, 19), e(4, 1, 20), e(5, 1, 21)]).unwrap();
    let got: Vec<_> = (0..6).map(|pin| figures(&r, pin)).collect();
    assert_eq!(got, [(10, 0, 0), (10, 0, 0), (9, 1, 1), (1, 9, 1), (0, 10, 0), (0, 10, 0)]);
    assert_eq!(r.high_pins(), 4);
}

#[test]
fn edges() {
    // A repeated level is none; two changes at one cycle are two.
    let r = report([0; 4], 0, 10, &[e(0, 1, 5), e(0, 0, 5), e(1, 1, 3), e(1, 1, 4), e(1, 0, 6)]).unwrap();
    assert_eq!((figures(&r, 0), figures(&r, 1)), ((0, 10, 2), (3, 7, 2)));
}

#[test]
fn empty_shift() {
    for (cycle, high) in [(4, 1), (5, 1), (6, 0)] {
        let r = report([0; 4], 5, 5, &[e(3, 1, cycle)]).unwrap();
        assert_eq!((figures(&r, 3), r.high_pins()), ((0, 0, 0), high));
        assert_eq!(r.pin(3).unwrap().duty(), None);
    }
}

#[test]
fn refusals() {
    let reversed = Error::ShiftReversed { from: 6, to: 5 };
    assert_eq!(report([0; 4], 6, 5, &[]), Err(reversed));
    // 9 goes before 10.
    assert_eq!(report([0; 4], 6, 5, &[e(128, 2, 0)]), Err(reversed));
    // The first of several is named.
    for (bad, place, last, why) in [
        (&[e(128, 0, 0)][..], 0, 0, "entry 0, 128:0@0, has no pin of 0 to 127"),
        (&[e(1, 0, 4), e(0, 2, 0), e(255, 0, 0)], 1, 0, "entry 1, 0:2@0, has no level of 0 or 1"),
        (&[e(0, 1, 2), e(0, 1, 1), e(0, 0, 0)], 1, 2, "entry 1, 0:1@1, is before its pin's last, 2"),
        (&[e(0, 1, 99), e(1, 1, 5), e(0, 0, 98)], 2, 99, "entry 2, 0:0@98, is before its pin's last, 99"),
    ] {
        let Entry { pin, level, cycle, .. } = bad[place];
        let wanted = Error::BookOutOfOrder(Disorder { place: place as u64, pin, level, cycle, last });
        assert_eq!(report([0; 4], 5, 9, bad), Err(wanted));
        assert_eq!(wanted.to_string(), format!("book out of order: {why}"));
    }
    // Only a pin's own order counts.
    assert!(report([0; 4], 5, 9, &[e(0, 1, 99), e(1, 1, 5)]).is_ok());
}

/// The library gives 10 exactly where an entry is named, on small random books.
#[test]
fn ten_is_always_explained() {
    let mut seed = 7u64;
    let mut below = |n: u64| {
        seed = seed.wrapping_mul(6364136223846793005).wrapping_add(1442695040888963407);
        (seed >> 33) % n
    };
    let mut named = 0;
    for _ in 0..20_000 {
        let entries: Vec<_> = (0..below(8))
            .map(|i| e(if below(40) == 0 { 128 } else { below(3) as u8 }, if below(40) == 0 { 2 } else { below(2) as u8 }, 3 * i + below(5)))
            .collect();
        let first = (0..entries.len()).find(|&i| {
            let e = entries[i];
            e.pin > 127 || e.level > 1 || entries[..i].iter().rfind(|b| b.pin == e.pin).is_some_and(|b| e.cycle < b.cycle)
        });
        match (report([0; 4], 0, 20, &entries), first) {
            (Ok(_), None) => {}
            (Err(Error::BookOutOfOrder(d)), Some(i)) => {
                assert_eq!((d.place, e(d.pin, d.level, d.cycle)), (i as u64, entries[i]));
                named += 1;
            }
            other => panic!("{other:?}: {entries:?}"),
        }
    }
    assert!(named > 1000 && named < 19_000, "{named}");
}

#[test]
fn nothing_is_reported_with_a_refusal() {
    for (from, to, pin) in [(6, 5, 0), (5, 6, 128)] {
        let mut figures = [7; ffi::FIGURES];
        let s = ffi::report(&mut figures, &[u32::MAX; 4], from, to, &[pin], &[1], &[5]);
        assert_eq!((s.high, figures), (0, [7; ffi::FIGURES]));
        assert!(s.number == 9 || s.number == 10);
    }
}

#[test]
fn a_books_length_is_its_shortest_slice() {
    for (p, l, c) in [(0, 3, 3), (3, 0, 3), (3, 3, 0), (1, 2, 3), (3, 1, 2), (2, 3, 1)] {
        let (pins, levels, cycles) = ([0, 200, 200], [1, 9, 9], [2, 1, 0]);
        let r = Report::of_book([0; 4], 0, 10, &pins[..p], &levels[..l], &cycles[..c]).unwrap();
        assert_eq!(figures(&r, 0).0, if p.min(l).min(c) == 0 { 0 } else { 8 });
    }
}

#[test]
fn the_widest_shift() {
    let r = report([1, 0, 0, 0], 0, u64::MAX, &[e(1, 1, 1 << 62), e(2, 1, u64::MAX - 1), e(3, 1, u64::MAX)]).unwrap();
    let got: Vec<_> = (0..4).map(|pin| figures(&r, pin)).collect();
    assert_eq!(got, [(u64::MAX, 0, 0), (u64::MAX - (1 << 62), 1 << 62, 1), (1, u64::MAX - 1, 1), (0, u64::MAX, 0)]);
    assert_eq!(r.high_pins(), 3);
}

#[test]
fn pins_in_order() {
    let r = report([0b101, 0, 0, 0], 0, 4, &[e(1, 1, 1)]).unwrap();
    let pins: Vec<PinReport> = r.pins().collect();
    assert_eq!((pins.len(), r.pins().len()), (PINS, PINS));
    for (i, p) in pins.iter().enumerate() {
        assert_eq!((p.pin as usize, Some(*p)), (i, r.pin(p.pin)));
        assert_eq!(p.high + p.low, 4);
    }
    assert_eq!(pins.iter().max_by_key(|p| p.edges).unwrap().pin, 1);
}

#[test]
fn duty_is_exact() {
    let d = |high, low| Duty::new(high, low).unwrap();
    assert_eq!(d(1, 1), d(1 << 62, 1 << 62));
    assert!(d(u64::MAX - 1, u64::MAX) < d(u64::MAX, u64::MAX));
    assert!(d(0, 7) < d(1, u64::MAX) && d(u64::MAX, 1) < d(3, 0));
    assert_eq!((d(0, 1), d(1, 0)), (d(0, 9), d(9, 0)));
    assert_eq!(Duty::new(0, 0), None);
    assert_eq!((d(6, 14).to_string().as_str(), d(6, 14).to_f64(), d(6, 14).high(), d(6, 14).low()), ("6/20", 0.3, 6, 14));
}

#[test]
fn more_after_a_report() {
    let mut s = Shift::new([0; 4], 0, 10);
    s.feed(&[e(0, 1, 4)]);
    assert_eq!(figures(&s.report().unwrap(), 0), (6, 4, 1));
    s.feed(&[e(0, 0, 6)]);
    assert_eq!(figures(&s.report().unwrap(), 0), (2, 8, 2));
    // Longer than what is handed on at once.
    let many: Vec<_> = (0..1000).map(|i| e(1, (i % 2) as u8, 5)).collect();
    s.feed(&many);
    assert_eq!(figures(&s.report().unwrap(), 1), (5, 5, 999));
}
