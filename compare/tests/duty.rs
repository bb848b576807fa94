//! The duty report against a naive counter: a fixed number of random books, for the gate.

use compare::duty::{book, Case, Stats};

/// Books of the gate.
const BOOKS: u64 = 1_000_000;

#[test]
fn random_books() {
    let mut stats = Stats::default();
    for seed in 0..BOOKS {
        if let Err(f) = book(seed, &mut stats) {
            panic!("{f}");
        }
    }
    // Every number must have been met, else equality says little.
    assert!(stats.numbers.iter().all(|&n| n > BOOKS / 50), "{stats:?}");
    assert!(stats.edges > BOOKS / 2, "{stats:?}");
}

/// The counter itself, on readings that could be otherwise.
#[test]
fn the_counter() {
    let e = board::Entry::new;
    let told = |from, to, entries: &[board::Entry]| Case { levels: [0; 4], from, to, entries: entries.to_vec(), base: 0, scale: 1 }.counted();
    // Two changes at one cycle are two edges.
    assert_eq!(told(0, 10, &[e(0, 1, 5), e(0, 0, 5)]).figures[..3], [0, 10, 2]);
    // At from: for the level. At to: for nothing.
    assert_eq!(told(2, 10, &[e(0, 1, 2), e(1, 1, 10)]).figures[..6], [8, 0, 0, 0, 8, 0]);
    // An empty shift.
    assert_eq!((told(5, 5, &[e(3, 1, 5)]).high, told(5, 5, &[e(3, 1, 6)]).high), (1, 0));
    // 10 behind the shift; 9 goes before it.
    assert_eq!((told(0, 1, &[e(0, 1, 9), e(0, 1, 8)]).number, told(1, 0, &[e(128, 0, 0)]).number), (10, 9));
}
