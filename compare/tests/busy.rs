//! A busy server (document 02, F-13): a fixed number of deliveries in pieces, for the gate.

use compare::busy::{list, Stats};

/// Lists of the gate.
const LISTS: u64 = 400;

#[test]
fn pieces_leave_what_the_whole_leaves() {
    let mut stats = Stats::default();
    for seed in 0..LISTS {
        if let Err(f) = list(seed, &mut stats) {
            panic!("{f}");
        }
    }
    // Pieces that stop, lines that rise, manual mode, and boards that differ where the last piece is answered 8: else equality says little.
    let least = [stats.tries, stats.stopped, stats.rises, stats.manual, stats.other];
    assert!(least.iter().all(|&n| n > LISTS / 10) && stats.pieces > 2 * stats.tries && stats.entries > stats.tries, "{stats:?}");
}
