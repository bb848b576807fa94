//! The library beside RM0440's machine: fixed seeds, for the gate.

use compare::machine::{list, manual_list};
use compare::Port;
use oracle::follow::{report, Table};
use oracle::silicon::cases;

/// Lists of the gate.
const LISTS: u64 = 240;
/// Those with timers in manual mode.
const MANUAL: u64 = 30;

#[test]
fn random_lists() {
    let (mut port, mut tables) = (Port::new(), [Table::default(), Table::default()]);
    for seed in 0..LISTS {
        if let Err(failure) = list(&mut port, seed, &mut tables) {
            panic!("{failure}");
        }
    }
    let [in_time, late] = &tables;
    // A case that made no difference says nothing of its rule; lists in time lose nothing.
    for name in cases::NAMES {
        let made = |t: &Table| t.met.get(name).map_or(0, |m| m[1]);
        let lost = ["lost-update", "lost-compare", "late-flags"].contains(&name);
        assert!(made(late) > 0 && (made(in_time) > 0) != lost, "{name}\n{}", report(in_time, late));
    }
    for t in &tables {
        assert!(t.plain_steps > t.steps / 2 && t.plain_writes > t.writes / 2, "{}", report(in_time, late));
    }
}

/// Timers in manual mode: one-pulse and a reload of 0 are the manual's, and cases only of the timers beside them that are not in it.
#[test]
fn random_lists_in_manual_mode() {
    let (mut port, mut tables) = (Port::new(), [Table::default(), Table::default()]);
    for seed in 0..MANUAL {
        if let Err(failure) = manual_list(&mut port, seed, &mut tables) {
            panic!("{failure}");
        }
    }
    let pulses = |t: &Table| t.pulses;
    assert!(tables.iter().map(pulses).all(|n| n > 50), "{:?}", tables.each_ref().map(pulses));
    let blocked = |t: &Table| t.blocked;
    assert!(tables.iter().map(blocked).all(|n| n > 100), "{:?}", tables.each_ref().map(blocked));
}
