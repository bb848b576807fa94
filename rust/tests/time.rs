//! Hertz, seconds, periods and compares.

use board::{Clock, Duty, LAST_CYCLE, Timing};
use std::time::Duration;

#[test]
fn cycles_at_the_ends() {
    let c = Clock::new(16e6).unwrap();
    assert_eq!((c.cycles(0.0), c.cycles(-0.0), c.cycles(f64::NAN), c.cycles(f64::INFINITY)), (Some(0), Some(0), None, None));
    assert_eq!(Clock::new(1.0).unwrap().cycles(LAST_CYCLE as f64), Some(LAST_CYCLE));
    assert_eq!(Clock::new(1.0).unwrap().cycles(LAST_CYCLE as f64 * 1.001), None);
    assert_eq!(c.cycles_in(Duration::MAX), None);
    assert_eq!(Clock::new(1e18).unwrap().cycles_in(Duration::MAX), None);
    assert_eq!(c.cycles_in(Duration::from_nanos(31)), Some(0)); // 0.496 cycles
    assert_eq!(c.cycles_in(Duration::from_nanos(32)), Some(1));
    assert_eq!(Clock::new(0.5).unwrap().cycles_in(Duration::from_secs(7)), Some(4));
    assert_eq!((c.period(0.0), c.period(-5.0), c.period(f64::NAN), c.period(16e6), c.period(40e6)), (None, None, None, Some(1), None));
    assert_eq!(c.divided(0), None);
}

/// Every timing fits its timer, comes as near as it can be, and has room for 100 %.
#[test]
fn timings() {
    let mut seed = 5u64;
    for round in 0..20_000 {
        seed = seed.wrapping_mul(6364136223846793005).wrapping_add(1442695040888963407);
        let clocks = (seed >> 20) >> (round % 40);
        for (width, most) in [(16, 0xffff), (32, 0xffff_ffff_u64)] {
            let Some(t) = Timing::of_clocks(clocks, width) else {
                assert!(clocks == 0 || clocks > most << 16);
                continue;
            };
            let k = t.prescaler as u64 + 1;
            assert!(k <= 0x1_0000 && (t.reload as u64) < most);
            // The nearest of its own prescaler, and no smaller one that fits comes as near.
            let miss = t.clocks().abs_diff(clocks);
            assert!(2 * miss <= k, "{clocks} {t:?}");
            if width == 16 {
                for smaller in clocks.div_ceil(most)..k {
                    let steps = ((clocks + smaller / 2) / smaller).min(most);
                    assert!((smaller * steps).abs_diff(clocks) > miss, "{clocks} {t:?}");
                }
            }
            assert_eq!(t.compare(Duty::percent(100).unwrap()), Some(t.reload + 1));
            assert_eq!(t.compare(Duty::percent(0).unwrap()), Some(0));
        }
    }
    assert_eq!(Timing::of_clocks(0xffff << 16, 16), Some(Timing { prescaler: 0xffff, reload: 0xfffe }));
    assert_eq!(Timing::of_clocks((0xffff << 16) + 1, 16), None);
}

/// The compare is the nearest: within half a step, and exact where the duty is whole steps.
#[test]
fn compares() {
    for reload in [0, 1, 9, 99, 999, 15_999, 0xfffe, 0xffff, 0x1_0000, 0xffff_fffe, u32::MAX] {
        let t = Timing { prescaler: 0, reload };
        let steps = reload as u64 + 1;
        for (parts, whole) in [(0, 1), (1, 3), (1, 2), (2, 3), (267, 1000), (999, 1000), (u64::MAX - 1, u64::MAX), (1, 1)] {
            let wide = parts as u128 * steps as u128;
            match t.compare(Duty::of(parts, whole).unwrap()) {
                Some(c) => assert!(2 * (c as u128 * whole as u128).abs_diff(wide) <= whole as u128, "{reload} {parts}/{whole}"),
                // What rounds to the whole of the widest reload.
                None => assert!((reload == 0xffff || reload == u32::MAX) && 2 * (steps as u128 * whole as u128 - wide) <= whole as u128),
            }
        }
        for c in (0..=steps).step_by((steps / 50).max(1) as usize) {
            let wanted = u32::try_from(c).ok().filter(|_| c < 0x1_0000 || reload > 0xffff);
            assert_eq!(t.compare(Duty::of(c, steps).unwrap()), wanted);
        }
    }
}
