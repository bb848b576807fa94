//! Every small pilot (document 02, F-9) against the request's sentence, written as loops.

use board::{ffi, Error, OutputMode, SmallPilot, SmallPilots};

/// "reload and prescaler from 0 to n, compare from 0 to n + 1, mode 6 or 7, direction up or down", in the order named.
fn written_out(n: u32) -> Vec<SmallPilot> {
    let mut all = Vec::new();
    for reload in 0..=n {
        for prescaler in 0..=n {
            for compare in 0..=n + 1 {
                for mode in [OutputMode::Pwm1, OutputMode::Pwm2] {
                    for down in [false, true] {
                        all.push(SmallPilot { reload, prescaler, compare, mode, down });
                    }
                }
            }
        }
    }
    all
}

#[test]
fn the_list_is_the_requests() {
    for n in 0..=7 {
        let pilots = SmallPilots::new(n).unwrap();
        assert_eq!(pilots.len() as u32, 4 * (n + 1).pow(2) * (n + 2));
        assert_eq!(pilots.collect::<Vec<_>>(), written_out(n), "{n}");
    }
    assert_eq!(written_out(1).len(), 48);
}

#[test]
fn past_the_end_is_served_with_zeros() {
    let nothing = ffi::Listed { number: 0, reload: 0, prescaler: 0, compare: 0, mode: 0, down: 0 };
    for n in 0..=7 {
        let end = SmallPilots::new(n).unwrap().len() as u32;
        assert_ne!(ffi::pilot(n, end - 1).mode, 0);
        for k in [end, end + 1, 2 * end, 1 << 31, u32::MAX] {
            assert_eq!(ffi::pilot(n, k), nothing, "{n} {k}");
        }
    }
}

#[test]
fn too_wide_comes_before_anything() {
    let refused = ffi::Listed { number: 12, reload: 0, prescaler: 0, compare: 0, mode: 0, down: 0 };
    for n in [8, 9, 255, 1 << 16, u32::MAX - 1, u32::MAX] {
        for k in [0, 1, 2304, u32::MAX] {
            assert_eq!(ffi::pilot(n, k), refused, "{n} {k}");
        }
        assert_eq!(SmallPilots::new(n), Err(Error::TooWide { n }));
    }
}

/// The length is exact at every place, however the iterator got there.
#[test]
fn the_length_is_exact() {
    for n in [0, 1, 2] {
        let all = written_out(n);
        for skipped in 0..all.len() + 2 {
            let mut pilots = SmallPilots::new(n).unwrap();
            assert_eq!(pilots.nth(skipped), all.get(skipped).copied());
            assert_eq!(pilots.len(), all.len().saturating_sub(skipped + 1));
            assert_eq!(pilots.size_hint(), (pilots.len(), Some(pilots.len())));
            assert!(pilots.clone().eq(all.iter().skip(skipped + 1).copied()));
            assert_eq!(pilots.nth(usize::MAX), None);
            assert_eq!((pilots.next(), pilots.len()), (None, 0));
        }
    }
}
